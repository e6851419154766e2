# The rows that a step of this name makes of the columns a, b and c.
# jq -c --arg step STEP -f steps.jq < DOCUMENT
[.columns[].values] | transpose
| if $step == "arithmetic" then .[] | [.[0] * .[1] + .[2]]
  elif $step == "when" then .[] | [if .[0] < .[1] then .[0] else .[1] end]
  elif $step == "filter" then .[] | select(.[0] < .[1])
  elif $step == "sort_by" then sort_by(.[0], - .[1])[] | [.[2]]
  else ([range(0; 3000; 3) | {key: tostring, value: true}] | from_entries) as $among
    | .[] | .[0] as $value | [$among | has($value | tostring)] end
