# Prints [key,sum,rows] for each value of k, in order of first appearance.
# jq -c -f sum_and_length.jq < DOCUMENT ; it changes one object with an entry for each group in place.
.columns[0].values as $k | .columns[1].values as $x
| reduce range($k | length) as $row ({};
    ($k[$row] | tojson) as $key | .[$key] as $group
    | setpath([$key];
        if $group then [$k[$row], $group[1] + $x[$row], $group[2] + 1]
        else [$k[$row], $x[$row], 1] end))
| .[]
