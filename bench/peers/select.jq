# The rows of the ten columns, each with the two literals behind it.
[.columns[].values] | transpose[] | . + [5, "text"]
