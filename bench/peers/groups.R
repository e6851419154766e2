# The group step of a document on standard input, by data.table: a line for each group.
suppressPackageStartupMessages(library(data.table))
step <- commandArgs(TRUE)[1]
document <- jsonlite::fromJSON(readLines(file("stdin"), warn = FALSE), simplifyVector = TRUE)
frame <- setNames(as.data.table(document$columns$values), document$columns$name)
made <- switch(step,
  ten = frame[, .(sum(a), min(a), max(a), a[1], a[.N], uniqueN(b), sum(!is.na(a)), .N, sum(a * b), sum(a[a < b])), by = k],
  slice = frame[, .(toString(head(sort(a), 3))), by = k],
  list = frame[, .(toString(a)), by = k])
fwrite(made, quote = FALSE)
