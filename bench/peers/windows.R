# The window of a document on standard input, by data.table: a line for each row.
suppressPackageStartupMessages(library(data.table))
name <- commandArgs(TRUE)[1]
document <- jsonlite::fromJSON(readLines(file("stdin"), warn = FALSE), simplifyVector = TRUE)
frame <- setNames(as.data.table(document$columns$values), document$columns$name)
frame[, row := .I]
made <- switch(name,
  sum = frame[, made := sum(x), by = k][, .(made)],
  order = frame[order(x), made := shift(x, 1), by = k][order(row), .(made)],
  explode = frame[, .(x), by = k][, .(x)])
fwrite(made, quote = FALSE)
