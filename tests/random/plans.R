# Runs the plans that by_data_table.py writes: each file of this folder whose name is a number is one. What it gives goes to a CSV file, in
# which a null is empty and not in quotes, or why it gives nothing to another.
suppressPackageStartupMessages(library(data.table))
invisible(Sys.setlocale("LC_COLLATE", "C"))
setDTthreads(1)

# Numbers that are whole for sure.
exact <- function(x) {
    if (any(abs(x) > 2^53, na.rm = TRUE)) stop("not exact")
    x
}

nonzero <- function(x) replace(x, which(x == 0), NA)

alike <- function(x, y) fcoalesce(x == y, FALSE) | (is.na(x) & is.na(y))

# The least or the greatest of the values that are there. (R's of truth values are numbers.)
among <- function(x, least) if (all(is.na(x))) x[1L] else as(least(x, na.rm = TRUE), class(x))

# Rolling sums; the first windows are shorter.
rolled <- function(x, window, samples) {
    if (length(x) == 0) return(numeric(0))
    exact(sum(abs(x), na.rm = TRUE))
    added <- function(x) frollsum(x, pmin(seq_along(x), window), adaptive = TRUE)
    fifelse(added(as.numeric(!is.na(x))) >= samples, added(fcoalesce(x, 0)), NA_real_)
}

# A column as texts. (Zero has a sign in R.)
written <- function(x) {
    if (is.logical(x)) return(tolower(as.character(x)))
    if (is.numeric(x)) ifelse(is.na(x), NA, sprintf("%.0f", x + 0)) else x
}

for (plan in dir(pattern = "^[0-9]+$")) {
    tryCatch(
        fwrite(setDT(lapply(source(plan, local = new.env())$value, written)), paste0(plan, ".csv"), quote = TRUE),
        error = function(e) writeLines(conditionMessage(e), paste0(plan, ".error"))
    )
}
