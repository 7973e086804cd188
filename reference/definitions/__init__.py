"""The definitions of `omega` as plain functions over lists, a file for each subject, as `specs/` of the crates."""
