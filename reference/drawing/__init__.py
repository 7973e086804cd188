"""Random tables, words and kept lines, rich in edge cases; the same at each call with the same number."""
