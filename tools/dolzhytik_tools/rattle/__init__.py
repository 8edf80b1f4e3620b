"""Reads sources of Rattle: tokens, brackets, items, and the names of functions in the prover."""
