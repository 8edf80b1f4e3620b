"""tools/answers: writes the proofs of straight-line callers.

`sources` and `parser` read a crate, `clause` reads what is to be proved, `caller` follows the calls
of a function, and `proof` has the lines that are written.
"""
