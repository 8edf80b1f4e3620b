"""tools/wrong-bodies: tries mutants, and keeps the ledger of the rejected ones.

`edits` reads mutants, `trying` checks them, `report` reads what a check prints, and `checksums`
says of what a verdict depends.
"""
