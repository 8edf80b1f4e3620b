"""tools/kinds: writes the rows that each kind of section has in code, definitions, proofs and tables."""
