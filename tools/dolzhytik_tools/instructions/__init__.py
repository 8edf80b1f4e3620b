"""tools/instructions: writes the code, definitions and test rows that follow from the table of
instructions."""
