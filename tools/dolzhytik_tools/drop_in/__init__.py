"""tools/drop-in: writes the flat instructions of the Cargo package, their named calls, and their
test."""
