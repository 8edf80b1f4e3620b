"""tools/called: names public functions that no other proved crate calls.

`types` and `definitions` read the sources, `walk` and `expressions` follow a body, and `command`
compares.
"""
