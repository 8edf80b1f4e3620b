"""The commands of tools/: each file beside this package is a thin script over one of its
modules."""
