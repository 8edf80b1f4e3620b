"""The tests of the tools. The commands *-test beside this package run them."""
