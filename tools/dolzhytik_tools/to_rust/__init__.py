"""tools/to-rust: writes the Cargo packages under rust/ from the proved sources.

`steps` has the changes of a source in their order, `source` the tokens that they change, and
`render` the text that is written.
"""
