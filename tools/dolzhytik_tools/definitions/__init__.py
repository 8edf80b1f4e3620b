"""The definitions in crates/*/specs: their text, what their words mean, and the pages of them.

`specs` reads the files, `library` finds what a name means, `terms` the words of a term, and `pages`
writes the module `dolzhytik::definitions`.
"""
