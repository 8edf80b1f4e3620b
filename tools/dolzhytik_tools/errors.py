"""The error of every tool that reads sources."""


class Stop(Exception):
    """An input of a form that the tool does not know, in words."""
