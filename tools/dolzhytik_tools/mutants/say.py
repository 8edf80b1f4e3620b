"""The lines of the tool."""


def say(text: str) -> None:
    """Prints a line at once."""
    print(f"wrong-bodies: {text}", flush=True)
