"""The description of the API against what the service answers."""
