"""The page for the back office in a browser."""
