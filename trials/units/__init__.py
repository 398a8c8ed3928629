"""The units of the package on their second day, on a machine of its own."""
