"""The log of the fronts: what is kept, and who it tells of."""
