"""A service that follows its lists of merchants and of rights."""
