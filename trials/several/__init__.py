"""Several vaults behind one front."""
