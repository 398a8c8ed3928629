"""A front by HAProxy before two vaults."""
