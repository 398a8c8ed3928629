"""A front over TLS before two vaults."""
