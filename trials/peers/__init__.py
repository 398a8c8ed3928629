"""Peers of a service that are slow, idle or without an end."""
