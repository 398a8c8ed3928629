"""A batch through a front, while the service runs."""
