"""Runs of the program over a disk that is full, or that fails at some call."""
