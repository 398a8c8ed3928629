"""Runs of the program that are killed at random moments, and what its file has then."""
