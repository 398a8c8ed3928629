"""Runs of the program by words, input and files, each with what it says and leaves."""
