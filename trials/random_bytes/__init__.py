"""Bytes from a seed, sent to the program in many cuttings, and compared with what a second reader expects."""
