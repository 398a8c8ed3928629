"""Cuts of the power: a disk that writes down what comes to it, and each state that a cut may leave of it."""
