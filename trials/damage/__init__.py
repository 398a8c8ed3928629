"""Changed and damaged files, and messages that are none, and what the program says of them."""
