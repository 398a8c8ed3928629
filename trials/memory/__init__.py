"""Jobs of the program to which one request for memory is refused."""
