"""What a job takes that no clause sees: its memory, and the length of its log."""
