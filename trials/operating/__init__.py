"""The blocks of the page for operators, run as they stand."""
