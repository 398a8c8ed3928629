"""The vault in Python, written from the words of the definitions in specs/ and of docs/REFUSALS.md: what it
holds, what a command is answered and what it changes. It shares nothing with the program."""
