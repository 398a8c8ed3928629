"""A second reader of the bytes of a connection: which messages they are, and which commands these ask for,
which the model answers. It is written by README.md and docs/REFUSALS.md, and uses none of the program's code.

Of heads these say little; there it goes by RFC 9112. It takes that RFC's leave to end a line with LF alone,
and to pass over empty lines before a message. A target has any bytes of UTF-8 but white space and control
bytes. Where several refusals apply to a message, the reader takes the one that is found first: in the target
and its method, then in the fields, then in the body, and then in the vault."""
