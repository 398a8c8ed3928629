"""What the fields of a head say: the length of the body, who asks, and whether the connection goes on."""

MOST_BODY = 4096


def values(head, name):
    """The values of the fields of a name."""
    return [value for other, value in head.fields if other == name]


def sole(head, name):
    """The value of the one field of a name, or None."""
    found = values(head, name)
    return found[0] if len(found) == 1 else None


def body_size(head):
    """How long the body is, and None; or 0 and the number of the refusal."""
    if values(head, b"transfer-encoding"):
        return 0, 53
    lengths = values(head, b"content-length")
    if not lengths:
        return 0, None
    if len(lengths) > 1 or not is_digits(lengths[0]):
        return 0, 52
    size = lengths[0].lstrip(b"0") or b"0"
    if len(size) > 4 or int(size) > MOST_BODY:
        return 0, 54
    return int(size), None


def is_digits(text):
    """Whether a text is one or more digits."""
    return bool(text) and all(48 <= byte <= 57 for byte in text)


def closes(head):
    """Whether the connection ends behind the message."""
    options = b",".join(values(head, b"connection")).lower().split(b",")
    return head.minor == 0 or b"close" in (option.strip(b" \t") for option in options)
