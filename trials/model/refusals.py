"""The refusals that a message is answered: which status each number has."""

STATUSES = {
    400: (1, 2, 3, 4, 5, 19, 50, 52, 58, 59),
    403: (8,),
    404: (7, 13, 56),
    405: (57,),
    409: (10, 17),
    410: (14, 15, 16),
    411: (53,),
    413: (54,),
    422: (9,),
    431: (51,),
    503: (12,),
    507: (11,),
}
STATUS = {number: status for status, numbers in STATUSES.items() for number in numbers}


def refused(number):
    """The answer of a refusal."""
    return STATUS[number], {"refused": number}
