"""The table of messages through a service, each over a new vault: those that can't be read, and those that
just can."""

import re

from shared import messages, service, shop
from shared.files import copied
from shared.runs import run, side_by_side

BODY = messages.order()
TARGET = "/v1/merchants/shop1/tokens"
CALLER = "X-Vault-Caller: till-1"
REQUEST = "X-Vault-Request: 7"
CODING = "Transfer-Encoding: identity"
FIELDS = ("Host: vault", CALLER, REQUEST)
TOKEN = re.compile(rb'\{"expires":[0-9]{10},"token":"[0-9]{12}1111"\}')

# What is wanted of an answer: its status, the number of its refusal or `base`, and whether it closes.
GIVEN = (200, "base", False)


def closing(status, number):
    """A refusal after which the connection closes."""
    return (status, number, True)


def staying(status, number):
    """A refusal after which the connection goes on."""
    return (status, number, False)


def posted(*fields, body=BODY, sized=True):
    """A message with these fields and the body, and with the body's length where it is wanted."""
    size = (f"Content-Length: {len(body)}",) if sized else ()
    return messages.head("POST", TARGET, *fields, *size) + body


def sized(*values, more=(), body=BODY):
    """The worked message with other lengths than its own."""
    return posted(*FIELDS, *(f"Content-Length:{value}" for value in values), *more, body=body, sized=False)


def padded(size):
    """The worked message with a head of so many bytes."""
    bare = len(posted(*FIELDS, "Pad: ")) - len(BODY)
    return posted(*FIELDS, "Pad: " + "a" * (size - bare))


def fielded(many):
    """The worked message with so many fields."""
    return posted(*FIELDS, *["A: b"] * (many - 4))


BASE = posted(*FIELDS)
THIRD = b'{"number":"4111111111111111","use":"single","x":1}'
TWICE = b'{"number":"4111","number":"4111111111111111","use":"single"}'
NO_TEXT = BODY.replace(b"single", b"sing\xff")
WIDE = BODY + b" " * (4096 - len(BODY))

TABLE = (
    ("the worked message", BASE, [GIVEN]),
    ("a line without a colon", messages.head("POST", TARGET, "A b"), [closing(400, 50)]),
    ("33 fields and no more", messages.head("POST", TARGET, *["A: b"] * 33), [closing(431, 51)]),
    ("32 fields", fielded(32), [GIVEN]),
    ("33 fields", fielded(33), [closing(431, 51)]),
    ("a head of 8192 bytes", padded(8192), [GIVEN]),
    ("a head of 8193 bytes", padded(8193), [closing(431, 51)]),
    ("9000 bytes without a line's end", b"P" * 9000, [closing(431, 51)]),
    ("a coding and two lengths", sized(" 44", " 44", more=[CODING]), [closing(411, 53)]),
    ("a coding in other letters", sized(" 44", more=[CODING.swapcase()]), [closing(411, 53)]),
    ("a length with a sign", sized(" +44"), [closing(400, 52)]),
    ("a length below 0", sized(" -44"), [closing(400, 52)]),
    ("two lengths in a field", sized(" 44, 44"), [closing(400, 52)]),
    ("two lengths in two fields", sized(" 44", " 44"), [closing(400, 52)]),
    ("an empty length", sized(""), [closing(400, 52)]),
    ("a length of white space", sized(" \t "), [closing(400, 52)]),
    ("a length in another base", sized(" 0x2c"), [closing(400, 52)]),
    ("a length with a space in it", sized(" 4 4"), [closing(400, 52)]),
    ("a length with a zero before it", sized(" 044"), [GIVEN]),
    ("a length with many zeros", sized(" " + "0" * 60 + "44"), [GIVEN]),
    ("a length without a space", sized("44"), [GIVEN]),
    ("a length between spaces", sized(" \t44\t "), [GIVEN]),
    ("a body of 4096 bytes", posted(*FIELDS, body=WIDE), [GIVEN]),
    ("a body of 4097 bytes", posted(*FIELDS, body=WIDE + b" "), [closing(413, 54)]),
    ("a length of 23 digits", sized(" " + "9" * 23), [closing(413, 54)]),
    ("a length that wraps round 64 bits", sized(f" {2**64 + 44}"), [closing(413, 54)]),
    ("a body of brackets", posted(*FIELDS, body=b"[" * 200), [staying(400, 59)]),
    ("a body of 4096 brackets", posted(*FIELDS, body=b"[" * 4096), [staying(400, 59)]),
    ("a body that isn't UTF-8", posted(*FIELDS, body=NO_TEXT), [staying(400, 59)]),
    ("a third member", posted(*FIELDS, body=THIRD), [staying(400, 59)]),
    ("a member twice, of which the last one counts", posted(*FIELDS, body=TWICE), [GIVEN]),
    ("a body cut short by its length", sized(" 43"), [staying(400, 59), closing(400, 50)]),
    ("no body", posted(*FIELDS, body=b""), [staying(400, 59)]),
    ("two callers", posted(*FIELDS, CALLER), [staying(400, 58)]),
    ("two request numbers", posted(*FIELDS, REQUEST), [staying(400, 58)]),
    ("no caller", posted(REQUEST), [staying(400, 58)]),
    ("the worked message thrice, with a sign in the second length", BASE + sized(" +44") + BASE,
     [GIVEN, closing(400, 52)]),
    ("the worked message thrice", BASE * 3, [GIVEN, GIVEN, GIVEN]),
    ("HTTP/1.0, twice", BASE.replace(b"HTTP/1.1", b"HTTP/1.0") * 2, [(200, "base", True)]),
    ("HTTP/2.0", BASE.replace(b"HTTP/1.1", b"HTTP/2.0"), [closing(400, 50)]),
    ("Connection: close, and a message more", posted(*FIELDS, "Connection: a, CLOSE ,b") + BASE,
     [(200, "base", True)]),
    ("lines that end with LF alone", BASE.replace(b"\r\n", b"\n"), [GIVEN]),
    ("empty lines before it", b"\r\n\n\r\n" + BASE, [GIVEN]),
    ("a field on two lines", posted("Host: a\r\n b", CALLER, REQUEST), [closing(400, 50)]),
    ("a space before a colon", posted("Host : vault", CALLER, REQUEST), [closing(400, 50)]),
    ("a zero byte in a field", posted("Host: va\0ult", CALLER, REQUEST), [closing(400, 50)]),
    ("a head that isn't whole", BASE[:60], []),
    ("a body that isn't whole", BASE[:-1], []),
    ("nothing", b"", []),
)


def shape(answer):
    """What is compared of an answer."""
    if TOKEN.fullmatch(answer.body):
        return (answer.status, "base", answer.closes)
    refused = re.fullmatch(rb'\{"refused":([0-9]+)\}', answer.body)
    return (answer.status, int(refused[1]) if refused else answer.body, answer.closes)


def fault_of(program, file, sent, wanted):
    """What is wrong with the answers of a service to some bytes."""
    with service.Service(program, "--connections", 1, file) as served:
        if served.port is None:
            return f"no service: {served.ended()}"
        with served.connect() as peer:
            came = service.send(peer, [sent])
        ended = served.ended()
    try:
        found = [shape(answer) for answer in messages.answers_in(came)]
    except messages.NoAnswer as other:
        return str(other)
    if found != wanted:
        return f"wanted {wanted}, but came {found}"
    if ended.status != 0:
        return f"the service: {ended}"
    made = int(GIVEN[:2] in [answer[:2] for answer in wanted])
    checked = run(program, "check", file)
    if checked.out != f"sound 1 {made} {made}\n".encode():
        return f"the file after it: {checked}"
    return ""


def try_all(program, folder, tally):
    """Sends each message of the table to a service of its own."""
    empty = folder / "empty.db"
    shop.made(program, empty, 86400, 31536000, shop.TILL)

    def tried(numbered):
        place, (_, sent, wanted) = numbered
        file = folder / f"message{place}.db"
        copied(empty, file)
        return fault_of(program, file, sent, wanted)

    for (name, _, wanted), fault in zip(TABLE, side_by_side(tried, enumerate(TABLE))):
        kinds = ", ".join(str(answer[1]) for answer in wanted) or "none"
        tally.judge(name, fault, f"answered as it should: {kinds}")
