"""Messages through the program: they stand on standard input, a vault in a file, answers go to standard
output. What run.py and batch.py have of it.
"""

import subprocess

import settings  # noqa: F401
from model import cards  # which settings lets Python find


def message(request, number=None, use="single"):
    """A message that asks for a token with this request number: of its own card, where none is named."""
    body = f'{{"number":"{number or cards.number_at(request)}","use":"{use}"}}'
    return (
        "POST /v1/merchants/shop1/tokens HTTP/1.1\r\nHost: vault\r\nX-Vault-Caller: till-1\r\n"
        f"X-Vault-Request: {request}\r\nContent-Length: {len(body)}\r\n\r\n{body}"
    )


def write_messages(path, first, many):
    path.write_text("".join(message(first + i) for i in range(many)), newline="")


def made_vault(program, vault):
    """A vault whose single-use tokens live a year, with one token."""
    for words in ("merchant shop1 31536000 0", "grant till-1 shop1 tokenize"):
        name, *rest = words.split()
        subprocess.run([program, name, vault, *rest], stdout=subprocess.DEVNULL, check=True)
    first = message(1).encode()
    subprocess.run([program, "pipe", vault], input=first, stdout=subprocess.DEVNULL, check=True)
