"""Streams of bytes from a seed: messages that ask for something, messages with a fault, and bytes that were
changed, cut short or joined."""

from random_bytes import grounds

NUMBERS = (
    *(number for _, _, number, _, _ in grounds.TOKENS), "4111-1111-1111-1111", "4222 2222 2222 2",
    "0000-000000", "4111111111111112", "411111111", "41111111111111111111", "4111  111111111111",
    " 4111111111111111", "", "\uff14111111111111111",
)
USES = ("single", "multi", "single", "multi", "often", "", "Single")
CALLERS = ("till-1", "back", "till-2", "guest", "Back", "", "abcdefghijklmnopq", "back ")
MERCHANTS = ("shop1", "shop2", "shop3", "shop4", "Shop1", "%73hop1", "shop1?")
REQUESTS = (
    "1", "2", "7", "8", "9", "10", "11", "9223372036854775807", "9223372036854775808", "0", "07", "-1", "",
)
VERSIONS = ("HTTP/1.1", "HTTP/1.0", "HTTP/1.2", "HTTP/2", "http/1.1")
ODD = (0, 9, 10, 13, 32, 58, 127, 128, 192, 255)
METHODS = ("GET", "POST", "DELETE", "HEAD", "PUT", "get", "OPTIONS", "G", "!#$%&'*+-.^_`|~")
TARGETS = (
    "/", "*", "/v1", "/v1/merchants/shop1", "/v1/merchants//tokens", "/v1/merchants/shop1/tokens/",
    "/v1/merchants/shop1/tokens?x", "http://vault/v1/merchants/shop1/audit", "/v1/merchants/shop1/audit/",
    "//v1/merchants/shop1/audit", "/v1/merchants/sh\u00f6p/audit", "/v1/merchants/shop1/tokens/1/number/",
    "/v1/merchants/shop1/tokens/{t}/number", "/V1/merchants/shop1/audit",
)
LENGTHS = (
    "+44", "44, 44", "", "044", "4096", "4097", "99999999999999999999999", "0x10", "1e1", "-0",
    "18446744073709551660",
)
FIELDS = (
    "Host: vault", "A: b", "Accept: */*", "Expect: 100-continue", "Connection: keep-alive", "Empty:",
    "X-Vault-Callers: back", "Tabs:\t a \t", "High: \u00e9\u0080", "Connection: Upgrade, keep-alive",
    "Content-Type: text/plain",
)
FAULTY_FIELDS = (
    "A b", ": b", " A: b", "A : b", "A\t: b", "A: \0", "A: \x7f", "A: b\rc", "Caf\u00e9: b", "(A): b",
    "Transfer-Encoding: chunked", "Transfer-Encoding:", "X-Vault-Caller: back", "X-Vault-Request: 9",
    "Connection: close", "Connection: x , cLoSe", "Content-Length: 0", "Content-Length: 44",
)
BODIES = (
    b"", b"{}", b"[]", b"null", b"[" * 200, b'"number"', b'{"number":1,"use":"single"}',
    b'{"number":"4111111111111111"}',
    b'{"number":"4111111111111111","use":"single","x":1}',
    b'{"number":"4111111111111111","use":"single"},',
    b'{"number":"4111111111111111","use":"single",}',
    b'{"number":"4111111111111111","use":"sing\xff"}',
    b'\xef\xbb\xbf{"number":"4111111111111111","use":"single"}',
    b"{'number':'4111111111111111','use':'single'}",
    b'{"number":"4111111111111111","use":null}',
    b'{"Number":"4111111111111111","use":"single"}',
    b'{"number":"4111111111111111","use":"si\ngle"}',
    b'{"number":NaN,"use":"single"}',
    b'{"number":"4111","number":"4111111111111111","use":"multi"}',
    b'{"number":"\\ud800","use":"single"}',
    b'{"n\\u0075mber":"4111111111111111","use":"sing\\u006ce"}',
    b' {\t"use" :\r\n"multi" , "number": "4222222222222" } ',
    b'{"number":"4111111111111111","use":"single"}\0',
    b'{"number":"4111\\u003111111111111","use":"multi"}',
)


class Maker:
    """One stream's choices. `tokens` are those that the vault has, each behind its merchant."""

    def __init__(self, chosen, tokens):
        self.chosen = chosen
        self.tokens = tokens
        self.fewer = chosen.choice((1, 1, 4, 20))

    def one(self, first, *others):
        """Mostly the first, or else one of the others."""
        return self.chosen.choice(others) if others and self.chosen.random() < 0.15 else first

    def seldom(self, chance):
        """Whether something with this chance happens, which has a smaller one in calm streams."""
        return self.chosen.random() < chance / self.fewer

    def token(self, shop):
        """A token of a merchant, or of any other one, or a text that is none."""
        owned = [token for merchant, token in self.tokens if merchant == shop]
        made = self.chosen.choice(owned or [token for _, token in self.tokens])
        others = ("0000000000001111", "4111111111111111", "1", "12345678901234567890", "abcdefghijkl")
        return self.one(made, *others)

    def target(self):
        """What a message may be sent to, with a method for it."""
        shop = self.one(self.chosen.choice(MERCHANTS[:3]), *MERCHANTS)
        at, token = f"/v1/merchants/{shop}", self.token(self.one(shop, *MERCHANTS[:3]))
        method, target = self.chosen.choice((
            ("POST", f"{at}/tokens"), ("POST", f"{at}/tokens"), ("POST", f"{at}/tokens"),
            ("GET", f"{at}/tokens/{token}"), ("DELETE", f"{at}/tokens/{token}"),
            ("POST", f"{at}/tokens/{token}/number"), ("POST", f"{at}/tokens/{token}/revoke"),
            ("GET", f"{at}/audit"),
        ))
        if self.seldom(0.06):
            method = self.chosen.choice(METHODS)
        return method, self.chosen.choice(TARGETS) if self.seldom(0.06) else target

    def body(self):
        """A body that asks for a token, or another one."""
        if self.seldom(0.12):
            return self.chosen.choice(BODIES)
        number = self.one(self.chosen.choice(NUMBERS[:10]), *NUMBERS)
        text = f'{{"number":"{number}","use":"{self.chosen.choice(USES[: self.one(4, 7)])}"}}'.encode()
        if self.seldom(0.03):
            text += b" " * (self.chosen.choice((4095, 4096, 4097)) - len(text))
        return text

    def fields(self, is_order, size):
        """The fields of a message, in some order."""
        caller = self.one("till-1" if is_order else "back", *CALLERS)
        found = [f"{self.one('X-Vault-Caller', 'x-vault-caller', 'X-VAULT-CALLER')}: {caller}"]
        if is_order:
            request = self.one(*self.chosen.sample(REQUESTS, 4))
            found.append(f"X-Vault-Request:{self.one(' ', '', '  ')}{request}")
        if size or self.seldom(0.2):
            value = self.chosen.choice(LENGTHS) if self.seldom(0.05) else size
            found.append(f"{self.one('Content-Length', 'content-length')}: {value}")
        for fields, chance in ((FIELDS, 0.5), (FAULTY_FIELDS, 0.12)):
            while self.seldom(chance):
                found.append(self.chosen.choice(fields))
        if self.seldom(0.05):
            del found[self.chosen.randrange(len(found))]
        if self.seldom(0.04):
            found += ["A: b"] * (self.chosen.choice((31, 32, 33, 40)) - len(found))
        if self.seldom(0.5):
            self.chosen.shuffle(found)
        return found

    def message(self):
        """One message."""
        method, target = self.target()
        is_order = target.endswith("/tokens") and method == "POST"
        body = self.body() if is_order or self.seldom(0.05) else b""
        fields = self.fields(is_order, len(body))
        end = self.one("\r\n", "\r\n", "\r\n", "\r\n", "\n")
        version = self.chosen.choice(VERSIONS[1:]) if self.seldom(0.06) else VERSIONS[0]
        before = self.chosen.choice(("\r\n", "\n", "\r\n\r\n", "\r", " ")) if self.seldom(0.05) else ""
        text = before + end.join((f"{method} {target} {version}", *fields, "", ""))
        if self.seldom(0.04):
            text = self.padded(text, end)
        return text.encode("utf-8" if self.seldom(0.8) else "latin-1", "replace") + body

    def padded(self, text, end):
        """A head with a field that makes it about as long as a head may be."""
        size = self.chosen.choice((8100, 8191, 8192, 8193, 9000)) - len(text.encode()) - len(f"Pad: {end}")
        return text[: -len(end)] + f"Pad: {'a' * max(size, 0)}{end}{end}"

    def changed(self, text):
        """Bytes with a few of them changed, left out, put in or moved."""
        found = bytearray(text)
        for _ in range(self.chosen.choice((1, 1, 1, 2, 5))):
            at = self.chosen.randrange(len(found) + 1)
            to = min(len(found), at + self.chosen.choice((1, 1, 2, 8, 40)))
            piece = bytes(found[at:to])
            odds = (*ODD, self.chosen.randrange(256))
            odd = bytes(self.chosen.choices(odds, k=self.chosen.choice((1, 1, 2))))
            others = (odd, odd, odd + piece, b"", piece * 2, piece[::-1], piece.swapcase())
            found[at:to] = self.chosen.choice(others)
        return bytes(found)

    def stream(self):
        """The bytes of a connection."""
        parts = [self.message() for _ in range(self.chosen.choice((1, 2, 3, 4, 6, 9)))]
        if self.seldom(0.35):
            place = self.chosen.randrange(len(parts))
            parts[place] = self.changed(parts[place])
        if self.seldom(0.1):
            self.chosen.shuffle(parts)
            parts.append(parts[0])
        text = b"".join(parts)
        if self.seldom(0.15):
            text = text[: self.chosen.randrange(len(text) + 1)]
        if self.seldom(0.1):
            text += self.chosen.randbytes(self.chosen.choice((1, 3, 40)))
        return text
