"""The vault over which streams are answered: made by the program in a file, and by the model in memory, by
the same commands."""

import random

from model.vault import RIGHTS as NUMBERS
from model.vault import Merchant, Rows
from reader import answers
from shared import messages, shop
from shared.files import copied
from shared.runs import must

# The moment of all streams in a pipe, and the moments of the commands before.
NOW = 2000
EARLY = 1000
LATE = 3000
AGE = 3155760000

# Merchants with the lives of their tokens, their leads and their moments. That of shop3 is ahead of NOW.
MERCHANTS = (
    ("shop1", 60, 5000, 6, EARLY),
    ("shop2", 0, AGE, 8, EARLY),
    ("shop3", AGE, 70, 6, LATE),
)
# Rights with their ends: one has come at NOW, and one hasn't.
RIGHTS = (
    ("till-1", "shop1", "tokenize", None),
    ("till-1", "shop2", "tokenize", None),
    ("till-1", "shop3", "tokenize", None),
    ("till-2", "shop1", "tokenize", NOW),
    ("till-2", "shop1", "view", NOW + 1),
    *(("back", shop, right, None) for shop in ("shop1", "shop2") for right in list(NUMBERS)[1:]),
    ("back", "shop3", "view", None),
)
# Tokens by their requests: merchant, number, use, and what is done with the token then.
TOKENS = (
    (1, "shop1", "4111111111111111", "single", ""),
    (2, "shop1", "4111111111111111", "multi", ""),
    (3, "shop1", "4222222222222", "multi", "revoke"),
    (4, "shop1", "6304000000000000000", "single", "purge"),
    (5, "shop2", "0000000000", "multi", ""),
    (6, "shop3", "5555555555554444", "single", ""),
    (7, "shop2", "378282246310005", "multi", "number"),
)


class Ground:
    """The file, the same vault in the model, and the digits that each message of a pipe draws."""

    def __init__(self, program, folder, seed):
        self.program = program
        self.folder = folder
        self.file = folder / "ground.db"
        self.digits = "".join(random.Random(seed).choices("0123456789", k=300))
        self.rows = Rows()
        self.tokens = []
        self.set_merchants()
        self.make_tokens()

    def set_merchants(self):
        for name, single, multi, lead, moment in MERCHANTS:
            shop.made(self.program, self.file, single, multi, {}, name, moment, lead)
            self.rows.put({("merchant", name): Merchant(single, multi, lead, moment)})
        for caller, name, right, end in RIGHTS:
            shop.granted(self.program, self.file, {caller: (right,)}, name, EARLY, end)
            self.rows.put({("right", caller, name, NUMBERS[right]): (end,)})

    def make_tokens(self):
        for request, merchant, number, use, then in TOKENS:
            made = self.ask(EARLY, messages.token_asked(request, messages.order(number, use), merchant))
            token = made.body.split(b'"')[5].decode()
            self.tokens.append((merchant, token))
            target = f"/v1/merchants/{merchant}/tokens/{token}"
            if then in ("revoke", "number"):
                self.ask(EARLY, messages.asked("POST", f"{target}/{then}"))
            elif then:
                self.ask(EARLY + 60, messages.asked("DELETE", target))

    def ask(self, now, message):
        """The program's answer to one message, which has to be the reader's, and a success."""
        words = ("pipe", "--now", now, "--digits", self.digits, self.file)
        came = messages.answers_in(must(self.program, *words, given=message).out)[0]
        due = answers.dialogue(self.rows, message, now, answers.drawn(self.digits)).answers[0]
        if (came.status, came.body) != (200, due.body):
            raise SystemExit(f"the vault of the trial: {came.status}, {due}\n0 passed, 1 failed")
        return came

    def copied(self, name):
        """A copy of the file with its log."""
        return copied(self.file, self.folder / name)

    def expected(self, text, now=NOW, draw=None):
        """What the reader says to the bytes of a stream, and the rows after them."""
        after = Rows(self.rows.rows)
        return answers.dialogue(after, text, now, draw or answers.drawn(self.digits)), after
