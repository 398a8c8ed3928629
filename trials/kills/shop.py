"""A shop: a vault's file with what is known of it, and the commands that a trial draws for it."""

import itertools
import json
import time

from model import cards
from model.known import Known
from model.rules import DONE, state
from model.vault import MULTI, RIGHTS, SINGLE, Command
from shared import rows
from shared.files import removed
from shared.runs import must
from shared.shop import made

MERCHANTS = {"shop1": (3600, 86400, 6), "shop2": (4, 15, 8)}
CALLERS = ("till-1", "till-2")
KINDS = ("new", "again", "other", "detokenize", "view", "revoke", "purge", "audit", "guest")
WEIGHTS = (46, 9, 3, 14, 7, 9, 7, 3, 2)


def clock():
    """The second that it is."""
    return int(time.time())


class Shop:
    """A vault's file. `moment` is what the clock says, and at times more, so that tokens expire."""

    def __init__(self, program, path, random):
        self.program, self.path, self.random = program, path, random
        self.known = Known()
        self.request = 0
        self.ahead = 0

    def furnish(self):
        """Sets the merchants, and gives the rights that messages need."""
        now = clock()
        for name, (single, multi, lead) in MERCHANTS.items():
            made(self.program, self.path, single, multi, {}, name, now, lead)
            self.done(Command("merchant", "", name, lives=(single, multi, lead)), now)
        text, rights = "", {caller: ["tokenize"] for caller in CALLERS} | {"back": list(RIGHTS)[1:]}
        for caller, words in rights.items():
            text += f"[{caller}]\n" + "".join(f"{name} = {json.dumps(words)}\n" for name in MERCHANTS)
            for name, given in itertools.product(MERCHANTS, words):
                self.done(Command("grant", caller, name, given=given), now)
        path = self.path.with_name("furnish.toml")
        path.write_text(text)
        must(self.program, "rights", "--now", now, self.path, path)

    def done(self, command, now):
        """A command was done at a moment."""
        self.known.take(command, [now], DONE)

    def moment(self):
        """A moment to hand in: now, or later, or earlier."""
        if self.random.random() < 0.1:
            self.ahead += self.random.randrange(5000)
        behind = self.random.randrange(10000) if self.random.random() < 0.1 else 0
        return clock() + self.ahead - behind

    def look(self):
        """Reads the file, which tells moments that are open: what is wrong with its rows."""
        _, found = rows.read(self.path)
        lost = self.known.settle([], [], found) is None
        return f"rows: {self.known.differing(found)} differ" if lost else ""

    def lower(self, version):
        """Writes the file anew in an older schema."""
        _, found = rows.read(self.path)
        found = rows.lowered(found, version)
        removed(self.path)
        rows.write(self.path, found, version)
        self.known.reset(found)

    def merchant(self):
        return self.random.choice(list(MERCHANTS))

    def new_request(self, merchant=None, caller=None):
        """A command that asks for a token by a new request."""
        self.request += 1
        use = SINGLE if self.random.random() < 0.7 else MULTI
        number = cards.drawn(self.random)
        caller = caller or self.random.choice(CALLERS)
        merchant = merchant or self.merchant()
        return Command("tokenize", caller, merchant, request=self.request, number=number, use=use)

    def keys(self, kind):
        return [key for key in self.known.rows.rows if key[0] == kind]

    def again(self, key):
        """The command of a request that was recorded; where its number is purged, with one that fits."""
        record = self.known.rows.get(key)
        number = self.known.rows.get(("entry", record.merchant, record.token)).number
        number = number or fitting(record.token)
        return Command("tokenize", key[1], record.merchant, "", key[2], number, record.use)

    def command(self):
        """A command of a message, of any kind."""
        [kind] = self.random.choices(KINDS, WEIGHTS)
        records, entries = self.keys("record"), self.keys("entry")
        if kind == "audit":
            return Command("audit", "back", self.merchant())
        if kind == "new" or not records:
            return self.new_request()
        if kind in ("again", "other"):
            command = self.again(self.random.choice(records))
            return command if kind == "again" else command._replace(number=cards.completed("98765432101"))
        _, merchant, token = self.random.choice(entries[-60:])
        if kind == "guest":
            return Command("detokenize", "guest", merchant, token)
        return Command(kind, "back", merchant, token)

    def dead(self, merchant, now):
        """The tokens of a merchant that are dead at a moment, as a sweep lists them."""
        get = self.known.rows.get
        now = max(now, get(("merchant", merchant)).moment)
        found = []
        for key in self.keys("entry"):
            if key[1] == merchant and state(get(key), now) in ("revoked", "expired"):
                found.append(key[2])
        return sorted(found)


def fitting(token):
    """A card number that a purged token may have stood for."""
    for front in range(10):
        number = f"{front}{token[1:]}"
        for digit in range(10):
            found = number[:1] + str(digit) + number[2:]
            if cards.passes(found):
                return found
    raise ValueError("no number")
