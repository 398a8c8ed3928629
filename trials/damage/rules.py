"""The fifteen rules of a sound vault over rows as they were read, by docs/REFUSALS.md."""

import re

from model.cards import passes

NAME = re.compile(rb"[a-z0-9-]{1,16}")
DIGITS = re.compile(rb"[0-9]{10,19}")
LONGEST = 3155760000
LAST = 253402300799
MOST = 4611686018427387903


def is_name(text):
    """Whether a text is a name."""
    return bool(NAME.fullmatch(text))


def is_card(text):
    """Whether a text is a card number."""
    return bool(DIGITS.fullmatch(text)) and passes(text.decode())


def is_token(text):
    """Whether a text is a token."""
    return bool(DIGITS.fullmatch(text)) and not passes(text.decode())


class Rules:
    """The rules over rows by the names of their tables; each is a method of its number."""

    def __init__(self, rows):
        self.rows = {table: list(found.values()) for table, found in rows.items()}
        self.merchants = {row["name"]: row for row in self.rows["merchants3"]}
        self.cards = {row["id"]: row for row in self.rows["cards2"]}
        self.entries = {(row["merchant"], row["token"]): row for row in self.rows["entries2"]}

    def least_broken(self):
        """The number of the least rule that is broken, or 0."""
        return next((n for n in range(1, 16) if not getattr(self, f"rule_{n}")()), 0)

    def number_of(self, entry):
        card = self.cards.get(entry["card"])
        return card and card["number"]

    def moment_of(self, row):
        return self.merchants[row["merchant"]]["moment"]

    def owned(self, table):
        """The rows of a table whose merchant is there: the rules about the merchant are others'."""
        return [row for row in self.rows[table] if row["merchant"] in self.merchants]

    def is_dead(self, entry):
        return entry["revoked"] is not None or entry["expires"] <= self.moment_of(entry)

    def rule_1(self):
        old = self.rows["entries"] + self.rows["merchants"] + self.rows["rights"]
        return [row["id"] for row in self.rows["vault"]] == [1] and not old

    def rule_2(self):
        names = [row["name"] for row in self.rows["merchants3"]]
        return len(names) <= 10000 and all(map(is_name, names))

    def rule_3(self):
        return all(
            0 <= row["single_life"] <= LONGEST
            and 0 <= row["multi_life"] <= LONGEST
            and 0 <= row["moment"] <= LAST
            for row in self.rows["merchants3"]
        )

    def rule_4(self):
        return all(
            row["merchant"] in self.merchants and row["kind"] in (1, 2, 3) and 1 <= row["total"] <= MOST
            for row in self.rows["counts"]
        )

    def rule_5(self):
        entries = self.rows["entries2"]
        return all(row["merchant"] in self.merchants and is_token(row["token"]) for row in entries)

    def rule_6(self):
        pairs = [(row["token"], self.number_of(row)) for row in self.rows["entries2"]]
        return all(
            number is None or is_card(number) and len(number) == len(token) and number[-4:] == token[-4:]
            for token, number in pairs
        )

    def rule_7(self):
        return all(
            row["usage"] in (1, 2)
            and 0 <= row["birth"] <= self.moment_of(row)
            and 1 <= row["expires"] - row["birth"] <= LONGEST
            and (row["revoked"] is None or row["birth"] <= row["revoked"] <= self.moment_of(row))
            for row in self.owned("entries2")
        )

    def rule_8(self):
        return all(row["card"] is not None or self.is_dead(row) for row in self.owned("entries2"))

    def rule_9(self):
        live = [
            (row["merchant"], self.number_of(row))
            for row in self.owned("entries2")
            if row["usage"] == 2 and not self.is_dead(row) and self.number_of(row) is not None
        ]
        return len(live) == len(set(live))

    def rule_10(self):
        made = {row["merchant"]: row["total"] for row in self.rows["counts"] if row["kind"] == 1}
        held = [row["merchant"] for row in self.rows["entries2"]]
        return all(made.get(name, 0) == held.count(name) <= 1000000 for name in self.merchants)

    def rule_11(self):
        return all(
            is_name(row["caller"])
            and 1 <= row["request"] < 2**63
            and self.entries.get((row["merchant"], row["token"]), {}).get("usage") == row["usage"]
            for row in self.rows["records"]
        )

    def rule_12(self):
        return all(
            is_name(row["caller"]) and row["merchant"] in self.merchants and 1 <= row["what"] <= 6
            for row in self.rows["rights4"]
        )

    def rule_13(self):
        pointed = [row["card"] for row in self.rows["entries2"] if row["card"] is not None]
        owners = {row["card"]: row["merchant"] for row in self.rows["entries2"] if row["card"] is not None}
        return (
            all(
                row["merchant"] in self.merchants and row["uses"] == pointed.count(row["id"]) >= 1
                for row in self.rows["cards2"]
            )
            and all(card in self.cards for card in pointed)
            and all(self.cards[card]["merchant"] == owner for card, owner in owners.items())
        )

    def rule_14(self):
        return all(row["lead_digits"] in (6, 8) for row in self.rows["merchants3"])

    def rule_15(self):
        return all(row["ends"] is None or 0 <= row["ends"] <= LAST for row in self.rows["rights4"])


def least_broken(rows):
    """The number of the least rule that the rows break, or 0; None where a value is of another kind than its
    column."""
    try:
        return Rules(rows).least_broken()
    except (TypeError, AttributeError, KeyError):
        return None
