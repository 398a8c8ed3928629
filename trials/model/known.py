"""What is known of a vault from the answers that came: its rows, where a few moments may be open."""

import collections

from model.rules import outcome
from model.vault import Rows


class Changed:
    """Rows with some changes that may have been made."""

    def __init__(self, rows, changes):
        self.rows, self.changes = rows, changes

    def get(self, key):
        return self.changes[key] if key in self.changes else self.rows.get(key)

    def new_entries(self):
        kept = self.changes.items()
        return [key for key, row in kept if key[0] == "entry" and row and self.rows.get(key) is None]

    def made(self, merchant):
        return self.rows.made(merchant) + sum(key[1] == merchant for key in self.new_entries())

    def tokens_of(self, merchant, number):
        new = {key[2] for key in self.new_entries() if key[1] == merchant}
        return self.rows.tokens_of(merchant, number) | new

    def after(self, changes):
        """These changes and further ones, but those that leave a row as it is."""
        both = {**self.changes, **changes}
        return {key: row for key, row in both.items() if self.rows.get(key) != row}


class Known:
    """What is known of a vault. Where an answer doesn't tell its moment, several changes of the rows are
    possible until a later answer tells which."""

    def __init__(self, rows=None):
        self.rows = Rows(rows)
        self.possible = [{}]

    def reset(self, rows):
        self.rows, self.possible = Rows(rows), [{}]

    def get(self, key):
        """A row, as the first of what is possible has it."""
        return Changed(self.rows, self.possible[0]).get(key)

    def count(self, kind):
        """How many rows of a kind there are, which is so whatever moments are open."""
        changes = self.possible[0].items()
        new = sum(key[0] == kind and row is not None and self.rows.get(key) is None for key, row in changes)
        gone = sum(key[0] == kind and row is None for key, row in changes)
        return self.rows.count(kind) + new - gone

    def outcomes(self, possible, command, moments, token):
        """What a command may be answered by what is possible, and the changes after it, without doubles. A
        new token is this one."""
        candidates, found = [token] if token else [], []
        for changes in possible:
            seen = Changed(self.rows, changes)
            for now in moments:
                reply, more = outcome(seen, command, now, candidates)
                pair = reply, seen.after(more)
                if pair not in found:
                    found.append(pair)
        return found

    def take(self, command, moments, reply):
        """An answer came, at one of some moments: what is wrong with it, or nothing."""
        token = reply[1].get("token") if isinstance(reply[1], dict) else None
        found = self.outcomes(self.possible, command, moments, token)
        fitting = [changes for wanted, changes in found if wanted == reply]
        if not fitting:
            return f"{command.right} {command.request}: answered {reply}, not {[it[0] for it in found[:2]]}"
        self.keep(fitting)
        return ""

    def keep(self, possible):
        """These changes are possible, and no others."""
        self.possible = []
        for changes in possible:
            if changes not in self.possible:
                self.possible.append(changes)
        if len(self.possible) == 1:
            self.rows.put(self.possible[0])
            self.possible = [{}]

    def settle(self, undecided, moments, found, most=None):
        """The rows of the file are those after the first so many of the undecided commands: how many, or
        None. Only `most` of those may have been carried out."""
        wanted = self.rows.unlike(found)
        possible = self.possible
        for carried in range(len(undecided) + 1):
            if wanted in possible:
                self.keep([wanted])
                return carried
            if carried == len(undecided) or carried == most:
                break
            command = undecided[carried]
            record = found.get(("record", command.caller, command.request))
            token = record.token if record and command.right == "tokenize" else None
            further = self.outcomes(possible, command, moments, token)
            possible = [changes for reply, changes in further if reply[0] != 0]
        return None

    def differing(self, found):
        """In how many rows a file differs, by their kinds."""
        kinds = collections.Counter(key[0] for key in self.rows.unlike(found))
        return ", ".join(f"{many} {kind}" for kind, many in sorted(kinds.items())) or "no row"
