"""What was asked of a vault on a disk that writes down, what was answered, and at which of its writes."""

import itertools
from typing import NamedTuple

from kills.shop import Shop
from model.known import Known


class Step(NamedTuple):
    """Commands that were asked together, with their answers, at one of some moments. They were asked behind
    so many events; the answer was there behind so many, or never came."""

    commands: list
    answers: list
    moments: list
    asked: int
    came: int | None

    def is_open_at(self, at):
        """Whether a cut before that event finds them under way."""
        return self.asked < at and not self.is_answered_at(at)

    def is_answered_at(self, at):
        return self.came is not None and self.came <= at


def copied(known, kind=Known):
    """A copy of what is known of a vault."""
    copy = kind(dict(known.rows.rows))
    copy.possible = list(known.possible)
    return copy


class SideBySide(Known):
    """What is known where several clients ask, each at a merchant of its own: what of theirs is under way may
    have been carried out or not, each for itself."""

    def settle(self, undecided, moments, found, most=None):
        for many in range(len(undecided) + 1):
            for some in itertools.combinations(undecided, many):
                if super().settle(list(some), moments, found) is not None:
                    return many
        return None


class Story:
    """One case. `kind` names it, `image` is the disk before it, and `shop` knows what its vault held then.
    `one` says that at most one command is under way, `several` that some clients ask side by side; `again`
    judges what a cut of the case needs beyond its rows."""

    def __init__(self, kind, image, shop, name="vault.db"):
        self.kind, self.image, self.shop, self.name = kind, image, shop, name
        self.steps, self.faults = [], []
        self.known = copied(shop.known)
        self.one, self.several, self.version = True, False, 4
        self.again, self.at = None, 0

    def tell(self, commands, answers, moments, asked, came):
        """Some commands were asked, and perhaps answered: what is known takes them in, too."""
        self.steps.append(Step(commands, answers, list(moments), asked, came))
        if came is not None:
            self.faults += self.take(self.shop.known, self.steps[-1])

    def take(self, known, step):
        """What is wrong with the answers of a step."""
        pairs = zip(step.commands, step.answers)
        return [fault for fault in (known.take(it, step.moments, answer) for it, answer in pairs) if fault]

    def go_to(self, at):
        """What is answered before that event is known from here on; the steps that are under way then."""
        self.at = at
        while self.steps and self.steps[0].is_answered_at(at):
            self.take(self.known, self.steps.pop(0))
        for step in [it for it in self.steps if it.is_answered_at(at)] if self.several else []:
            self.take(self.known, step)
            self.steps.remove(step)
        return [it for it in self.steps if it.is_open_at(at)]

    def shop_of(self, path, random):
        """A shop at a path, of which all is known that is known here."""
        shop = Shop(self.shop.program, path, random)
        shop.known = copied(self.known, SideBySide if self.several else Known)
        shop.request, shop.ahead = self.shop.request, self.shop.ahead
        return shop
