"""The rules of the vault in short: what a command is answered at a moment, and what it changes."""

from model.cards import fits, mask
from model.refusals import refused
from model.vault import MULTI, RIGHTS, SINGLE, USES, Entry, Merchant, Record

DONE = (200, {"done": True})
# What a trial is told where a token has to be drawn, and no candidate will do.
NO_TOKEN = (0, {"no token that may be drawn": True})


def state(entry, now):
    """The state of an entry at a moment."""
    if entry.number is None:
        return "purged"
    if entry.revoked is not None:
        return "revoked"
    return "live" if now < entry.expires else "expired"


def entitled(rows, command, now):
    """Whether the caller has the right that the command asks for, at that moment."""
    right = rows.get(("right", command.caller, command.merchant, RIGHTS[command.right]))
    return right is not None and (right[0] is None or now < right[0])


def current(rows, command, now):
    """The live multi-use token of the command's number, with its entry."""
    for token in rows.tokens_of(command.merchant, command.number):
        entry = rows.get(("entry", command.merchant, token))
        if entry.use == MULTI and entry.number == command.number and state(entry, now) == "live":
            return token, entry
    return None


def token_answer(token, entry):
    """The answer that has a token."""
    return 200, {"expires": entry.expires, "token": token}


def repeated(rows, command, record):
    """What a request is answered that was recorded."""
    entry = rows.get(("entry", record.merchant, record.token))
    alike = record.merchant == command.merchant and record.use == command.use
    if entry.number is None:
        alike = alike and fits(record.token, command.number)
    else:
        alike = alike and entry.number == command.number
    return (token_answer(record.token, entry) if alike else refused(10)), {}


def new_token(rows, command, candidates):
    """The first candidate that fits the number and is new to the merchant, or None."""
    for token in candidates:
        if fits(token, command.number) and rows.get(("entry", command.merchant, token)) is None:
            return token
    return None


def tokenize(rows, command, merchant, now, candidates):
    """What a new request is answered; a new token is one of the candidates."""
    life = merchant.single if command.use == SINGLE else merchant.multi
    if not entitled(rows, command, now):
        return refused(8), {}
    if life == 0:
        return refused(9), {}
    held = current(rows, command, now) if command.use == MULTI else None
    changes = {("merchant", command.merchant): merchant._replace(moment=now)}
    if held is None:
        drawn = new_token(rows, command, candidates)
        if drawn is None:
            return NO_TOKEN, {}
        held = drawn, Entry(command.number, command.use, now, now + life)
        changes["entry", command.merchant, drawn] = held[1]
    token, entry = held
    changes["record", command.caller, command.request] = Record(command.merchant, token, command.use)
    return token_answer(token, entry), changes


def detokenize(entry, reason, merchant):
    """Whether a number is given or denied, which is counted."""
    if reason is None:
        return (200, {"number": entry.number}), merchant._replace(given=merchant.given + 1)
    return refused(reason), merchant._replace(denied=merchant.denied + 1)


def on_token(rows, command, merchant, now):
    """What a command on one token is answered."""
    place = ("merchant", command.merchant)
    key = ("entry", command.merchant, command.token)
    entry = rows.get(key)
    seen = state(entry, now) if entry else "none"
    reason = {"none": 13, "purged": 14, "revoked": 15, "expired": 16}.get(seen)
    if not entitled(rows, command, now):
        reason = 8
    moved = {place: merchant._replace(moment=now)}
    if command.right == "detokenize":
        reply, merchant = detokenize(entry, reason, merchant._replace(moment=now))
        return reply, {place: merchant}
    if reason in (8, 13):
        return refused(reason), {}
    if command.right == "purge":
        return (refused(17), {}) if seen == "live" else (DONE, {**moved, key: entry._replace(number=None)})
    if seen == "purged":
        return refused(14), {}
    if command.right == "revoke":
        revoked = now if entry.revoked is None else entry.revoked
        return DONE, {**moved, key: entry._replace(revoked=revoked)}
    shown = {"birth": entry.birth, "expires": entry.expires, "masked": mask(entry.number, merchant.lead)}
    return (200, {**shown, "state": seen, "use": USES[entry.use]}), {}


def on_rights(command, merchant, now):
    """What giving a right and taking it away change."""
    key = ("right", command.caller, command.merchant, RIGHTS[command.given])
    right = (command.ends,) if command.right == "grant" else None
    return DONE, {("merchant", command.merchant): merchant._replace(moment=now), key: right}


def on_merchant(rows, command, now):
    """What setting a merchant changes; `lives` are both of its lives and its lead."""
    key = ("merchant", command.merchant)
    single, multi, lead = command.lives
    old = rows.get(key) or Merchant(single, multi, lead, now)
    return DONE, {key: old._replace(single=single, multi=multi, lead=lead, moment=max(now, old.moment))}


def outcome(rows, command, now, candidates=()):
    """What a command is answered at a moment, and the rows that it changes; None takes a row away."""
    if command.right == "merchant":
        return on_merchant(rows, command, now)
    if command.right == "tokenize":
        record = rows.get(("record", command.caller, command.request))
        if record:
            return repeated(rows, command, record)
    merchant = rows.get(("merchant", command.merchant))
    if merchant is None:
        return refused(7), {}
    now = max(now, merchant.moment)
    if command.right == "tokenize":
        return tokenize(rows, command, merchant, now, candidates)
    if command.right in ("grant", "withdraw"):
        return on_rights(command, merchant, now)
    if command.right != "audit":
        return on_token(rows, command, merchant, now)
    if not entitled(rows, command, now):
        return refused(8), {}
    made = rows.made(command.merchant)
    return (200, {"denied": merchant.denied, "given": merchant.given, "made": made}), {}
