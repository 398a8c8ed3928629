"""Sweeps on files."""

from runs.cases import HAS_LOG, SHOP, answer, begun

# What the back office may at the shop.
BACK = """\
vault grant --now 1000 FILE back shop1 detokenize
vault grant --now 1000 FILE back shop1 revoke
vault grant --now 1000 FILE back shop1 purge
vault grant --now 1000 FILE back shop1 audit"""
# The revocation of the third token, by `back`, and its answer.
REVOKE = "POST /v1/merchants/shop1/tokens/2222222222221111/revoke HTTP/1.1\r\nX-Vault-Caller: back\r\n\r\n"
DONE = answer("200 OK", '{"done":true}')
# Three tokens of the shop, made at 1000, 1010 and 1020, of which the third is revoked.
TOKENS = (
    (
        "vault batch --now 1000 --digits 0 FILE till-1 shop1",
        "request,number,use\n7,4111111111111111,single\n",
        0,
        "request,answer,detail\n7,0000000000001111,1060\n",
        "",
    ),
    (
        "vault batch --now 1010 --digits 1 FILE till-1 shop1",
        "request,number,use\n8,4111111111111111,single\n",
        0,
        "request,answer,detail\n8,1111111111111111,1070\n",
        "",
    ),
    (
        "vault batch --now 1020 --digits 2 FILE till-1 shop1",
        "request,number,use\n9,4111111111111111,single\n",
        0,
        "request,answer,detail\n9,2222222222221111,1080\n",
        "",
    ),
    ("vault pipe --now 1020 FILE", REVOKE, 0, DONE, ""),
)
# The number of the second token is asked for, and given.
NUMBER = "POST /v1/merchants/shop1/tokens/1111111111111111/number HTTP/1.1\r\nX-Vault-Caller: back\r\n\r\n"
GIVEN = answer("200 OK", '{"number":"4111111111111111"}')
# The counts are asked for: one number was given of three tokens.
AUDIT = "GET /v1/merchants/shop1/audit HTTP/1.1\r\nX-Vault-Caller: back\r\n\r\n"
COUNTS = answer("200 OK", '{"denied":0,"given":1,"made":3}')
# Dead tokens are purged.
SWEEPS = """\
vault sweep --now 1065 FILE back shop1 = purged 2
vault sweep --now 1065 FILE back shop1 = purged 0"""
# A live one gives its number then.
SWEPT = (
    ("vault pipe --now 1065 FILE", NUMBER, 0, GIVEN, ""),
    ("vault pipe --now 1065 FILE", AUDIT, 0, COUNTS, ""),
    ("vault check FILE", "", 0, "sound 1 3 3\n", HAS_LOG),
)
# Sweeps of the same shop, each in its case with what they say.
SAID = (
    (
        "a sweep without the right is refused and purges nothing",
        "sweeps/unswept",
        """\
vault sweep --now 1070 FILE guest shop1 = refused 8
vault sweep --now 1070 FILE back shop1 = purged 3
vault sweep --now 1070 FILE guest shop1 = purged 0
vault sweep --now 1070 FILE back shop2 = purged 0 ! vault: there is no such merchant""",
    ),
    # it moves the shop's moment then
    (
        "a sweep by a clock far ahead of the shop says so",
        "sweeps/far",
        """\
vault sweep --now 2679420 FILE back shop2 = purged 0 ! vault: there is no such merchant
vault sweep FILE back shop2 = purged 0 ! vault: there is no such merchant
vault sweep FILE back shop1 = purged 3 ! \
vault: the clock is more than 31 days ahead of the merchant's last moment
vault sweep FILE back shop1 = purged 0""",
    ),
    (
        "a sweep at a fixed moment says nothing of the clock",
        "sweeps/fixed",
        "vault sweep --now 4000000 FILE back shop1 = purged 3",
    ),
)
# Sweeps with a bad name, which are refused before the file.
MISNAMED = """\
vault sweep --now 1000 FILE Back shop1 = refused 4 ! vault: CALLER is no name
vault sweep --now 1000 FILE back  = refused 4 ! vault: MERCHANT is no name
vault sweep --now 1000 FILE Back  = refused 4 ! vault: CALLER is no name"""


def shop_made(tally, program, name, folder):
    """A case over a shop with its three tokens."""
    case = begun(tally, program, name, folder)
    case.done(SHOP)
    case.done(BACK)
    case.ends(*TOKENS)
    return case


def judged(tally, program):
    """Each case has a file of its own."""
    name = "dead tokens are purged and a live one gives its number"
    case = shop_made(tally, program, name, "sweeps/swept")
    case.said(SWEEPS)
    case.ends(*SWEPT)
    for name, folder, lines in SAID:
        shop_made(tally, program, name, folder).said(lines)
    name = "a sweep with a bad name is refused before the file"
    case = begun(tally, program, name, "sweeps/misnamed")
    case.said(MISNAMED)
    case.makes_nothing()
