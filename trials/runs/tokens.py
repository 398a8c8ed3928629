"""What becomes of tokens, leads and rights as time goes on, in scripts worked out by hand."""

from runs import scripts
from runs.vaults import FIRST, OPENED

CASES = {
    "a View is refused by its own number, and is not counted": f"""\
{OPENED}
{FIRST}
view till-1 shop1 0000000000001111 1000 = 411111******1111 single 1000 1060 live
view till-1 shop1 0000000000001111 1060 = 411111******1111 single 1000 1060 expired
view guest shop1 0000000000001111 1000 = refused 8
view till-1 shop1 1111111111111111 1000 = refused 13
audit till-1 shop1 1000 = 1 0 0""",
    "a right is withdrawn and given twice, and a clock that fell is made up for": f"""\
{OPENED}
{FIRST}
withdraw till-1 shop1 tokenize 1001 = done
tokenize till-1 shop1 7 single 4111111111111111 0 1001 = 0000000000001111 1060
tokenize till-1 shop1 8 single 4111111111111111 1 1001 = refused 8
withdraw till-1 shop1 tokenize 1002 = done
grant till-1 shop1 tokenize 1003 = done
grant till-1 shop1 tokenize 1004 = done
tokenize till-1 shop1 8 single 4111111111111111 1 1000 = 1111111111111111 1064
audit till-1 shop1 1004 = 2 0 0""",
    "a dead token is purged for good: it stays taken, and its request answers it": f"""\
{OPENED}
{FIRST}
purge till-1 shop1 0000000000001111 1059 = refused 17
detokenize till-1 shop1 0000000000001111 1059 = 4111111111111111
revoke till-1 shop1 0000000000001111 1059 = done
purge guest shop1 0000000000001111 1059 = refused 8
view till-1 shop1 0000000000001111 1059 = 411111******1111 single 1000 1060 revoked
purge till-1 shop1 0000000000001111 1059 = done
detokenize till-1 shop1 0000000000001111 1059 = refused 14
view till-1 shop1 0000000000001111 1059 = refused 14
revoke till-1 shop1 0000000000001111 1059 = refused 14
purge till-1 shop1 0000000000001111 1059 = done
tokenize till-1 shop1 7 single 4111111111111111 5 1059 = 0000000000001111 1060
tokenize till-1 shop1 7 single 0000000000041111 5 1059 = 0000000000001111 1060
tokenize till-1 shop1 7 single 4222222222222 5 1059 = refused 10
tokenize till-1 shop1 8 single 4111111111111111 0 1059 = refused 12
purge till-1 shop1 1111111111111111 1059 = refused 13
purge till-1 nobody 0000000000001111 1059 = refused 7
audit till-1 shop1 1059 = 1 1 1""",
    "tokens that died in another order than they were made are swept": f"""\
{OPENED}
tokenize till-1 shop1 1 single 4111111111111111 2 1000 = 2222222222221111 1060
tokenize till-1 shop1 2 single 4111111111111111 1 1010 = 1111111111111111 1070
tokenize till-1 shop1 3 single 4111111111111111 0 1020 = 0000000000001111 1080
dead till-1 shop1 1020 = 0
revoke till-1 shop1 0000000000001111 1020 = done
dead till-1 shop1 1059 = 1 0000000000001111
dead till-1 shop1 1065 = 2 0000000000001111 2222222222221111
dead till-1 shop2 1065 = 0
purge till-1 shop1 0000000000001111 1065 = done
dead till-1 shop1 1065 = 1 2222222222221111
purge till-1 shop1 2222222222221111 1065 = done
dead till-1 shop1 1065 = 0
detokenize till-1 shop1 1111111111111111 1065 = 4111111111111111
dead till-1 shop1 1070 = 1 1111111111111111
audit till-1 shop1 1065 = 3 1 0""",
    "a token before the first dead one is swept once it is dead, too": f"""\
{OPENED}
tokenize till-1 shop1 1 single 4111111111111111 1 1000 = 1111111111111111 1060
tokenize till-1 shop1 2 single 4111111111111111 0 1010 = 0000000000001111 1070
dead till-1 shop1 1060 = 1 1111111111111111
revoke till-1 shop1 0000000000001111 1060 = done
dead till-1 shop1 1060 = 2 0000000000001111 1111111111111111
purge till-1 shop1 0000000000001111 1060 = done
dead till-1 shop1 1060 = 1 1111111111111111
dead till-1 shop2 1060 = 0
tokenize till-1 shop1 3 single 4111111111111111 2 1060 = 2222222222221111 1120
dead till-1 shop1 1060 = 1 1111111111111111
dead till-1 shop1 1120 = 2 1111111111111111 2222222222221111
dead till-1 shop1 1060 = 1 1111111111111111""",
    "a View masks by its merchant's lead of now, whenever the token was made": f"""\
{OPENED}
open till-1 shop2 60 0 1000 = done
{FIRST}
tokenize till-1 shop2 8 single 4111111111111111 0 1000 = 0000000000001111 1060
set shop1 60 0 1000 8 = done
view till-1 shop1 0000000000001111 1000 = 41111111****1111 single 1000 1060 live
view till-1 shop2 0000000000001111 1000 = 411111******1111 single 1000 1060 live
set shop1 60 0 1000 6 = done
view till-1 shop1 0000000000001111 1000 = 411111******1111 single 1000 1060 live""",
    # a new end takes the place of the right's own
    "a right lasts up to its end, also where the clock falls behind its merchant's moment": """\
set shop1 60 0 1000 = done
grant back shop1 audit 1000 2000 = done
audit back shop1 1999 = 0 0 0
audit back shop1 2000 = refused 8
set shop1 60 0 2000 = done
audit back shop1 1500 = refused 8
grant back shop1 audit 2000 3000 = done
audit back shop1 2999 = 0 0 0
audit back shop1 3000 = refused 8
grant back shop1 audit 2000 = done
audit back shop1 253402300799 = 0 0 0
grant back shop1 audit 2000 2000 = done
audit back shop1 2000 = refused 8
withdraw back shop1 audit 2000 = done
grant back shop1 audit 2000 2001 = done
audit back shop1 2000 = 0 0 0""",
}


def judged(tally, program):
    """Each script has a file of its own."""
    scripts.judge_each(tally, program, "tokens", CASES)
