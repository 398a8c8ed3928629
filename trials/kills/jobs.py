"""Jobs that are killed: batches, sweeps, rights files, and single words."""

from kills.asked import Run
from kills.shop import clock
from kills.stopped import Stopped
from model.rules import DONE
from model.vault import RIGHTS, Command
from shared.commands import line_answer, row
from shared.runs import run as run_whole

HEADER, FIRST_LINE = "request,number,use\n", b"request,answer,detail"


def line_reply(command, line):
    """What a line of a batch says, as an answer; a line of another request says nothing."""
    request = line.decode().split(",")[0]
    if request != str(command.request):
        return 0, {"request": request}
    return line_answer(line)


def take_lines(shop, run, commands, text, moments):
    """Takes the whole lines of a batch as answers; the commands that have none are left."""
    lines = text.split(b"\n")[:-1]
    if lines and lines.pop(0) != FIRST_LINE:
        run.faults.append("another first line")
    for command, line in zip(commands, lines):
        fault = shop.known.take(command, moments, line_reply(command, line))
        run.faults += [fault] if fault else []
    run.answers = len(lines)
    return commands[len(lines):]


def rows_of(shop, many, merchant):
    """So many rows of one caller, some of which come twice."""
    commands = [shop.new_request(merchant, "till-1") for _ in range(many)]
    return [shop.random.choice(commands) if shop.random.random() < 0.05 else it for it in commands]


def batch(shop, aims):
    """A batch whose lines are read as they come; one that was killed is sent again as it was."""
    run, merchant = Run("batch"), shop.merchant()
    commands = rows_of(shop, max(4, int(shop.random.choice((30, 150, 400)) * aims.scale)), merchant)
    fixed = shop.moment() if shop.random.random() < 0.5 else None
    run.aim = aims.by_answers(len(commands))
    options = ("--now", fixed) if fixed else ()
    begun = clock()
    words = [shop.program, "batch", *options, shop.path, "till-1", merchant]
    stopped = Stopped(words, *run.aim)
    text = feed(stopped, HEADER + "".join(map(row, commands)))
    run.end(stopped, (0, 1))
    run.moments = [fixed] if fixed else list(range(begun, clock() + 1))
    run.undecided, run.most = take_lines(shop, run, commands, text, run.moments), 1
    run.again = lambda: send_again(shop, commands, merchant)
    return run


def feed(stopped, given):
    """Gives a program its whole input, and reads what it says to the end."""
    process, text = stopped.process, b""
    try:
        process.stdin.write(given.encode())
        process.stdin.close()
    except OSError:
        pass
    process.stdin = None
    while piece := process.stdout.read(4096):
        text += piece
        stopped.saw(text.count(b"\n") - 1)
    return text


def send_again(shop, commands, merchant):
    """Sends a batch that was killed again: what is wrong with its lines."""
    run, begun = Run("batch"), clock()
    given = HEADER + "".join(map(row, commands))
    ran = run_whole(shop.program, "batch", shop.path, "till-1", merchant, given=given.encode())
    left = take_lines(shop, run, commands, ran.out, range(begun, clock() + 1))
    if ran.status not in (0, 1) or left:
        run.faults.append(f"sent again: {len(left)} rows without a line, {ran.told}")
    return run.faults


def killed_job(shop, aims, kind, words, line):
    """A job that says one line at its end: the run, with no command undecided where it came to its end."""
    run = Run(kind)
    run.aim = aims.by_time(kind)
    stopped = Stopped([shop.program, *words], *run.aim)
    status, out = run.end(stopped, (0,))
    if run.killed:
        aims.early(kind)
    else:
        aims.whole(kind, stopped.spent)
    run.ended = status == 0 or out.endswith(b"\n")
    if run.ended and out != line:
        run.faults.append(f"said {out!r}, not {line!r}")
    return run


def carry_out(shop, run, commands, now):
    """The commands of a job were all carried out, or are undecided where it was killed."""
    run.undecided, run.moments = commands, [now]
    if run.ended:
        for command in commands:
            fault = shop.known.take(command, [now], DONE)
            run.faults += [fault] if fault else []
        run.undecided = []


def sweep(shop, aims):
    """A sweep of many tokens that expired."""
    merchant, now = "shop2", clock() + shop.ahead
    many = int(shop.random.choice((40, 200, 1100)) * aims.scale) + 2
    commands = rows_of(shop, many, merchant)
    given = HEADER + "".join(map(row, commands))
    ran = run_whole(
        shop.program, "batch", "--now", now, shop.path, "till-1", merchant, given=given.encode()
    )
    filled = Run("batch")
    left = take_lines(shop, filled, commands, ran.out, [now])
    filled.faults += filter(None, [shop.look()])
    shop.ahead += 20
    now += 20
    purges = [Command("purge", "back", merchant, token) for token in shop.dead(merchant, now)]
    words = ("sweep", "--now", now, shop.path, "back", merchant)
    run = killed_job(shop, aims, "sweep", words, f"purged {len(purges)}\n".encode())
    carry_out(shop, run, purges, now)
    run.faults += filled.faults + ([f"{len(left)} rows without a line"] if left else [])
    run.again = lambda: sweep_again(shop, merchant, now)
    return run


def sweep_again(shop, merchant, now):
    """Sweeps the rest: what is wrong with that."""
    purges = [Command("purge", "back", merchant, token) for token in shop.dead(merchant, now)]
    ran = run_whole(shop.program, "sweep", "--now", now, shop.path, "back", merchant)
    faults = [shop.known.take(command, [now], DONE) for command in purges]
    if ran.out != f"purged {len(purges)}\n".encode():
        faults.append(f"swept again: {ran.out!r}, not {len(purges)}")
    return [fault for fault in faults if fault]


def grants(shop, many):
    """Rights of a file, in the order in which they are given: caller, merchant, the right's number."""
    rows = {}
    for _ in range(many):
        key = f"c{shop.random.randrange(90)}", shop.merchant(), shop.random.choice(list(RIGHTS))
        ends = shop.random.choice((None, clock() + shop.random.randrange(-10, 10**6)))
        rows[key] = Command("grant", key[0], key[1], given=key[2], ends=ends)
    return [rows[key] for key in sorted(rows, key=lambda it: (it[0], it[1], RIGHTS[it[2]]))]


def toml(commands):
    """The rights file of some grants."""
    text, tables = "", {}
    for it in commands:
        item = f'"{it.given}"' if it.ends is None else f'{{ right = "{it.given}", until = {it.ends} }}'
        tables.setdefault(it.caller, {}).setdefault(it.merchant, []).append(item)
    for caller, merchants in tables.items():
        text += f"[{caller}]\n"
        for merchant, items in merchants.items():
            text += f"{merchant} = [{', '.join(items)}]\n"
    return text


def rights(shop, aims):
    """A rights file of many rights."""
    commands = grants(shop, int(shop.random.choice((60, 400)) * aims.scale) + 2)
    path, now = shop.path.with_name("rights.toml"), shop.moment()
    path.write_text(toml(commands))
    line = f"granted {len(commands)}\n".encode()
    run = killed_job(shop, aims, "rights", ("rights", "--now", now, shop.path, path), line)
    carry_out(shop, run, commands, now)
    return run


def words(shop, aims):
    """A merchant is set, or a right is given or taken away."""
    now, merchant = shop.moment(), shop.merchant()
    kind = shop.random.choice(("merchant", "grant", "withdraw"))
    if kind == "merchant":
        lives = shop.random.choice(((3600, 86400, 6), (4, 15, 8), (7, 900, 6)))
        command = Command("merchant", "", merchant, lives=lives)
        rest = ("--lead", lives[2], shop.path, merchant, *lives[:2])
    else:
        ends = clock() + 900 if kind == "grant" else None
        command = Command(kind, "c7", merchant, given=shop.random.choice(list(RIGHTS)), ends=ends)
        until = () if ends is None else ("--until", ends)
        rest = (*until, shop.path, "c7", merchant, command.given)
    run = killed_job(shop, aims, "words", (kind, "--now", now, *rest), b"done\n")
    carry_out(shop, run, [command], now)
    return run
