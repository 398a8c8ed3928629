"""Rights files."""

from pathlib import Path

from runs.cases import begun, fault_of

# A rights file, the status and the line that it ends with.
LISTS = (
    ('[till-1]\nshop1 = ["view", "tokenize", "view"]\n[back]\nshop1 = ["purge"]\n', 0, "granted 3\n"),
    ('[till-1]\nshop1 = ["view", "tokenize", "view"]\n[back]\nshop1 = ["purge"]\n', 0, "granted 3\n"),
    (
        '[till-1]\nshop1 = ["view", {right = "view", until = 2000}, {right = "audit", until = 2000}]\n',
        0,
        "granted 2\n",
    ),
    ("", 0, "granted 0\n"),
    ('[a]\nshop1 = ["audit"]\n[b]\nshop2 = ["view"]\n[c]\nshop1 = ["audit"]\n', 1, "refused 7\n"),
)
# A rights file that is refused, and the line that it ends with.
REFUSED = (
    ("[till-1", "refused 70\n"),
    ('[a]\nshop1 = ["peek"]\n', "refused 71\n"),
    ("[A]\nshop1 = []\n", "refused 72\n"),
    ('[a]\nshop1 = "view"\n', "refused 73\n"),
    ('[a]\nshop1 = [{right = "view"}]\n', "refused 73\n"),
    ('[a]\nshop1 = [{right = "view", until = -1}]\n', "refused 75\n"),
)


def gives(case, folder, place, text, status, line):
    """A rights file of this text stands in the case's folder, and the run on it ends so."""
    Path(folder, "rights.toml").write_text(text)
    ran = case.run(f"vault rights --now 1000 FILE {folder}/rights.toml")
    case.judge(f"text {place}, {line.strip()}", fault_of(ran, status, line, ""))


def judged(tally, program):
    """The texts of each table go one after the other to one vault."""
    folder = "rights/granted"
    case = begun(tally, program, "a rights file is granted up to the first refusal", folder)
    case.done("vault merchant --now 1000 FILE shop1 60 0")
    for place, (text, status, line) in enumerate(LISTS, 1):
        gives(case, folder, place, text, status, line)
    folder = "rights/refused"
    case = begun(tally, program, "a rights file that is refused leaves the vault alone", folder)
    for place, (text, line) in enumerate(REFUSED, 1):
        gives(case, folder, place, text, 1, line)
    case.ends((f"vault rights FILE {folder}/none.toml", "", 4, "", "vault: stopped 80\nvault: RIGHTS can't be read\n"))
    case.makes_nothing()
