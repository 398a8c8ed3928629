#!/usr/bin/env python3
"""Looks up what the pages name: each word of code, path, link and count stands somewhere in the repository.

names.py names each that doesn't, with its page and line. Words of other programs stand in docs/others.txt. The
last line says how many pages passed and failed.
"""

import pathlib
import re
import subprocess
import sys

import reached

ROOT = pathlib.Path(__file__).resolve().parent.parent
OTHERS = "docs/others.txt"
# what it says of older programs stands nowhere any more
OLDER = {"CHANGELOG.md"}
CODE = re.compile(r"`([^`\n]+)`")
LINK = re.compile(r"\]\(([^)\s]+)\)")
WORD = re.compile(r"(?<![\w.-])[A-Za-z][A-Za-z0-9_]{2,}")
COMMIT = re.compile(r"^[0-9a-f]{7,40}$")
PATH = re.compile(r"^[\w.@*{}-]+(?:/[\w.@*{}-]+)+/?$")
HEADING = re.compile(r"^#+ (.*)$", re.MULTILINE)
FENCE = re.compile(r"^```.*?^```$", re.MULTILINE | re.DOTALL)
NUMBERS = "no one two three four five six seven eight nine ten eleven twelve thirteen fourteen fifteen sixteen".split()


def tracked():
    """The repository's files, by their paths from its top, without what hasn't landed."""
    listed = subprocess.run(["git", "ls-files"], cwd=ROOT, stdout=subprocess.PIPE, check=True).stdout.decode()
    return [line for line in listed.split("\n") if (ROOT / line).is_file() and not line.startswith("wip/")]


def read(path):
    return (ROOT / path).read_text(errors="replace")


def matches(path, pattern):
    """How many lines of a file match."""
    return len(re.findall(pattern, read(path), re.MULTILINE))


def counts(files):
    """What the pages count: what stands around the number there, and how many there are."""
    def listed(pattern):
        return sum(1 for path in files if re.search(pattern, path))

    return [
        (r"(\w+) crates `vault_\.\._cases`", matches("crates.txt", r"^\w+_cases:")),
        (r"stand in (\w+) crates, and a case is a row", matches("crates.txt", r"^\w+_cases:")),
        (r"(?:by|of) the (\w+) rules", matches("crates/vault_rules/src/least.rt", r"^        [a-z_.]+(?:\(.*\))?,$")),
        (r"each of the (\w+) rules", matches("crates/vault_rules/src/least.rt", r"^        [a-z_.]+(?:\(.*\))?,$")),
        (r"(?:the|of the|each of the) (\w+) versions", matches("crates/vault_schema/src/version.rt", r"^    [A-Z]\w+,$")),
        (r"The gate has (\w+), `trials/wrong`", listed(r"^crates/\w+/must-fail/.*\.edit$")),
        (r"`trials/wrong` (\w+) more", listed(r"^trials/wrong/.*\.edit$")),
        (r"promise stands on (\d+) of", len(reached.reached(*reached.LAW))),
        (r"of (\d+) files of specs", listed(r"^crates/\w+/specs/.*\.antt$")),
    ]


def words_of(files):
    """All words of the files that are no pages, and of their paths."""
    found = set()
    for path in files:
        found.update(WORD.findall(path.replace("/", " ").replace(".", " ")))
        if path != OTHERS and not path.endswith((".md", ".svg")):
            found.update(WORD.findall(re.sub(r"[./-]", " ", read(path))))
    return found


def slugs(text):
    """The anchors of a page's headings."""
    plain = (re.sub(r"[^\w\- ]", "", title.lower()).strip() for title in HEADING.findall(text))
    return {title.replace(" ", "-") for title in plain}


class Page:
    """A page, and the places where what it names may stand."""

    def __init__(self, path, paths):
        self.path, self.text, self.paths = path, read(path), paths
        self.folder = str(pathlib.PurePath(path).parent)

    def lines(self):
        """Its lines with their numbers, without what stands between fences."""
        blank = FENCE.sub(lambda block: "\n" * block[0].count("\n"), self.text)
        return enumerate(blank.split("\n"), 1)

    def is_path(self, name):
        """Whether a file or a folder has this path, from the page or the top, with a suffix of sources or not."""
        ends = (name.rstrip("/"), name.rstrip("/") + ".rt", name.rstrip("/") + ".antt")
        return any(any(path == end or path.endswith("/" + end) for end in ends) for path in self.paths)

    def has_link(self, target):
        path, _, anchor = target.partition("#")
        file = (ROOT / self.folder / path).resolve() if path else ROOT / self.path
        if not file.exists():
            return False
        return not anchor or file.suffix != ".md" or anchor in slugs(file.read_text())

    def words(self, code):
        """The words of a piece of code; one that is a path or a commit has none of its own."""
        if COMMIT.match(code) or PATH.match(code) and code[0] != "/" and self.is_path(code):
            return []
        return WORD.findall(code)

    def misses(self, words, counted):
        """What it names that stands nowhere, with the line."""
        for number, line in self.lines():
            for target in LINK.findall(line):
                if "://" not in target and not self.has_link(target):
                    yield number, target, "is no page or heading"
            for code in CODE.findall(line):
                for word in self.words(code):
                    # NAME stands for any name
                    ending = word[4:] if word.startswith("NAME") else ""
                    if word not in words and not (ending and any(known.endswith(ending) for known in words)):
                        yield number, code, f"{word} stands nowhere"
            for pattern, many in counted:
                for said in re.findall(pattern, line):
                    if said not in (str(many), NUMBERS[many] if many < len(NUMBERS) else ""):
                        yield number, said, f"there are {many}"


def main():
    files = tracked()
    others = set(read(OTHERS).split())
    words = words_of(files)
    paths = set(files) | {str(parent) for path in files for parent in pathlib.PurePath(path).parents}
    counted = counts(files)
    named = set()
    passed = failed = 0
    for path in files:
        if not path.endswith(".md") or pathlib.PurePath(path).name in OLDER:
            continue
        page = Page(path, paths)
        for _, line in page.lines():
            for code in CODE.findall(line):
                named.update(page.words(code))
        missing = list(page.misses(words | others, counted))
        for number, name, why in missing:
            print(f"{path}:{number}: {name}: {why}")
        passed += not missing
        failed += bool(missing)
    idle = sorted(others & words | others - named)
    for word in idle:
        print(f"{OTHERS}: {word}: no page names it, or the repository has it")
    failed += bool(idle)
    print(f"{passed} passed, {failed} failed")
    return failed == 0


if __name__ == "__main__":
    sys.exit(0 if main() else 1)
