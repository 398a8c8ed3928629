#!/usr/bin/env python3
"""Counts the files of specs on which the promise stands: those with a definition that its clauses reach.

It fails where there are more than MAY_BE. With --tell it names each file, and what of it is reached.
"""

import functools
import re
import sys
from pathlib import Path

CRATES = Path(__file__).resolve().parent.parent / "crates"
LAW = CRATES / "vault_promise/src/lib.rt", "promise_is_kept"
# A change that makes fewer lowers the number here.
MAY_BE = 201

NAME = re.compile(r"[A-Za-z_][\w'-]*(?:\.[A-Za-z_][\w'-]*)*")
USE = re.compile(r"^ *(?:pub |ghost )?use Rattle\.([\w.]+?)(?:\.\{([^}]*)\}| as (\w+))?;?$", re.M)
BEGIN = re.compile(r"^ *(?:abbrev|unfoldable|pub|record|data)\b[a-z ]*? ([A-Za-z_][\w'-]*)(?= :| \{| \(|$)", re.M)
AROUND = re.compile(r"^module _(.*?)\bwhere\n", re.S)
COMMENT = re.compile(r"^ *(?:--|//).*\n?", re.M)


class Words:
    """What the names of a file stand for, by its lines of use: a module and a name of it, or a module."""

    def __init__(self, text):
        self.names, self.modules = {}, {}
        for module, names, alias in USE.findall(text):
            if alias:
                self.modules[alias] = module
            for part in filter(None, map(str.strip, names.split(","))):
                name, _, called = part.partition(" as ")
                self.names[called or name] = module, name

    def places(self, word):
        """Where what a word stands for may be defined: a module, and a name of it."""
        first, _, rest = word.partition(".")
        if first in self.modules and rest:
            yield self.modules[first], rest.partition(".")[0]
        elif first in self.names:
            yield self.names[first]


class Spec(Words):
    """A file of specs: each definition with the words of its paragraph, and of the module around it."""

    def __init__(self, path):
        text = path.read_text()
        super().__init__(text)
        self.path, self.defined, header = path, {}, ""
        for block in USE.sub("", COMMENT.sub("", text)).strip("\n").split("\n\n"):
            around = AROUND.match(block)
            header = around.group(1) if around else header if block.startswith("  ") else ""
            inner = block[around.end():] if around else block
            names = BEGIN.findall(inner)
            # the names below that of a record or of a type are those of its fields
            whole = re.match(r"\s*(?:pub )?(?:record|data)\b", inner)
            for name in names[:1] if whole else names:
                self.defined.setdefault(name, set()).update(NAME.findall(inner + header))


@functools.cache
def spec_of(module):
    """The file of a module, and the rest of its name: a constructor stands in the file of its type."""
    crate, _, *parts = module.split(".")
    for end in range(len(parts), 0, -1):
        path = CRATES / crate / "specs" / Path(*parts[:end]).with_suffix(".antt")
        if path.is_file():
            return Spec(path), parts[end:]
    return None, []


def found(module, name):
    """The file that defines a name of a module, and the name there; none where it is no file of specs."""
    spec, rest = spec_of(module)
    name = rest[0] if rest else name
    while spec and name not in spec.defined:
        module, name = spec.names.get(name, (None, name))
        spec = spec_of(module)[0] if module else None
    return spec, name


def clauses(path, law):
    """The words of the clauses of a function."""
    text = path.read_text()
    body = text[text.index(f"fn {law}"):]
    return Words(text), NAME.findall(COMMENT.sub("", body[:body.index("\n{")]))


def reached(path, law):
    """Each file of specs that the clauses of a function reach, with the definitions."""
    words, names = clauses(path, law)
    waiting, files = [place for name in names for place in words.places(name)], {}
    while waiting:
        spec, name = found(*waiting.pop())
        if spec and name not in files.setdefault(spec.path, set()):
            files[spec.path].add(name)
            for word in spec.defined[name]:
                waiting.extend(spec.places(word))
                own = word.partition(".")[0]
                if own in spec.defined:
                    waiting.append((module_of(spec.path), own))
    return files


def module_of(path):
    return ".".join(path.relative_to(CRATES).with_suffix("").parts)


def main():
    files = reached(*LAW)
    if "--tell" in sys.argv:
        for path in sorted(files):
            print(f"  {path.relative_to(CRATES)}: {' '.join(sorted(files[path]))}")
    many = sum(1 for _ in CRATES.glob("*/specs/**/*.antt"))
    print(f"{LAW[1]} stands on {len(files)} of {many} files of specs, {MAY_BE} may be")
    print(f"{int(len(files) <= MAY_BE)} passed, {int(len(files) > MAY_BE)} failed")
    return len(files) <= MAY_BE


if __name__ == "__main__":
    sys.exit(not main())
