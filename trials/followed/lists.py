"""The texts of both lists, and the ways in which a file gets another text."""

import os
import subprocess
import time

RIGHTS, MERCHANTS = "rights.toml", "merchants.toml"
END = "# end\n"
# how many tills ask all the time; every good list has their rights
CLIENTS = 16
TILLS = "".join(f'[till-{it}]\nshop1 = ["tokenize"]\n' for it in range(CLIENTS))


def rights(*callers, merchant="shop1", end=END):
    """A list with the tills that ask, and these callers too."""
    return TILLS + "".join(f'[{it}]\n{merchant} = ["tokenize"]\n' for it in callers) + end


def merchants(*names, single=86400, end=END):
    """A list with the tills' shop, whose tokens live so long, and these merchants too."""
    lives = {"shop1": single} | dict.fromkeys(names, 60)
    return "".join(f"[{name}]\nsingle = {life}\nmulti = 0\n" for name, life in lives.items()) + end


def short(*lines, end=END):
    """That shop, and one whose tokens live for a second; these lines stand in its table too."""
    return merchants(end="") + "".join(f"{it}\n" for it in ("[short]", "single = 1", "multi = 0", *lines)) + end


def sweepers(end=END):
    """The tills, and a caller at that shop who may purge."""
    return TILLS + '[sweeper]\nshort = ["tokenize", "purge"]\n' + end


def written(path, text):
    """The file is written over where it lies, as a copy over it does."""
    with open(path, "w") as it:
        it.write(text)


def renamed(path, text):
    """Another file gets its name, as `mv` does and most editors do."""
    written(f"{path}.new", text)
    os.rename(f"{path}.new", path)


def installed(path, text):
    """It is copied there by `install`, which removes the file before."""
    written(f"{path}.new", text)
    subprocess.run(["install", "-m", "644", f"{path}.new", path], check=True)


def filled(path, text):
    """It is cut to nothing and filled up slowly: its first half lies there for longer than two looks."""
    lines = text.splitlines(keepends=True)
    with open(path, "w") as it:
        for place, line in enumerate(lines):
            it.write(line)
            it.flush()
            time.sleep(1.2 if place == len(lines) // 2 else 0.01)


def linked(path, text):
    """It is a link, which is pointed elsewhere."""
    name = f"{path}.{time.monotonic_ns()}"
    written(name, text)
    os.symlink(name, f"{path}.link")
    os.rename(f"{path}.link", path)


WAYS = (written, renamed, installed, filled, linked)
