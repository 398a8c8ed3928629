"""The client that Perl makes of the description, as a process beside the trial."""

import json
import os
import subprocess
from typing import NamedTuple


class Said(NamedTuple):
    """An answer as that client had it, and what of it isn't as described."""

    status: int
    body: dict
    faults: str


class Generated:
    """A client that is made of the description as it stands, for any caller; it ends with a `with`."""

    def __init__(self, description):
        words = ["perl", f"{os.path.dirname(__file__)}/client.pl", description]
        self.process = subprocess.Popen(words, stdin=subprocess.PIPE, stdout=subprocess.PIPE, text=True)
        line = self.process.stdout.readline()
        self.faults = "; ".join(json.loads(line)) if line else "the client wasn't made"

    def __enter__(self):
        return self

    def __exit__(self, *_):
        self.process.communicate()

    def ask(self, port, caller, operation, **parameters):
        """Sends one operation through the front at a port; without a caller, without a certificate."""
        asked = {"url": f"https://localhost:{port}", "caller": caller, "operation": operation}
        self.process.stdin.write(json.dumps({**asked, "parameters": parameters}) + "\n")
        self.process.stdin.flush()
        told = json.loads(self.process.stdout.readline())
        return Said(told["status"], told.get("body"), "; ".join(told["faults"]))
