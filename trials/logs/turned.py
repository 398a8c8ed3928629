"""The programs that write and turn the log, by the files of an installation, in this trial's folder."""

import os
import shutil
import subprocess
import time

from haproxy.services import changed

SYSLOG = """module(load="imuxsock" SysSock.Use="off")
input(type="imuxsock" Socket="{folder}/nowhere/dev/log" CreatePath="on")
global(workDirectory="{folder}")
"""


class Syslog:
    """The rsyslog of this trial; it is over at the end of a `with`."""

    def __init__(self, repository):
        folder = os.getcwd()
        os.makedirs("nowhere/dev", exist_ok=True)
        # as OPERATING.md has it made
        os.makedirs("nowhere/vault", exist_ok=True)
        os.chmod("nowhere/vault", 0o750)
        shutil.chown("nowhere/vault", group="haproxy")
        text = open(f"{repository}/deploy/logs/rsyslog.conf").read()
        text = changed(text, ("/var/log/vault/", f"{folder}/"), ("/var/lib/haproxy/", f"{folder}/nowhere/"))
        with open("rsyslog.conf", "w") as file:
            file.write(
                SYSLOG.format(folder=folder)
                + text
                + f'*.* action(type="omfile" file="{folder}/others.log")\n'
            )
        words = ["rsyslogd", "-n", "-f", f"{folder}/rsyslog.conf", "-i", f"{folder}/rsyslog.pid"]
        self.process = subprocess.Popen(words, stderr=open("rsyslog.err", "w"))
        for _ in range(100):
            if all(map(os.path.exists, ("nowhere/dev/log", "nowhere/vault/log", "rsyslog.pid"))):
                return
            time.sleep(0.05)
        raise SystemExit(f"rsyslogd didn't start: {open('rsyslog.err').read()}\n0 passed, 1 failed")

    def __enter__(self):
        return self

    def __exit__(self, *_):
        self.end()

    def end(self):
        self.process.terminate()
        self.process.wait()


def configured(repository):
    """The configuration of logrotate for this folder."""
    folder = os.getcwd()
    syslog = "[ ! -x /usr/lib/rsyslog/rsyslog-rotate ] || /usr/lib/rsyslog/rsyslog-rotate"
    text = changed(
        open(f"{repository}/deploy/logs/logrotate").read(),
        ("/var/log/vault/", f"{folder}/"),
        ("/run/nginx.pid", f"{folder}/nginx.pid"),
        (syslog, f"[ ! -f {folder}/rsyslog.pid ] || kill -HUP $(cat {folder}/rsyslog.pid)"),
    )
    with open("logrotate.conf", "w") as file:
        file.write(text)
    os.chmod("logrotate.conf", 0o644)


def turn(day):
    """Turns the logs as at the end of a day, and names their files by it; what logrotate says."""
    words = ["logrotate", "--force", "--state", f"{os.getcwd()}/logrotate.state", "logrotate.conf"]
    ran = subprocess.run(words, capture_output=True, text=True)
    for log in ("front.log", "taken.log"):
        today = time.strftime(f"{log}-%Y%m%d")
        if os.path.exists(today):
            shutil.move(today, f"{log}-{day}")
    return ran.stdout + ran.stderr
