"""A Chromium without a screen, which is driven over the messages of its own driver."""

import base64
import json
import os
import ssl
import subprocess
import time
import urllib.error
import urllib.request

from front.certificates import openssl
from shared.ports import free_port

ELEMENT = "element-6066-11e4-a52e-4f735466cecf"
# the driver and its browser see policies of their own: nothing of the machine's is changed
INSIDE = 'mount --bind "$1" /etc/chromium && shift && exec "$@"'
WORDS = (
    "--headless=new",
    "--no-sandbox",
    "--no-first-run",
    "--disable-gpu",
    "--disable-dev-shm-usage",
    "--disable-background-networking",
    "--disable-component-update",
    "--force-device-scale-factor=1",
)


def prepare(caller):
    """The certificates and policies of a browser whose person is a caller; its home folder."""
    home = os.path.abspath("home")
    keys = f"sql:{home}/.pki/nssdb"
    os.makedirs(f"{home}/.pki/nssdb")
    os.makedirs("policies/policies/managed")
    subprocess.run(["certutil", "-d", keys, "-N", "--empty-password"], check=True)
    words = ("-export", "-passout", "pass:", "-out", f"{caller}.p12", "-inkey", f"{caller}.key")
    openssl("pkcs12", *words, "-in", f"{caller}.pem")
    words = ["pk12util", "-d", keys, "-W", "", "-K", "", "-i", f"{caller}.p12"]
    subprocess.run(words, check=True, capture_output=True)
    authority = ssl.PEM_cert_to_DER_cert(open("callers.pem").read())
    policy = {
        "AutoSelectCertificateForUrls": [json.dumps({"pattern": "https://localhost", "filter": {}})],
        "CACertificates": [base64.b64encode(authority).decode()],
    }
    with open("policies/policies/managed/trial.json", "w") as file:
        json.dump(policy, file)
    return home


class Browser:
    """One window; it is gone at the end of a `with`, and its folder of a profile stays."""

    def __init__(self, home, size=(780, 1040)):
        self.port, self.profile = free_port(), os.path.abspath("profile")
        words = ["unshare", "-m", "sh", "-c", INSIDE, "sh", os.path.abspath("policies")]
        self.driver = subprocess.Popen(
            [*words, "chromedriver", f"--port={self.port}"],
            env={**os.environ, "HOME": home},
            stdout=subprocess.DEVNULL,
            stderr=subprocess.DEVNULL,
        )
        args = [*WORDS, f"--user-data-dir={self.profile}", f"--window-size={size[0]},{size[1]}"]
        options = {"binary": "/usr/bin/chromium", "args": args}
        wanted = {"goog:chromeOptions": options, "goog:loggingPrefs": {"browser": "ALL"}}
        self.session = ""
        self.session = "/session/" + self.begun({"capabilities": {"alwaysMatch": wanted}})["sessionId"]

    def begun(self, wanted):
        """The session, once the driver takes messages."""
        for _ in range(100):
            try:
                return self.ask("POST", "/session", wanted)
            except urllib.error.URLError as error:
                if isinstance(error, urllib.error.HTTPError):
                    raise
                time.sleep(0.1)
        raise SystemExit("the browser didn't start\n0 passed, 1 failed")

    def ask(self, method, target, body=None):
        """What the driver answers."""
        url = f"http://127.0.0.1:{self.port}{self.session}{target}"
        sent = json.dumps(body).encode() if body is not None else None
        request = urllib.request.Request(url, sent, {"Content-Type": "application/json"}, method=method)
        try:
            with urllib.request.urlopen(request, timeout=60) as answer:
                return json.load(answer)["value"]
        except urllib.error.HTTPError as error:
            told = json.load(error)["value"]["message"]
            raise SystemExit(f"the browser: {told[:300]}\n0 passed, 1 failed") from None

    def __enter__(self):
        return self

    def __exit__(self, *_):
        self.ask("DELETE", "")
        self.driver.terminate()
        self.driver.wait()

    def open(self, url):
        self.ask("POST", "/url", {"url": url})

    def found(self, identity):
        """The target of an element by its identity."""
        there = self.ask("POST", "/element", {"using": "css selector", "value": f"#{identity}"})
        return f"/element/{there[ELEMENT]}"

    def click(self, identity):
        self.ask("POST", f"{self.found(identity)}/click", {})

    def type(self, identity, text):
        """Types a text as a person would, in place of what was there."""
        place = self.found(identity)
        self.ask("POST", f"{place}/clear", {})
        self.ask("POST", f"{place}/value", {"text": text})

    def text(self, identity):
        """What a person sees of an element: nothing where it is hidden."""
        return self.ask("GET", f"{self.found(identity)}/text")

    def press(self, identity, key):
        """Presses one key where an element has the focus."""
        self.ask("POST", f"{self.found(identity)}/value", {"text": key})

    def put(self, identity, text):
        """Puts a text as a paste does, its ends of lines too."""
        made = "it.value = arguments[1]; it.dispatchEvent(new Event('input')); arguments[2]()"
        self.run(f"const it = document.getElementById(arguments[0]); {made}", identity, text)

    def computed(self, identity, what):
        """The name or the role that a screen reader has for an element."""
        return self.ask("GET", f"{self.found(identity)}/computed{what}")

    def seen_as(self, **media):
        """The page as for a medium, or as in dark."""
        features = [{"name": "prefers-color-scheme", "value": media.get("scheme", "")}]
        words = {"media": media.get("media", ""), "features": features}
        self.ask("POST", "/goog/cdp/execute", {"cmd": "Emulation.setEmulatedMedia", "params": words})

    def run(self, script, *words):
        """What a script of the trial's says, which is run in the page."""
        return self.ask("POST", "/execute/async", {"script": script, "args": list(words)})

    def value(self, expression):
        """A value of the page, or the words of its error."""
        ended = "then(done, (it) => done(String(it)))"
        return self.run(f"const done = arguments[0]; (async () => ({expression}))().{ended}")

    def told(self):
        """What the browser has told of the page since the last time: errors, and what was forbidden."""
        return [it["message"] for it in self.ask("POST", "/se/log", {"type": "browser"})]

    def picture(self, path):
        with open(path, "wb") as file:
            file.write(base64.b64decode(self.ask("GET", "/screenshot")))
