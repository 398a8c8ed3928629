"""What a person does on the page, and what is to be seen then."""

import http.server
import json
import os
import re
import subprocess
import threading
import time

from front.clients import NUMBER, Client
from shared import lines
from shared.runs import until
from shared.tally import unlike

GROUPED = "4111 1111 1111 1111"
SHOWN = 30
ESCAPE = "\ue00c"


class Walk:
    """A person at the page of one front."""

    def __init__(self, tally, browser, port, screens=""):
        self.tally, self.browser, self.port, self.screens = tally, browser, port, screens

    def sees(self, name, identity, wanted, seconds=10):
        """An element says something within so many seconds."""
        fits = until(lambda: wanted in self.browser.text(identity), seconds)
        self.tally.judge(name, "" if fits else f"{identity} says {self.browser.text(identity)!r}")

    def looks(self, merchant, token):
        """Types both and looks the token up."""
        self.browser.type("merchant", merchant)
        self.browser.type("token", token)
        self.browser.click("look")

    def pictured(self, name):
        """A picture of the page as it is, where pictures are wanted."""
        if self.screens:
            self.browser.picture(f"{self.screens}/office-{name}.png")


def opened(walk):
    """The page is there, and the browser has nothing to tell of it."""
    walk.browser.open(f"https://localhost:{walk.port}/")
    walk.tally.judge("the page is there", unlike(walk.browser.value("document.title"), "Vault: back office"))
    walk.tally.judge("the browser finds no fault", "; ".join(walk.browser.told())[:300])
    styled = walk.browser.value("getComputedStyle(document.body).maxWidth")
    walk.tally.judge("its style is there", unlike(styled, "704px"))
    walk.sees("whose certificate it is", "who", "as back")


def looked_up(walk, token):
    """A live token, by its digits in groups as a person may type them."""
    walk.looks("shop1", f"{token[:4]} {token[4:8]}-{token[8:]}")
    walk.sees("a token's mask", "mask", "411111******1111")
    for identity, wanted in (("state", "live"), ("use", "single"), ("of", token[-4:]), ("birth", "20")):
        walk.sees(f"its {identity}", identity, wanted)
    enabled = walk.browser.value("[number, revoke, purge].map((it) => it.disabled).join()")
    walk.tally.judge("a live token isn't purged", unlike(enabled, "false,false,true"))
    birth = walk.browser.text("birth")
    zoned = re.search(r"[0-9]{2}:[0-9]{2} (?:UTC|GMT|[A-Z]{3,4})", birth)
    walk.tally.judge("its times have a zone", "" if zoned else birth)
    walk.looks("shop1", f"{token[:4]}\u00a0{token[4:8]}\u202f{token[8:12]}\u2011{token[12:]}")
    walk.sees("with no-break spaces it is the same", "mask", "411111******1111")


def number_shown(walk):
    """The number is there for half a minute, and then nowhere in the page, whatever the clock says. The case
    for which it was brought back stands in the log."""
    walk.browser.type("case", NUMBER)
    before = len(lines.read("front.log"))
    walk.browser.click("number")
    walk.sees("a card number is no case", "said", "no ten digits in a row")
    walk.tally.judge("and isn't sent", unlike(len(lines.read("front.log")), before))
    walk.browser.type("case", "chargeback 4711")
    walk.browser.click("number")
    walk.sees("the number", "digits", GROUPED)
    begun = time.monotonic()
    walk.pictured("number")
    until(lambda: "chargeback 4711" in lines.read("front.log")[-1], 5)
    last = json.loads(lines.read("front.log")[-1])
    told = last.get("asked"), last.get("reference")
    walk.tally.judge("the case is logged", unlike(told, ("detokenize", "chargeback 4711")))
    walk.browser.run("const now = Date.now; Date.now = () => now() - 3600000; arguments[0]()")
    time.sleep(0.5)
    left = walk.browser.text("left")
    is_so = left != "" and int(left) <= SHOWN
    walk.tally.judge("a clock that is set back changes nothing", "" if is_so else f"'{left}' s")
    walk.browser.seen_as(media="print")
    display = walk.browser.value("getComputedStyle(shown).display")
    walk.browser.seen_as()
    walk.tally.judge("the number isn't printed", unlike(display, "none"))
    role = walk.browser.computed("digits", "role")
    walk.tally.judge("it isn't read aloud by itself", "" if role != "status" else role)
    until(lambda: time.monotonic() - begun > SHOWN - 4, SHOWN)
    walk.sees("it is there for a while", "digits", GROUPED, 0)
    until(lambda: not walk.browser.text("digits"), SHOWN)
    spent = time.monotonic() - begun
    walk.tally.judge("it is gone in time", "" if SHOWN - 2 < spent < SHOWN + 2 else f"after {spent:.1f} s")
    absent(walk, "and nowhere in the page")
    walk.browser.click("number")
    walk.sees("it is shown again", "digits", GROUPED)
    walk.browser.click("hide")
    absent(walk, "and hidden at once")
    walk.browser.click("number")
    walk.sees("it is shown once more", "digits", GROUPED)
    walk.browser.run("document.dispatchEvent(new Event('visibilitychange')); arguments[0]()")
    walk.sees("a page that is seen shows it on", "digits", GROUPED)
    script = "Object.defineProperty(document, 'hidden', { value: true, configurable: true });"
    more = "document.dispatchEvent(new Event('visibilitychange')); delete document.hidden; arguments[0]()"
    walk.browser.run(script + more)
    absent(walk, "a page that isn't seen doesn't")


def absent(walk, name):
    """The number is nowhere in the page."""
    page = walk.browser.value("document.documentElement.outerHTML")
    walk.tally.judge(name, "it is there" if NUMBER in page or GROUPED in page else "")


def counted(walk):
    """The counts of a merchant."""
    walk.browser.type("merchant", "shop1")
    walk.browser.click("count")
    walk.sees("the counts", "counts-of", "Counts of shop1")
    walk.sees("tokens made", "made", "3")
    walk.sees("how full it is", "room", "0.0 % of the 1,000,000 tokens")
    name = walk.browser.computed("full", "label")
    walk.tally.judge("the meter has a name", "" if "1,000,000 tokens" in name else f"{name!r}")
    walk.pictured("counts")


def ended(walk, token):
    """A token is revoked and purged, each after a question; then it gives nothing."""
    walk.looks("shop1", token)
    walk.sees("a live token", "state", "live")
    walk.browser.click("revoke")
    walk.sees("it is asked whether that is meant", "question", "for good")
    focused = "document.activeElement.id"
    walk.tally.judge("on no", unlike(walk.browser.value(focused), "no"))
    walk.browser.click("no")
    walk.tally.judge("and back where it was asked", unlike(walk.browser.value(focused), "revoke"))
    walk.browser.click("revoke")
    walk.browser.press("no", ESCAPE)
    told = walk.browser.text("question"), walk.browser.value(focused)
    walk.tally.judge("Escape is no too", unlike(told, ("", "revoke")))
    walk.browser.click("look")
    walk.sees("no leaves it live", "state", "live")
    walk.browser.click("revoke")
    walk.browser.click("yes")
    walk.sees("it is revoked", "said", "The token is revoked.")
    walk.sees("as its state says", "state", "revoked")
    enabled = walk.browser.value("[number, revoke, purge].map((it) => it.disabled).join()")
    walk.tally.judge("a dead token is purged alone", unlike(enabled, "true,true,false"))
    walk.browser.click("purge")
    walk.browser.click("yes")
    walk.sees("it is purged", "said", "The card number is purged.")
    walk.browser.click("look")
    walk.sees("what is purged is told so", "said", "is purged, and nothing brings it back")


def refused(walk, unknown):
    """Refusals in words; what is wrong in itself isn't sent."""
    walk.looks("shop1", unknown)
    walk.sees("a token that isn't there", "said", "has no such token")
    walk.looks("shop2", unknown)
    walk.sees("a merchant without the right", "said", "You haven't the right")
    walk.pictured("refused")
    walk.looks("nobody", unknown)
    walk.sees("a merchant that isn't known", "said", "doesn't know this merchant")
    before = len(lines.read("front.log"))
    for merchant, token, wanted in (
        ("shop1", NUMBER, "a card number and no token"),
        ("shop1", "4111 1111-1111 1111", "a card number and no token"),
        ("shop1", "12", "no token"),
        ("shop1", "<b>1</b>", "no token"),
        ("Shop 1", unknown, "no merchant's name"),
        (NUMBER, unknown, "no merchant's name"),
        ("../shop2", unknown, "no merchant's name"),
    ):
        walk.looks(merchant, token)
        walk.sees(f"{wanted} is told", "said", wanted)
    walk.tally.judge("and none was sent", unlike(len(lines.read("front.log")), before))
    walk.looks("shop1", NUMBER)
    kept = walk.browser.value("document.getElementById('token').value")
    walk.tally.judge("a card number doesn't stay in its field", unlike(kept, ""))
    walk.looks("Shop 1", NUMBER)
    kept = walk.browser.value("document.getElementById('token').value")
    walk.tally.judge("nor beside a wrong merchant", unlike(kept, ""))


def several(walk, tokens, unknown):
    """A column of tokens is looked up, one after the other; with a card number in it none is sent."""
    walk.browser.type("merchant", "shop1")
    before = len(lines.read("front.log"))
    walk.browser.put("token", "\n".join([*tokens, NUMBER]))
    walk.browser.click("look")
    walk.sees("a card number among tokens", "said", "a card number and no token")
    walk.browser.put("token", "\n".join([tokens[0]] * 51))
    walk.browser.click("look")
    walk.sees("too many tokens", "said", "At most 50")
    walk.tally.judge("none of them was sent", unlike(len(lines.read("front.log")), before))
    walk.browser.put("token", "\r\n".join([*tokens, unknown]))
    walk.browser.click("look")
    walk.sees("a column of tokens", "said", f"{len(tokens) + 1} tokens were looked up")
    found = walk.browser.value("[...rows.rows].map((it) => it.innerText).join('|')")
    fits = found.count("411111******1111") == len(tokens) and "has no such token" in found
    walk.tally.judge("each has a row", "" if fits and found.count("|") == len(tokens) else found)
    walk.pictured("several")
    walk.browser.value("rows.querySelector('button').click()")
    walk.sees("a row opens its token", "of", tokens[0][-4:])


def luminance(color):
    """How light a color is, as the guidelines for the web count it."""
    parts = [int(it) / 255 for it in re.findall(r"[0-9]+", color)[:3]]
    linear = [it / 12.92 if it <= 0.03928 else ((it + 0.055) / 1.055) ** 2.4 for it in parts]
    return sum(weight * it for weight, it in zip((0.2126, 0.7152, 0.0722), linear, strict=True))


def edges(walk):
    """The edges of fields have three to one against what is around them, in light and in dark."""
    for scheme in ("light", "dark"):
        walk.browser.seen_as(scheme=scheme)
        styles = (
            "[getComputedStyle(at('merchant')).borderTopColor, getComputedStyle(at('asked')).backgroundColor]"
        )
        dark, light = sorted(luminance(it) for it in walk.browser.value(styles))
        ratio = (light + 0.05) / (dark + 0.05)
        walk.tally.judge(f"the fields' edges in {scheme}", "" if ratio >= 3 else f"{ratio:.1f} to 1")
    walk.browser.seen_as()


def kept(walk):
    """Nothing is kept by the browser while the page is open, nor after it was left."""
    for name, expression in (
        ("storage", "localStorage.length + sessionStorage.length"),
        ("cookie", "document.cookie.length"),
        ("database", "indexedDB.databases().then((it) => it.length)"),
        ("cache", "caches.keys().then((it) => it.length)"),
        ("worker", "navigator.serviceWorker.getRegistrations().then((it) => it.length)"),
        ("trace in its address", "location.hash.length + location.search.length"),
    ):
        walk.tally.judge(f"no {name}", unlike(walk.browser.value(expression), 0))
    walk.browser.open("about:blank")
    walk.browser.ask("POST", "/back", {})
    fields = "['merchant', 'token'].map((it) => document.getElementById(it).value).join('')"
    typed = walk.browser.value(f"{fields} + said.textContent + mask.textContent")
    walk.tally.judge("nothing is there when one comes back", unlike(typed, ""))


def by_others(walk, elsewhere):
    """The page asks nobody else and takes no script of others."""
    told = walk.browser.value(f"fetch('http://127.0.0.1:{elsewhere}/metrics').then(() => 'asked')")
    walk.tally.judge("the page asks nobody else", "" if "Failed to fetch" in told else told)
    script = "const it = document.createElement('script'); it.textContent = 'window.ran = 1';"
    walk.browser.value(f"(() => {{ {script} document.body.append(it) }})()")
    ran = walk.browser.value("String(window.ran)")
    walk.tally.judge("no script of others", unlike(ran, "undefined"))
    told = walk.browser.value("(() => { document.body.innerHTML = '<b>x</b>'; return 'put' })()")
    walk.tally.judge("no text becomes a page", "it did" if told == "put" else "")


class Page(http.server.BaseHTTPRequestHandler):
    """A page of another site."""

    def do_GET(self):
        self.send_response(200)
        self.send_header("Content-Type", "text/html")
        self.end_headers()
        self.wfile.write(b"<title>elsewhere</title>")

    def log_message(self, *_):
        pass


def by_another_site(walk):
    """Another site's page that the same person opens is refused by the front, in each way that it has."""
    server = http.server.ThreadingHTTPServer(("127.0.0.1", 0), Page)
    threading.Thread(target=server.serve_forever, daemon=True).start()
    walk.browser.open(f"http://127.0.0.1:{server.server_address[1]}/")
    before = len(lines.read("front.log"))
    url = f"https://localhost:{walk.port}/v1/merchants/shop1/audit"
    walk.browser.value(f"fetch('{url}', {{ mode: 'no-cors', credentials: 'include' }})")
    image = f"const it = new Image(); it.onload = it.onerror = () => done(''); it.src = '{url}'"
    walk.browser.run(f"const done = arguments[0]; {image}")
    framed = (
        "const it = document.createElement('iframe'); it.onload = () => done(''); document.body.append(it)"
    )
    walk.browser.run(f"const done = arguments[0]; {framed}; it.src = 'https://localhost:{walk.port}/'")
    until(lambda: len(lines.read("front.log")) >= before + 3, 5)
    last = [json.loads(it) for it in lines.read("front.log")[before:]]
    asked = {it["status"] for it in last if it["asked"] == "audit"}
    walk.tally.judge("another site's page is refused", unlike(asked, {403}))
    # the browser tells what was forbidden some time after the frame was answered
    told = []

    def is_told():
        told.extend(walk.browser.told())
        return any("frame-ancestors" in it for it in told)

    walk.tally.judge("and has no page in its own", "" if until(is_told) else f"{told}"[-300:])
    server.shutdown()


def away(walk, vault, token):
    """Behind HAProxy a vault that is away is waited for, and the page says so."""
    walk.browser.open(f"https://localhost:{walk.port}/")
    vault.kill()
    walk.looks("shop1", token)
    walk.sees("a vault that is away is waited for", "said", "this waits for it")
    walk.tally.judge("nothing is shown meanwhile", unlike(walk.browser.text("mask"), ""))
    vault.start()
    walk.sees("and answers then", "mask", "411111******1111", 20)


def told_away(walk, vault, token):
    """Behind nginx it is told."""
    opened(walk)
    walk.looks("shop1", token)
    walk.sees("a token behind nginx", "mask", "411111******1111")
    vault.kill()
    walk.browser.click("look")
    walk.sees("a vault that is away is told", "said", "The vault is away.")
    vault.start()


def left_behind(tally, profile, *secrets):
    """No number and no token stands in a file of the browser's profile."""
    words = [word for secret in secrets for word in ("-e", secret)]
    found = subprocess.run(["grep", "-rlaF", *words, profile], capture_output=True, text=True).stdout
    tally.judge("nothing of it is in the browser's folder", found.replace(profile, "")[:300])
    tally.judge("which is there", "" if os.listdir(profile) else "it is empty")


def tokens(port, many):
    """Some live tokens."""
    till = Client(port, "till-1")
    return [till.token("shop1", request).json()["token"] for request in range(1, many + 1)]
