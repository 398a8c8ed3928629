"""A front whose first answer is lost, and whose second says that the merchant isn't known."""

import http.server
import json
import ssl
import threading

from api.asked import NUMBER
from api.shop import SHOP
from front.clients import Client
from shared.tally import unlike


class Losing(http.server.ThreadingHTTPServer):
    """A front before the real one, which asks that as a till and remembers what it was asked."""

    def __init__(self, port):
        self.port, self.asked, self.answers, self.lock = port, [], [], threading.Lock()
        super().__init__(("127.0.0.1", 0), Answer)
        context = ssl.SSLContext(ssl.PROTOCOL_TLS_SERVER)
        context.load_cert_chain("server.pem", "server.key")
        self.socket = context.wrap_socket(self.socket, server_side=True, do_handshake_on_connect=False)
        threading.Thread(target=self.serve_forever, daemon=True).start()

    def end(self):
        self.shutdown()
        self.server_close()


class Answer(http.server.BaseHTTPRequestHandler):
    """One request: its first answer is lost, its second is 404, and from then on it is the real front's."""

    def do_POST(self):
        request = self.headers["X-Vault-Request"]
        with self.server.lock:
            turn = self.server.asked.count(request)
            self.server.asked.append(request)
        body = self.rfile.read(int(self.headers["Content-Length"]))
        self.close_connection = True
        told = Client(self.server.port, "till-1").ask("POST", self.path, body, **{"X-Vault-Request": request})
        if turn == 0:
            return
        status, text = (404, b'{"refused":7}') if turn == 1 else (told.status, told.body)
        self.server.answers.append((request, text))
        self.send_response(status)
        self.send_header("Content-Type", "application/json")
        self.send_header("Content-Length", str(len(text)))
        self.send_header("Connection", "close")
        self.end_headers()
        self.wfile.write(text)

    def log_message(self, *_):
        pass


def made(port):
    """How many tokens the shop has."""
    return Client(port, "back").ask("GET", f"/v1/merchants/{SHOP}/audit").json()["made"]


def judge(tally, examples, port):
    """Each client asks again with the same number, and has the token that was made at first."""
    for name in examples.tills:
        front, before = Losing(port), made(port)
        told = examples.till(front.server_address[1], name=name)
        front.end()
        seen = len(front.asked), len(set(front.asked)), made(port) - before, told.status
        tally.judge(f"{name}: an answer that is lost, a route on its way", unlike(seen, (3, 1, 1, 0)))
        token = json.loads(front.answers[-1][1]).get("token", "-") if front.answers else "-"
        tally.judge(
            f"{name} has its first token", "" if told.out.startswith(f"{token} ") else told.out + told.err
        )
    front = Losing(port)
    with open("lost.csv", "w") as file:
        file.write(f"request,number,use\n400001,{NUMBER},single\n400002,{NUMBER},single\n")
    words = (f"https://localhost:{front.server_address[1]}", SHOP, "lost.csv", "lost.out")
    told = examples.run("batch", *words, by="till-1")
    front.end()
    lines = open("lost.out").read().splitlines()
    tally.judge(
        "a batch asks again too", unlike((told.status, len(lines), "refused" in str(lines)), (0, 3, False))
    )
    with open("unknown.csv", "w") as file:
        file.write(f"request,number,use\n400003,{NUMBER},single\n400004,{NUMBER},single\n")
    words = (f"https://localhost:{port}", "nobody", "unknown.csv", "unknown.out")
    told = examples.run("batch", *words, by="till-1")
    lines = open("unknown.out").read().splitlines()[1:]
    wanted = ["400003,refused,7", "400004,refused,7"]
    tally.judge("and is told of a merchant at last", unlike((told.status, lines), (1, wanted)))
