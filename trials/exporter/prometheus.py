"""A real Prometheus before a target of its own, with the alerts as they are shipped, but for their patience
and for the windows that two of them look at: promtool tries these in full."""

import http.server
import json
import os
import re
import subprocess
import threading
import time
import urllib.request

from shared.ports import free_port
from shared.runs import until
from shared.tally import unlike

CALM = {
    'vault_up{merchant="shop1"}': 1,
    'vault_full_ratio{merchant="shop1"}': 0.5,
    'vault_numbers_denied{merchant="shop1"}': 20,
    'vault_numbers_given{merchant="shop1"}': 50000,
    'vault_tokens_made{merchant="shop1"}': 500000,
    'vault_disk_used_ratio{folder="/srv"}': 0.5,
    'vault_inodes_used_ratio{folder="/srv"}': 0.5,
    'vault_folder_there{folder="/srv"}': 1,
    'vault_port_foreign{port="8087"}': 0,
    "vault_clock_jumped_seconds": 0.01,
    'vault_ends_known{kind="caller"}': 1,
    'vault_ends_seconds{kind="caller",name="till-1"}': 100,
    'vault_ends_seconds{kind="front",name="front"}': 100,
    'vault_numbers_unlogged{merchant="shop1"}': 2,
    "vault_log_known": 1,
    'vault_caller_refused{caller="till-1",status="409"}': 3,
    'vault_caller_refused{caller="till-1",status="429"}': 20,
    'haproxy_backend_current_queue{proxy="vault"}': 3,
    'haproxy_frontend_requests_denied_total{proxy="callers"}': 5,
    'haproxy_backend_http_responses_total{proxy="vault",code="4xx"}': 5,
}
# a vault that was restored: its counts have fallen
RESTORED = {
    **CALM,
    'vault_numbers_denied{merchant="shop1"}': 15,
    'vault_numbers_given{merchant="shop1"}': 49970,
    'vault_tokens_made{merchant="shop1"}': 499990,
}
BAD = {
    'vault_up{merchant="shop1"}': 0,
    'vault_full_ratio{merchant="shop1"}': 0.9,
    'vault_numbers_denied{merchant="shop1"}': 60,
    'vault_numbers_given{merchant="shop1"}': 50500,
    'vault_tokens_made{merchant="shop1"}': 510000,
    'vault_disk_used_ratio{folder="/srv"}': 0.9,
    'vault_inodes_used_ratio{folder="/srv"}': 0.99,
    'vault_folder_there{folder="/srv"}': 0,
    'vault_port_foreign{port="8087"}': 1,
    "vault_clock_jumped_seconds": -400,
    'vault_ends_known{kind="caller"}': 0,
    'vault_ends_seconds{kind="caller",name="till-1"}': 20,
    'vault_ends_seconds{kind="front",name="front"}': 3,
    'vault_unwatched{merchant="shop3"}': 1,
    'vault_numbers_unlogged{merchant="shop1"}': 9,
    "vault_log_known": 0,
    'vault_caller_refused{caller="till-1",status="409"}': 300,
    'vault_caller_refused{caller="till-1",status="429"}': 2000,
    'haproxy_backend_current_queue{proxy="vault"}': 500,
    'haproxy_frontend_requests_denied_total{proxy="callers"}': 5000,
    'haproxy_backend_http_responses_total{proxy="vault",code="4xx"}': 5000,
}
# what speaks for as long as its window is, which is short here
LASTING = (
    r"(vault_clock_jumped_seconds|vault_numbers_unlogged|haproxy_\w+_total\{[^}]*\})\[\w+\]"
)
CONFIGURATION = """global: {{scrape_interval: 1s, evaluation_interval: 1s}}
rule_files: [hasty.yaml]
scrape_configs:
  - job_name: vault
    static_configs: [{{targets: ['127.0.0.1:{port}']}}]
"""


class Target(http.server.ThreadingHTTPServer):
    """What Prometheus asks: values that the trial sets. Ends are in days from now."""

    def __init__(self):
        self.values = CALM
        super().__init__(("127.0.0.1", 0), Answer)
        threading.Thread(target=self.serve_forever, daemon=True).start()

    def text(self):
        """The values as Prometheus reads them."""
        for name, value in self.values.items():
            yield f"{name} {time.time() + 86400 * value if 'ends_seconds' in name else value}\n"

    def end(self):
        self.shutdown()
        self.server_close()


class Answer(http.server.BaseHTTPRequestHandler):
    def do_GET(self):
        self.send_response(200)
        self.send_header("Content-Type", "text/plain; version=0.0.4")
        self.end_headers()
        self.wfile.write("".join(self.server.text()).encode())

    def log_message(self, *_):
        pass


class Prometheus:
    """The process, which is over at the end of a `with`."""

    def __init__(self, rules, target):
        self.port = free_port()
        with open(rules) as file, open("hasty.yaml", "w") as hasty:
            hasty.write(re.sub(LASTING, r"\1[10s]", re.sub(r"for: \d+m", "for: 1s", file.read())))
        with open("prometheus.yaml", "w") as file:
            file.write(CONFIGURATION.format(port=target.server_address[1]))
        words = ["--config.file=prometheus.yaml", "--storage.tsdb.path=tsdb", "--log.level=error"]
        words.append(f"--web.listen-address=127.0.0.1:{self.port}")
        with open("prometheus.err", "w") as errors:
            self.process = subprocess.Popen(["prometheus", *words], stdout=errors, stderr=errors)

    def __enter__(self):
        return self

    def __exit__(self, *_):
        self.process.terminate()
        self.process.wait()

    def ask(self, target):
        """What its own API answers, or nothing while it starts."""
        try:
            with urllib.request.urlopen(
                f"http://127.0.0.1:{self.port}/api/v1/{target}", timeout=10
            ) as answer:
                return json.load(answer)["data"]
        except OSError:
            return {}

    def firing(self):
        """The alerts that speak just now."""
        found = self.ask("alerts").get("alerts", [])
        return {it["labels"]["alertname"] for it in found if it["state"] == "firing"}

    def samples(self, name):
        """How many values of a name it has of the last minute."""
        found = self.ask(f"query?query=count_over_time({name}[1m])").get("result", [])
        return max((int(it["value"][1]) for it in found), default=0)


def judge(tally, rules):
    """Each alert is silent at first, and as a vault was restored; each speaks, and falls silent again."""
    target = Target()
    named = set(re.findall(r"alert: (\w+)", open(rules).read()))
    with Prometheus(os.path.abspath(rules), target) as prometheus:
        until(lambda: prometheus.samples("up") >= 5, 60)
        tally.judge("no alert speaks while all is well", unlike(prometheus.firing(), set()))
        target.values = RESTORED
        before = prometheus.samples("up")
        until(lambda: prometheus.samples("up") >= before + 4, 30)
        tally.judge("nor as a vault was restored", unlike(prometheus.firing(), set()))
        target.values = BAD
        wanted = named - {"ExporterAway"}
        until(lambda: prometheus.firing() >= wanted, 30)
        tally.judge("each speaks", unlike(prometheus.firing(), wanted))
        target.values = RESTORED
        until(lambda: not prometheus.firing(), 40)
        tally.judge("and is silent again", unlike(prometheus.firing(), set()))
        target.end()
        until(lambda: "ExporterAway" in prometheus.firing(), 30)
        tally.judge("an exporter that ended is told", unlike("ExporterAway" in prometheus.firing(), True))
