"""Clients of the front, each with the certificate of a caller."""

import http.client
import json
import ssl
from typing import NamedTuple

NUMBER = "4111111111111111"


class Fields(dict):
    """The fields of an answer; their names are the same in small letters and capitals."""

    def __init__(self, pairs):
        super().__init__((name.lower(), value) for name, value in pairs)

    def get(self, name, default=None):
        return super().get(name.lower(), default)


class Answer(NamedTuple):
    status: int
    fields: dict
    body: bytes

    def json(self):
        return json.loads(self.body)


class Client:
    """One connection to the front, which is made anew where it was ended. No answer takes longer than its
    patience. It may come from an address of its own, and go to the front's by IPv6."""

    def __init__(self, port, caller=None, patience=60, address=None, host="localhost"):
        self.port, self.patience, self.host = port, patience, host
        self.source = (address, 0) if address else None
        self.context = ssl.create_default_context(cafile="callers.pem")
        if caller:
            self.context.load_cert_chain(f"{caller}.pem", f"{caller}.key")
        self.connection = None

    def connect(self):
        self.connection = http.client.HTTPSConnection(
            self.host, self.port, context=self.context, timeout=self.patience, source_address=self.source
        )

    def ask(self, method, target, body=None, **fields):
        """Sends one request, over the same connection as the one before where it is still open."""
        if self.connection is None:
            self.connect()
        try:
            self.connection.request(method, target, body, fields)
            found = self.connection.getresponse()
            return Answer(found.status, Fields(found.getheaders()), found.read())
        except (http.client.HTTPException, OSError):
            self.connection.close()
            self.connection = None
            raise

    def token(self, merchant, request, number=NUMBER, **fields):
        """Asks for a token of a card number."""
        body = json.dumps({"number": number, "use": "single"})
        fields["X-Vault-Request"] = str(request)
        return self.ask("POST", f"/v1/merchants/{merchant}/tokens", body, **fields)
