"""Certificates of authorities of the trial's own: by deploy/certificates.sh, and such as it never makes."""

import os
import subprocess

SCRIPT = f"{os.path.dirname(os.path.abspath(__file__))}/../../deploy/certificates.sh"
CALLERS = ("till-1", "till-2", "back", "guest")
CURVE = ("-newkey", "ec", "-pkeyopt", "ec_paramgen_curve:P-256", "-nodes")


def by_script(step, folder, *words):
    """One step of deploy/certificates.sh, which has to end well; what it says."""
    ran = subprocess.run(["sh", SCRIPT, step, folder, *words], capture_output=True, text=True)
    if ran.returncode != 0:
        raise SystemExit(f"certificates.sh {step}: {ran.stderr}\n0 passed, 1 failed")
    return ran.stdout


def openssl(*words):
    """Runs one command of openssl, which has to end well."""
    subprocess.run(["openssl", *words], check=True, capture_output=True)


def signed(name, subject, purpose="clientAuth", letters="utf8only"):
    """A certificate by the authority for any subject, as one might be signed that a caller wrote itself."""
    with open("letters.conf", "w") as file:
        file.write(f"[req]\ndistinguished_name = none\nstring_mask = {letters}\n[none]\n")
    openssl(
        "req",
        "-config",
        "letters.conf",
        *CURVE,
        "-utf8",
        "-keyout",
        f"{name}.key",
        "-out",
        f"{name}.csr",
        "-subj",
        subject,
    )
    with open(f"{name}.ext", "w") as file:
        file.write(f"extendedKeyUsage = {purpose}\n")
    by = ("-CA", "callers.pem", "-CAkey", "authority.key", "-CAcreateserial", "-days", "2")
    openssl("x509", "-req", "-in", f"{name}.csr", *by, "-extfile", f"{name}.ext", "-out", f"{name}.pem")


def make():
    """All that the front and its clients need, in the folder where the trial runs."""
    by_script("authority", ".")
    by_script("server", ".", "localhost")
    for caller in CALLERS:
        by_script("caller", ".", caller)
    signed("nobody", "/CN=No Body")


def untaken():
    """Two certificates of a caller's name that aren't taken: another authority's, and one of yesterday."""
    words = ("-x509", *CURVE, "-days", "2", "-subj", "/CN=back")
    openssl("req", *words, "-keyout", "stranger.key", "-out", "stranger.pem")
    signed("expired", "/CN=back")
    by = ("-CA", "callers.pem", "-CAkey", "authority.key", "-CAcreateserial", "-days", "-1")
    words = ("-req", "-in", "expired.csr", *by, "-extfile", "expired.ext", "-out", "expired.pem")
    openssl("x509", *words)


def chains():
    """Two files of certificates that mislead: one that a caller signed, and one's own before another's."""
    openssl("req", *CURVE, "-keyout", "below.key", "-out", "below.csr", "-subj", "/CN=back")
    by = ("-CA", "guest.pem", "-CAkey", "guest.key", "-CAcreateserial", "-days", "2")
    openssl("x509", "-req", "-in", "below.csr", *by, "-extfile", "nobody.ext", "-out", "below-1.pem")
    for name, parts in (("below", ("below-1", "guest")), ("before", ("guest", "back"))):
        with open(f"{name}.pem", "w") as chain:
            chain.writelines(open(f"{part}.pem").read() for part in parts)
    with open("before.key", "w") as key:
        key.write(open("guest.key").read())
