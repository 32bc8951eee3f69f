"""An etcd that is spoken with over TLS, where both ends show certificates."""
from __future__ import annotations

import contextlib
import pathlib
import shutil
import subprocess
from collections.abc import Iterator

from controller_logs import free_ports
from controller_runs import SETUP, WATCHED, Bench, Case, skipped, stopped_well, until, went_well

NEW_KEY = ["-newkey", "ec", "-pkeyopt", "ec_paramgen_curve:prime256v1", "-nodes"]
# etcd's gateway shows the node's own certificate to the node
USES = "subjectAltName=IP:127.0.0.1\nextendedKeyUsage=serverAuth,clientAuth\n"


def make_authority(room: pathlib.Path, name: str) -> None:
    """A key by which certificates are signed, with its own."""
    _openssl(room, "req", "-x509", *NEW_KEY, "-keyout", f"{name}.key", "-out", f"{name}.pem", "-subj", f"/CN={name}", "-days", "2")


def make_certificate(room: pathlib.Path, name: str, authority: str) -> None:
    """A key with its certificate."""
    (room / "uses").write_text(USES)
    _openssl(room, "req", *NEW_KEY, "-keyout", f"{name}.key", "-out", f"{name}.csr", "-subj", f"/CN={name}")
    signed_by = ["-CA", f"{authority}.pem", "-CAkey", f"{authority}.key", "-CAcreateserial"]
    _openssl(room, "x509", "-req", "-in", f"{name}.csr", *signed_by, "-out", f"{name}.pem", "-days", "2", "-extfile", "uses")


def _openssl(room: pathlib.Path, *words: str) -> None:
    subprocess.run(["openssl", *words], cwd=room, stdin=subprocess.DEVNULL, stdout=subprocess.DEVNULL, stderr=subprocess.DEVNULL, check=True)


@contextlib.contextmanager
def node(room: pathlib.Path) -> Iterator[int]:
    """The port of a node that asks for certificates."""
    port, peer = free_ports(2)
    client, peers = f"https://127.0.0.1:{port}", f"http://127.0.0.1:{peer}"
    words = ["etcd", "--data-dir", "data", "--listen-client-urls", client, "--advertise-client-urls", client, "--listen-peer-urls", peers]
    words += ["--initial-advertise-peer-urls", peers, "--initial-cluster", f"default={peers}"]
    words += ["--cert-file", "node.pem", "--key-file", "node.key", "--client-cert-auth", "--trusted-ca-file", "ours.pem"]
    with open(room / "etcd.log", "wb") as said:
        process = subprocess.Popen(words, cwd=room, stdin=subprocess.DEVNULL, stdout=said, stderr=said)
    try:
        yield port
    finally:
        process.kill()
        process.wait()


def with_certificates(bench: Bench) -> list[str]:
    """Who has the certificates is answered, and goes on; who lacks them, or trusts somebody else, is told, and nothing is written."""
    room = bench.folder()
    for name in ("ours", "theirs"):
        make_authority(room, name)
        make_certificate(room, f"client of {name}", name)
    make_certificate(room, "node", "ours")
    with node(room) as port:
        log = ["--log", f"etcd:127.0.0.1:{port}"]
        right = [*log, "--cacert", str(room / "ours.pem"), *_shown(room, "client of ours")]
        if not until(lambda: bench.ended([*right, "--batch", *WATCHED])[0].status == 0, bench.patience):
            return [f"nothing is answered: {bench.ended([*right, '--batch'])} {(room / 'etcd.log').read_text(errors='replace')[-500:]}"]
        ended, printed = bench.ended([*right, "--batch"], "".join(f"{it}\n" for it in SETUP).encode())
        found = [*went_well(ended), *([] if printed.decode().splitlines() == bench.answers(SETUP) else [f"it printed {printed!r}"])]
        ways = {
            "no certificate": [*log, "--cacert", str(room / "ours.pem")],
            "another's certificate": [*log, "--cacert", str(room / "ours.pem"), *_shown(room, "client of theirs")],
            "another's node": [*log, "--cacert", str(room / "theirs.pem"), *_shown(room, "client of ours")],
            "no TLS": log,
        }
        found += [f"{name}: {odd}" for name, words in ways.items() for odd in stopped_well(bench.ended([*words, "--batch"], b"get corder 1\n")[0])]
        ended, printed = bench.ended([*right, "--script"])
        return found + ([] if printed.decode().splitlines()[1:] == SETUP else [f"the log has {printed!r}"])


def _shown(room: pathlib.Path, name: str) -> list[str]:
    return ["--cert", str(room / f"{name}.pem"), "--key", str(room / f"{name}.key")]


def cases() -> list[Case]:
    """The cases; skipped without etcd, or what makes certificates."""
    return [("an etcd by TLS", with_certificates if shutil.which("etcd") and shutil.which("openssl") else skipped)]
