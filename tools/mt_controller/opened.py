"""The log that a command line names."""
from __future__ import annotations

import argparse
import re
import ssl
from collections.abc import Iterator

from mt_controller.entries import WrongLog, read_entry, read_head
from mt_controller.etcd_log import EtcdAt, EtcdLog
from mt_controller.logs import Log, entries_from
from mt_controller.sqlite_log import SqliteLog

NODE = re.compile(r"[^\s/:\[\]]+:\d{1,5}|\[[0-9a-fA-F:.]+\]:\d{1,5}")


class WrongWords(Exception):
    """The words of a command line name no log; the text says what is wrong with them."""


def add_words(asked: argparse.ArgumentParser) -> None:
    """Has a command line take the words that name a log."""
    asked.add_argument("--log", metavar="LOG", required=True, help="sqlite:FILE, or etcd:HOST:PORT,HOST:PORT..")
    asked.add_argument("--prefix", metavar="KEY", help="below which key of etcd the log stands (/mt/log)")
    asked.add_argument("--cacert", metavar="FILE", help="who signed the certificates of etcd's nodes; they are spoken with by TLS")
    asked.add_argument("--cert", metavar="FILE", help="the certificate that is shown to them")
    asked.add_argument("--key", metavar="FILE", help="its key")


def opened_log(given: argparse.Namespace) -> Log:
    """The log that words name. Raises `WrongWords`, `WrongLog`, `LogFailed`, `LogUnreachable`."""
    kind, _, where = given.log.partition(":")
    if kind == "sqlite" and where:
        if given.prefix or given.cacert or given.cert or given.key:
            raise WrongWords("--prefix, --cacert, --cert and --key are of etcd")
        return SqliteLog(where)
    nodes = where.split(",")
    if kind != "etcd" or not all(NODE.fullmatch(it) for it in nodes):
        raise WrongWords(f"{given.log} is no log: it is sqlite:FILE, or etcd:HOST:PORT,HOST:PORT..")
    prefix = given.prefix if given.prefix is not None else EtcdAt.prefix
    if not re.fullmatch(r"(/[\w.-]+)+", prefix, re.ASCII):
        raise WrongWords(f"{ascii(prefix)} is no key for a log: it begins with a slash, ends with none, and its parts are letters, digits, '.', '-' and '_'")
    return EtcdLog(EtcdAt(nodes, prefix, _tls(given)))


def lines_of(log: Log) -> Iterator[str]:
    """The lines of a log, in their order; nothing is applied. Raises what its calls raise."""
    for place, text in enumerate(entries_from(log, 0)):
        yield from read_entry(text, place).lines if place else ()


def watched_by(log: Log) -> tuple[str, ...]:
    """The keyspaces that a log watches. Raises what its calls raise, and `WrongLog` if nothing stands in it."""
    texts = log.read(0)
    if not texts:
        raise WrongLog("nothing stands in the log")
    return read_head(texts[0])


def _tls(given: argparse.Namespace) -> ssl.SSLContext | None:
    """How nodes are spoken with; None is without TLS."""
    if bool(given.cert) != bool(given.key):
        raise WrongWords("--cert and --key go together")
    if not given.cacert and not given.cert:
        return None
    try:
        tls = ssl.create_default_context(cafile=given.cacert)
        if given.cert:
            tls.load_cert_chain(given.cert, given.key)
    except (OSError, ssl.SSLError) as why:
        raise WrongWords(f"{given.cacert} {given.cert} {given.key}: {why}") from why
    return tls
