"""The scripts that checks/embed plays: those whose outputs are known, odd ones, and one of lines that are drawn at random, always the same ones."""
from __future__ import annotations

import random
from collections.abc import Iterator

import known_scripts
from fail_alloc_scripts import RUNS

SEED, RANDOM_LINES = 20261130, 10_000
MOST_BYTES = 1_048_576  # of a script
PROGRAM = known_scripts.TOP / "crates/mt_program"
VERBS = b"""keyspace table rule insert update append delete get at rules dump create advance begin-switch begin-reverse switch reverse step undo cancel
complete show""".split()

Script = tuple[str, list[str], bytes]  # its name, the keyspaces that are watched, and its lines


def known() -> Iterator[Script]:
    """The worked scripts, the examples and that of the program's own crate."""
    for number, (_, keyspaces, script, _) in enumerate([*known_scripts.worked(), *known_scripts.examples()]):
        yield f"known_{number}", list(keyspaces), script.encode()
    _, *keyspaces = (PROGRAM / "args").read_text().split()
    yield "program", keyspaces, (PROGRAM / "stdin").read_bytes()


def odd() -> Iterator[Script]:
    """Scripts that are empty, end without a line end, have line ends of either kind, bytes that are no text, and lines that are too long."""
    yield "empty", [], b""
    yield "line_feeds", ["a"], b"\n\n\n"
    yield "no_end", ["a"], b"keyspace a\ndump"
    yield "returns", [], b"keyspace a\r\n\r\nkeyspace b\r\r\n# \r\nkeyspace c\r"
    yield "bytes", [], b"keyspace \0\n\0\nkeyspace \xff\n#\0\xff\n\xc3\xa4\nkeyspace a\0\n \t \nkeyspace a\n"
    yield "long", [], b"\n".join([b"x" * 4096, b"x" * 4097, b"#" * 9000, b" " * 9000, b"keyspace " + b" " * 5000 + b"a", b"\n"])
    yield "long_document", ["a"], b"keyspace a\n" + b"".join(b"table a %s_%d\nrule r%d a.t\n" % (b"t" * 40, it, it) for it in range(400)) + b"dump\nrules\n"
    yield "longest", [], b"keyspace a\n".ljust(MOST_BYTES, b"#")


def failing() -> Iterator[Script]:
    """Scripts in which allocations fail, each with what shows the state that it leaves: those of checks/fail_alloc."""
    for number, (words, script) in enumerate(RUNS):
        if words[0] == "run":
            yield f"failing_{number}", words[1:], script + b"rules\ndump\n"


def spoilt(draw: random.Random, line: bytes, words: list[bytes]) -> bytes:
    """A line in which something is other than it was: a word, a byte, an end; or it stays as it is."""
    parts = line.split()
    how = draw.randrange(12)
    if how < 3 and parts:
        parts[draw.randrange(len(parts))] = draw.choice(words)
        return b" ".join(parts)
    if how == 3 and line:
        at = draw.randrange(len(line))
        return line[:at] + bytes([draw.choice(ANY_BYTE)]) + line[at + draw.randrange(2) :]
    if how == 4:
        return line[: draw.randrange(len(line) + 1)]
    if how == 5:
        return line + draw.choice([b"\r", b" ", b"\t", b" x", b"\r\r"])
    return line


ANY_BYTE = [it for it in range(256) if it != ord("\n")]


def drawn_line(draw: random.Random, lines: list[bytes], words: list[bytes]) -> bytes:
    """A line of one of these kinds: any bytes; words in any order, a command's name first; one that is spoilt."""
    kind = draw.randrange(10)
    if kind == 0:
        return bytes(draw.choices(ANY_BYTE, k=draw.choice([0, 1, 2, 5, 20, 60])))
    if kind == 1:
        return b" ".join([draw.choice(VERBS), *draw.choices(words, k=draw.randrange(6))])
    return spoilt(draw, draw.choice(lines), words)


def drawn() -> Script:
    """One script of random lines. Most are taken from the known scripts, in their order now and then, so that moves come about."""
    draw = random.Random(SEED)
    scripts = [script.splitlines() for _, _, script in known() if len(script) < 20_000]
    flat = [line for lines in scripts for line in lines]
    words = sorted({word for line in flat for word in line.split()})
    made: list[bytes] = []
    while len(made) < RANDOM_LINES:
        if draw.randrange(20) == 0:
            made += [spoilt(draw, line, words) if draw.randrange(30) == 0 else line for line in draw.choice(scripts)]
        made += [drawn_line(draw, flat, words) for _ in range(20)]
    script = b"".join(line.replace(b"\n", b"") + b"\n" for line in made[:RANDOM_LINES])
    if len(script) > MOST_BYTES:
        raise ValueError(f"the random script has {len(script)} bytes")
    return "drawn", ["commerce", "customer"], script


def played() -> list[Script]:
    """All scripts that are played."""
    return [*known(), *odd(), drawn()]
