"""Key ranges, by which shards are called: `-80`, `40-80`, `80-`, and `-` for all keys."""
from __future__ import annotations

import re
from collections.abc import Sequence

KEY_BYTES = 8
RANGE = re.compile(r"((?:[0-9a-f]{2}){0,8})-((?:[0-9a-f]{2}){0,8})")


def _bounds(shard: str) -> tuple[str, str]:
    found = RANGE.fullmatch(shard)
    if not found:
        raise ValueError(f"{shard} is no key range")
    return found[1], found[2]


def _number(bound: str) -> int:
    return int.from_bytes(bytes.fromhex(bound).ljust(KEY_BYTES, b"\0"), "big")


def is_range(text: str) -> bool:
    """Whether a text is a key range that the program reads: two bounds of whole bytes, 8 at most, the first below the second."""
    found = RANGE.fullmatch(text)
    return bool(found) and (not found[2] or _number(found[1]) < _number(found[2]))


def first_key(shard: str) -> int:
    """The lowest key of a shard, as the number that a row's key is; `ValueError` if it is no key range."""
    return _number(_bounds(shard)[0])


def end_key(shard: str) -> int:
    """The first key behind a shard; `ValueError` if it is no key range."""
    end = _bounds(shard)[1]
    return _number(end) if end else 1 << (8 * KEY_BYTES)


def shard_of(shards: Sequence[str], key: int) -> str:
    """Which of the shards has a key; `ValueError` if none has it."""
    for shard in shards:
        if first_key(shard) <= key < end_key(shard):
            return shard
    raise ValueError(f"no shard of {', '.join(shards)} has the key {key}")
