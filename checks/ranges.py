"""The shards of a keyspace, as the definitions of crates/mt_names/specs say them: by the bounds between them. With it how a refusal is told."""
import functools
import re

MOST_SHARDS = 8

TOO_MANY, BAD_RANGE, NOT_COVERING = "N7 TooMany", "N9 BadRange", "N10 NotCovering"


class Refused(Exception):
    """The first refusal of an event."""


def refuse_if(test, refusal):
    if test:
        raise Refused(refusal)


@functools.cache
def bound_value(digits):
    """The first key at a bound: behind the bytes that are written stand zeros."""
    return int(digits.ljust(16, "0"), 16)


def is_bound(digits):
    return re.fullmatch("([0-9a-f]{2}){0,8}", digits) is not None


def read_range(text):
    """The two bounds of a key range."""
    start, dash, end = text.partition("-")
    is_range = dash and is_bound(start) and is_bound(end) and (not end or bound_value(start) < bound_value(end))
    refuse_if(not is_range, BAD_RANGE)
    return start, end


def read_shards(text):
    """The bounds between the shards that a text names."""
    ranges = []
    for word in text.split(","):
        ranges.append(read_range(word))
        refuse_if(len(ranges) > MOST_SHARDS, TOO_MANY)
    starts, ends = zip(*ranges)
    cuts = list(ends[:-1])
    refuse_if(list(starts) != ["", *cuts] or not all(cuts) or ends[-1], NOT_COVERING)
    return cuts


def ranges_of(cuts):
    return [f"{start}-{end}" for start, end in zip(["", *cuts], [*cuts, ""])]


def stream_in(ranges, shard, name):
    """How a line names the stream of a shard: with its range where there are several."""
    return name + f"/{ranges[shard]}" * (len(ranges) > 1)


def shard_of(cuts, key):
    """The place of the shard in which a key stands."""
    return sum(bound_value(cut) <= key for cut in cuts)
