"""The smallest input on which the two sides still differ. An input is a list of parts."""

import time

SECONDS = 60


def shrink(inputs, parts, differ):
    """Drops parts while `differ` says that a difference stays: long rows first, then one by one, then what is in
    a part; again until nothing more can go or a minute is over."""
    end = time.monotonic() + SECONDS
    before = None
    while parts != before:
        before = parts
        size = len(parts)
        while size >= 1:
            parts = drop_rows(inputs, parts, size, differ, end)
            size //= 2
        parts = drop_within(inputs, parts, differ, end)
    return parts


def drop_rows(inputs, parts, size, differ, end):
    """Drops rows of this many parts where a difference stays, from the last one to the first."""
    start = len(parts) - size
    while start >= 0 and time.monotonic() < end:
        parts = next(filter(differ, without(inputs, parts, start, size)), parts)
        start -= size
    return parts


def without(inputs, parts, start, size):
    """The parts without a row of them; then the same with the later references moved down, as if each node of
    the row had added the node that its place suggests."""
    rest = parts[:start] + parts[start + size :]
    yield rest
    gone = sum(map(inputs.is_node, parts[start : start + size]))
    if gone:
        first = sum(map(inputs.is_node, parts[:start]))
        yield [inputs.moved_down(part, first, gone) for part in rest]


def drop_within(inputs, parts, differ, end):
    """Makes single parts smaller where a difference stays."""
    for place in range(len(parts)):
        smaller = True
        while smaller and time.monotonic() < end:
            candidates = (parts[:place] + [part] + parts[place + 1 :] for part in inputs.smaller(parts[place]))
            smaller = next(filter(differ, candidates), None)
            parts = smaller or parts
    return parts
