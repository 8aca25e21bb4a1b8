"""Sessions of one sort each. A theme fills a draft; its weight says how often it comes."""

from harness import records, steps
from harness.steps import several

# Lengths that no record of the kind has, near those that it can have.
WRONG_LENGTHS = {
    records.COLUMN: [0, 2, 3, 5, 6, 8],
    records.LITERAL: [0, 2, 3, 5, 6, 8],
    records.OPERATION: [0, 2, 3, 5, 7, 21],
    records.PAIR: [0, 2, 3, 5, 6, 8],
    records.CONSTANT: [0, 4, 6, 7, 9, 10],
    records.NORMAL: [0, 1, 3, 4],
    records.EQUALITY: [0, 2, 3, 5, 6, 8],
    records.ORDERING: [0, 2, 5, 6, 66, 68],
}


def mixed(dice, draft):
    """A little of everything, in any order."""
    several(dice, 2, 6, steps.leaf, draft)
    several(dice, 0, 45, steps.any_step, draft)


def bounds(dice, draft):
    """Records at and past the bounds of their fields."""
    several(dice, 1, 6, steps.leaf, draft)
    several(dice, 0, 10, steps.any_step, draft)
    several(dice, 1, 15, steps.odd_step, draft)


def merging(dice, draft):
    """Many classes that meet and merge, then questions."""
    for name in range(dice.between(4, 24)):
        draft.column(name)
    several(dice, 0, 3, steps.leaf, draft)
    several(dice, 0, 6, steps.operation, draft)
    several(dice, 3, 24, steps.pair, draft)
    steps.probe(dice, draft)


def constants(dice, draft):
    """Constants of every flavour on literals, members and nonmembers, and what they bring together."""
    for name in range(dice.between(2, 8)):
        draft.column(name)
    for _ in range(dice.between(1, 4)):
        draft.literal(dice.pick(steps.VALUES))
    several(dice, 0, 4, steps.operation, draft)
    for _ in range(dice.between(4, 20)):
        dice.weighed([(steps.constant, 3), (steps.pair, 2), (steps.normal, 1)])(dice, draft)
    steps.probe_constants(dice, draft)
    steps.probe(dice, draft)


def trees(dice, draft):
    """Operations over shared nodes, with classes among their parts."""
    for name in range(dice.between(2, 5)):
        draft.column(name)
    several(dice, 0, 2, steps.leaf, draft)
    several(dice, 4, 24, steps.operation, draft)
    for _ in range(dice.between(2, 12)):
        dice.weighed([(steps.pair, 4), (steps.constant, 1), (steps.normal, 2), (steps.equality, 2)])(dice, draft)
    steps.probe(dice, draft)


def alike_trees(dice, draft):
    """Trees of one shape with other labels and leaves, for the equality question."""
    leaves = [draft.column(name) for name in range(dice.between(2, 5))] + [draft.literal(1), draft.literal(2)]
    levels = dice.between(1, 3)
    widths = [dice.between(1, 3) for _ in range(levels)]
    roots = []
    for _ in range(dice.between(2, 5)):
        level = [dice.pick(leaves) for _ in range(widths[0])]
        for width in widths[1:] + [1]:
            level = [draft.operation(dice.pick(steps.LABELS), level[:8]) for _ in range(width)]
        roots.append(level[0])
    several(dice, 0, 5, steps.pair, draft)
    for left in roots:
        draft.add(records.equality(left, dice.pick(roots)))
        draft.add(records.normal(left))
    steps.probe(dice, draft)


def doublings(dice, draft):
    """A chain of operations, each over its predecessor twice: few nodes, a large tree."""
    last = draft.column(0)
    other = draft.column(1)
    for label in range(dice.between(2, 9)):
        last = draft.operation(label, [last, last])
        if dice.chance(0.3):
            draft.add(records.pair(draft.known(), draft.known()))
    draft.add(records.pair(other, draft.known()))
    draft.add(records.normal(last))
    draft.add(records.equality(last, draft.known()))
    steps.probe(dice, draft)


def overlapping(dice, draft):
    """Many short orderings over few expressions, so that reduction has much to do."""
    count = dice.between(2, 5)
    for name in range(count):
        draft.column(name)
    options = dice.pick([[0], [0], [0, 1], [0, 1, 2, 3]])
    longest = dice.between(1, 6)
    for _ in range(dice.between(2, 24)):
        keys = [(dice.below(count), dice.pick(options)) for _ in range(dice.between(1, longest))]
        draft.add(records.ordering(keys))
    several(dice, 0, 2, steps.odd_step, draft)


def chained(dice, draft):
    """Orderings cut out of one long row of columns, so that ends meet beginnings."""
    count = dice.between(4, 20)
    for name in range(count):
        draft.column(name)
    for _ in range(dice.between(2, 20)):
        start = dice.below(count)
        stop = dice.between(start + 1, min(count, start + 16))
        draft.add(records.ordering([(place, 0) for place in range(start, stop)]))


def many_orderings(dice, draft):
    """Orderings up to the bound of 32 and past it."""
    for name in range(8):
        draft.column(name)
    heads = [(name, options) for name in range(8) for options in range(4)]
    for place in range(dice.between(28, 32)):
        tail = [(dice.below(8), dice.below(4))] if dice.chance(0.1) else []
        draft.add(records.ordering([heads[place]] + tail))
    several(dice, 0, 6, steps.ordering, draft)
    several(dice, 0, 2, steps.odd_step, draft)


def wide_classes(dice, draft):
    """Classes with close to 256 members in all."""
    classes = dice.pick([1, 1, 2, 5, 30])
    for name in range(dice.between(250, 275)):
        draft.column(name)
    for name in range(classes, draft.count()):
        draft.add(records.pair(name % classes, name) if dice.chance(0.9) else records.pair(name, name))
    full_group_steps(dice, draft)


def many_classes(dice, draft):
    """Close to 64 classes, of one or two members, then merges."""
    for name in range(dice.between(62, 90)):
        draft.column(name)
    for name in range(draft.count()):
        draft.add(dice.weighed([
            (records.pair(name, name), 8),
            (records.pair(name, draft.known()), 1),
            (records.constant(name, 0, 0), 4),
            (records.constant(name, 2, name), 1),
        ]))
    full_group_steps(dice, draft)


def full_group_steps(dice, draft):
    """What a group that is nearly full is asked."""
    draft.literal(1)
    several(dice, 0, 3, steps.operation, draft)
    for _ in range(dice.between(5, 25)):
        dice.weighed([(steps.pair, 4), (steps.constant, 3), (steps.odd_step, 1), (steps.equality, 1)])(dice, draft)
    steps.probe(dice, draft)


def full_arena(dice, draft):
    """Close to 1,024 nodes, then normal forms that need more."""
    for name in range(4):
        draft.column(name)
    draft.add(records.pair(0, 1))
    for name in range(dice.between(4, 1015)):
        draft.column(1000 + name)
    for label in range(dice.between(1, 4)):
        draft.operation(label, [1, draft.known()])
    while draft.count() < dice.between(1019, 1024):
        draft.operation(draft.count(), [dice.between(0, 3), draft.recent()][: dice.between(1, 2)])
    several(dice, 5, 30, lambda dice, draft: draft.add(records.normal(draft.recent())), draft)
    several(dice, 3, 15, steps.any_step, draft)
    several(dice, 1, 8, steps.odd_step, draft)


def growing_arena(dice, draft):
    """Normal forms of a long chain under ever other classes, until the arena is full."""
    count = dice.between(5, 30)
    last = [draft.column(name) for name in range(count)][-1]
    for label in range(dice.between(20, 110)):
        last = draft.operation(label, [last])
    for name in range(count):
        draft.add(records.pair(name, name))
    for name in range(count - 1, 0, -1):
        draft.add(records.pair(name, name - 1))
        draft.add(records.normal(last - dice.below(3)))
    several(dice, 0, 5, steps.any_step, draft)


def deep_chain(dice, draft):
    """One operation over another, hundreds deep."""
    last = draft.column(0)
    draft.column(1)
    for label in range(dice.between(300, 1022)):
        last = draft.operation(label % 3, [last])
    draft.add(records.pair(1, 0))
    draft.add(records.normal(last))
    draft.add(records.equality(last, draft.recent()))
    several(dice, 0, 4, steps.any_step, draft)


def broken(dice, draft):
    """A session of another sort with one fault in its bytes."""
    dice.pick([mixed, constants, overlapping, trees])(dice, draft)
    fault = dice.pick([cut, changed_byte, changed_field, unknown_kind, wrong_length, wrong_length, rubbish])
    draft.parts = fault(dice, draft.parts)


def cut(dice, parts):
    """The end is missing."""
    whole = b"".join(parts)
    return [whole[: dice.below(len(whole) + 1)]]


def changed_byte(dice, parts):
    """One byte is another."""
    whole = bytearray(b"".join(parts))
    whole[dice.below(len(whole))] = dice.below(256)
    return [bytes(whole)]


def changed_field(dice, parts):
    """One record's length or kind is another."""
    place = dice.below(len(parts))
    part = bytearray(parts[place])
    part[dice.pick([0, 0, 1, 2, 2, 3])] = dice.pick([0, 1, 2, 4, 6, 8, 9, 16, 255])
    return parts[:place] + [bytes(part)] + parts[place + 1 :]


def unknown_kind(dice, parts):
    """A whole record of a kind that the session doesn't read."""
    body = bytes(dice.below(256) for _ in range(dice.pick([0, 2, 4, 8])))
    kind = dice.pick([0, 9, 10, 15, 16, 17, 255, 256, 257, 65535])
    return inserted(dice, parts, records.record(kind, body))


def wrong_length(dice, parts):
    """A whole record of a known kind with a body of another length."""
    kind = dice.pick(list(WRONG_LENGTHS) + [records.ORDERING])
    body = bytes(dice.below(2) for _ in range(dice.pick(WRONG_LENGTHS[kind])))
    return inserted(dice, parts, records.record(kind, body))


def rubbish(dice, parts):
    """Bytes of chance at the end."""
    return parts + [bytes(dice.below(256) for _ in range(dice.between(1, 12)))]


def inserted(dice, parts, part):
    """The parts with one more at a place of chance."""
    place = dice.below(len(parts) + 1)
    return parts[:place] + [part] + parts[place:]


def noise(dice, draft):
    """Bytes of chance, many of them 0, or no byte at all."""
    draft.add(bytes(dice.pick([0, 0, dice.below(10), dice.below(256)]) for _ in range(dice.below(60))))


def longest_input(dice, draft):
    """As many bytes as a session takes, or a few less or more."""
    steps.leaf(dice, draft)
    if dice.chance(0.2):
        draft.add(records.operation(1, [0] * 32000))
    filler = records.column(1, 1)
    length = records.MOST_BYTES + dice.pick([-9, -8, -1, 0, 0, 1, 2, 8, 500])
    while (missing := length - len(draft.bytes())) > 0:
        draft.add((filler * (missing // len(filler) + 1))[:missing])


THEMES = [
    (mixed, 20),
    (bounds, 8),
    (merging, 10),
    (constants, 14),
    (trees, 12),
    (alike_trees, 6),
    (doublings, 3),
    (overlapping, 10),
    (chained, 4),
    (many_orderings, 4),
    (wide_classes, 1),
    (many_classes, 2),
    (full_arena, 1),
    (growing_arena, 1),
    (deep_chain, 0.3),
    (broken, 8),
    (noise, 2),
    (longest_input, 0.3),
]
