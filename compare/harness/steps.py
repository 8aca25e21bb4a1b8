"""Single records with chosen or chance contents, from which sessions are made. Leaves and operations are for
scripts too."""

from harness import records

VALUES = [0, 1, 2, 5, 7, 0xFFFFFFFF]
LABELS = [0, 1, 2, 0x10000, 0xFFFFFFFF]


def several(dice, low, high, step, draft):
    """The same sort of step a few times."""
    for _ in range(dice.between(low, high)):
        step(dice, draft)


def leaf(dice, draft):
    """A column or literal out of few, so that old ones come again."""
    if dice.chance(0.3):
        return draft.literal(dice.pick(VALUES))
    return draft.column(dice.below(8), dice.below(3))


def operation(dice, draft):
    """An operation over nodes that are there, or now and then over some that may not be."""
    size = dice.weighed([(0, 1), (1, 6), (2, 8), (3, 3), (dice.between(4, 8), 1)])
    if dice.chance(0.02):
        return draft.add(draft.form.operation(dice.pick(LABELS), [draft.some() for _ in range(dice.between(0, 10))]))
    return draft.operation(dice.pick(LABELS), [draft.known() for _ in range(size if draft.count() else 0)])


def pair(dice, draft):
    left = draft.some()
    draft.add(records.pair(left, left if dice.chance(0.05) else draft.some()))


def constant(dice, draft):
    """A constant of any flavour; a value where none may be known is rare."""
    flavour = dice.below(3)
    value = dice.pick(VALUES) if flavour == 2 or dice.chance(0.03) else 0
    if dice.chance(0.01):
        flavour = dice.pick([3, 4, 16, 256, 65535])
    draft.add(records.constant(draft.some(), flavour, value))


def normal(dice, draft):
    draft.add(records.normal(draft.some()))


def equality(dice, draft):
    draft.add(records.equality(draft.some(), draft.some()))


def key(dice, draft):
    """A sort key; options outside their set are rare."""
    options = dice.weighed([(0, 6), (1, 3), (2, 1), (3, 1)])
    if dice.chance(0.005):
        options = dice.pick([4, 5, 256, 65535])
    return draft.some(), options


def ordering(dice, draft):
    length = dice.weighed([(1, 4), (2, 5), (3, 4), (4, 2), (dice.between(5, 16), 1)])
    draft.add(records.ordering([key(dice, draft) for _ in range(length)]))


def any_step(dice, draft):
    """One record of any kind from 1 to 8."""
    step = dice.weighed([
        (leaf, 4), (operation, 5), (pair, 5), (constant, 4), (normal, 5), (equality, 4), (ordering, 3),
    ])
    step(dice, draft)


def odd_step(dice, draft):
    """A record at or past a bound. Several bounds may be passed at once, so that the order of tests shows."""
    number, other = draft.odd_number(), draft.some()
    children = [draft.some() for _ in range(dice.between(7, 10))]
    if dice.chance(0.3):
        children[dice.below(len(children))] = number
    keys = [(draft.some(), dice.below(4)) for _ in range(dice.pick([1, 2, 15, 16]))]
    if dice.chance(0.5):
        keys[dice.below(len(keys))] = (draft.some(), dice.pick([3, 4, 65535]))
    if dice.chance(0.5):
        keys[dice.below(len(keys))] = (number, dice.below(5))
    draft.add(dice.pick([
        records.column(dice.pick([0, 65535]), dice.pick([0, 65535])),
        records.literal(dice.pick(VALUES)),
        records.operation(dice.pick(LABELS), children),
        records.pair(number, other),
        records.pair(other, number),
        records.constant(dice.pick([number, other]), dice.below(5), dice.pick([0, 0, 1])),
        records.normal(number),
        records.equality(number, other),
        records.equality(other, number),
        records.ordering(keys),
    ]))


def probe(dice, draft, most=12):
    """Questions at the end, whose answers show the classes."""
    for _ in range(dice.between(1, most)):
        dice.pick([normal, equality])(dice, draft)


def probe_constants(dice, draft):
    """New columns as uniform constants: the class that takes one shows which class has that constant."""
    for place in range(dice.between(1, 4)):
        fresh = draft.column(100 + place)
        known = dice.chance(0.6)
        draft.add(records.constant(fresh, 2 if known else 1, dice.pick(VALUES) if known else 0))
        draft.add(records.normal(fresh))
        draft.add(records.equality(fresh, draft.known()))
