"""Single calls on dependency maps with chosen or chance contents, from which scripts are made. A key is a pair of an
expression and options."""

from harness import steps
from harness.call_steps import distinct, inserted, shuffled
from harness.commands import USUAL_NAMES

FIRST = 0
ROW = 16
ODD_OPTIONS = [4, 5, 256, 65535, 0xFFFFFFFF]
LARGE_EXPRESSIONS = [0x10000, 0x40000000, 0xFFFFFFFF]


def any_map(dice):
    return dice.below(USUAL_NAMES)


def options(dice):
    return dice.weighed([(0, 6), (1, 3), (2, 1), (3, 1)])


def columns(dice, script, count, start=0):
    """Keys over as many columns, often with the usual options."""
    usual = dice.chance(0.6)
    return [(script.column(start + place, place), 0 if usual else options(dice)) for place in range(count)]


def mixed_keys(dice, script, count):
    """Keys over columns, literals and operations; an expression may come again with other options."""
    for place in range(dice.between(1, max(1, count - 1))):
        script.column(place, dice.below(3))
    for _ in range(dice.below(4)):
        dice.pick([steps.leaf, steps.operation])(dice, script)
    pool = [(expression, one) for expression in range(script.count()) for one in range(4)]
    return distinct(dice, pool, count)


def in_any_order(dice, items):
    """The items in another order; an item may come again."""
    return [items[place] for place in shuffled(dice, range(len(items)))]


def other_options(dice, key):
    """The key with other options."""
    return key[0], (key[1] + dice.between(1, 3)) % 4


def target_of(dice, key, targets=()):
    """What a key becomes: most often itself, or one of some targets."""
    return dice.pick(targets) if targets and dice.chance(0.5) else key


def put(dice, script, name, links, targets=(), without=0.0):
    """Inserts keys with what they depend on, in any order; links are pairs of a key and the list of these. Some have
    no target. A key that depends on nothing is inserted once."""
    inserts = []
    for key, dependencies in links:
        target = None if dice.chance(without) else target_of(dice, key, targets)
        inserts += [(key, target, dependency) for dependency in dependencies or [None]]
    for insert in shuffled(dice, inserts) if dice.chance(0.3) else inserts:
        script.insert(name, *insert)


def layered(dice, keys, most=3):
    """Links by which each key depends on a few of those before it, the first ones on nothing."""
    first = dice.between(1, max(1, len(keys) // 2))
    links = [(key, []) for key in keys[:first]]
    for place in range(first, len(keys)):
        links.append((keys[place], distinct(dice, keys[:place], dice.between(1, most))))
    return links


def chain(keys):
    """Links by which each key depends on the one before it."""
    return [(keys[0], [])] + [(after, [before]) for before, after in zip(keys, keys[1:])]


def rows_of(keys, count):
    """So many keys in rows of up to 16; they begin again with each row where there are fewer."""
    return [keys[start % len(keys) :][: min(ROW, count - start)] for start in range(0, count, ROW)]


def fan(script, start, size):
    """Links by which as many orderings lead to a key, and what that key depends on: up to 16 columns themselves, or
    keys above rows of them, or keys above rows of these."""
    leaves = [(script.column(start + place, 0), 0) for place in range(min(size, ROW))]
    links, rows, level = [(leaf, []) for leaf in leaves], rows_of(leaves, size), 0
    while len(rows) > 1:
        level += 1
        above = [(script.column(start + 100 * len(row) + place, level), 0) for place, row in enumerate(rows)]
        links += zip(above, rows)
        rows = rows_of(above, len(above))
    return links, rows[0]


def some_key(dice, script, name):
    """A key that likely is in the map, or now and then another."""
    keys = script.maps[name]
    if keys and dice.chance(0.9):
        key = dice.pick(keys)
        return other_options(dice, key) if dice.chance(0.05) else key
    return script.some(), options(dice)


def given(dice, script, name, most=4):
    """Keys to enumerate for; one may come twice."""
    count = dice.weighed([(0, 1), (dice.between(1, most), 15)])
    keys = [some_key(dice, script, name) for _ in range(count)]
    return inserted(dice, keys, dice.pick(keys)) if keys and dice.chance(0.2) else keys


def insert(dice, script, name):
    """An insert of any sort: a key that is there or a new one, with and without target and dependency."""
    key, dependency = some_key(dice, script, name), some_key(dice, script, name)
    target = dice.weighed([(key, 5), (some_key(dice, script, name), 3), (None, 1)])
    script.insert(name, key, target, dependency if dice.chance(0.7) else None)


def prefixes(dice, script, name):
    script.prefixes(name, some_key(dice, script, name))


def generate(dice, script, name):
    script.generate(name, given(dice, script, name))


def ask(dice, script, name, most=6):
    """Several enumerations."""
    for _ in range(dice.between(1, most)):
        dice.pick([prefixes, generate])(dice, script, name)


def ask_for_each(script, name):
    """The prefix orderings of each key of the map."""
    for key in list(script.maps[name]):
        script.prefixes(name, key)


def any_call(dice, script):
    """One call of any sort on any map."""
    name = any_map(dice)
    if dice.chance(0.03):
        return script.open_map(name)
    dice.weighed([(insert, 6), (prefixes, 3), (generate, 3)])(dice, script, name)


def odd_key(dice, script, name):
    """A key that may have options outside their set or an unknown expression."""
    key = some_key(dice, script, name)
    if dice.chance(0.4):
        key = (key[0], dice.pick(ODD_OPTIONS))
    if dice.chance(0.4):
        key = (dice.weighed([(script.odd_number(), 4), (dice.pick(LARGE_EXPRESSIONS), 1)]), key[1])
    return key


def odd_call(dice, script, name):
    """One call whose keys may be faulty, several at once, so that the order of tests shows."""
    what = dice.below(3)
    if what == 0:
        keys = [odd_key(dice, script, name) if dice.chance(0.6) else None for _ in range(2)]
        script.insert(name, odd_key(dice, script, name), *keys)
    elif what == 1:
        script.prefixes(name, odd_key(dice, script, name))
    else:
        keys = given(dice, script, name)
        script.generate(name, inserted(dice, keys, odd_key(dice, script, name)))
