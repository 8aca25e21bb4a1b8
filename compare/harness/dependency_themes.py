"""Scripts of dependencies, of one sort each. A theme fills a script; its weight says how often it comes."""

from harness import call_steps, dependency_steps, projection_steps, steps
from harness.dependency_steps import FIRST, ROW, ask, ask_for_each, chain, fan, in_any_order, layered, put
from harness.steps import several

# How many orderings lead to each key that is given: 1,024 in all or just as few, and just too many.
MOST_WAYS = [
    [16, 32], [22, 23], [10, 17, 1], [2, 85, 1], [2, 21, 1, 1], [1, 42, 1, 1], [2, 4, 1, 1, 1], [1] * 6,
]
TOO_MANY_WAYS = [[19, 27], [9, 19, 1], [43, 1, 1, 1], [3, 3, 1, 1, 1], [2, 1, 1, 1, 1, 1], [1] * 7, [40] * 6]


def chains(dice, script):
    """Chains of a few keys, some with targets of their own, and what leads to each."""
    for start in range(0, 100 * dice.between(1, 3), 100):
        keys = dependency_steps.columns(dice, script, dice.between(1, 7), start)
        targets = dependency_steps.columns(dice, script, dice.below(4), 50)
        put(dice, script, FIRST, chain(keys), targets)
    ask_for_each(script, FIRST)
    ask(dice, script, FIRST)


def shared(dice, script):
    """Keys that several others depend on: a pair that was expanded is not expanded again."""
    keys = dependency_steps.mixed_keys(dice, script, dice.between(3, 9))
    put(dice, script, FIRST, layered(dice, keys))
    ask_for_each(script, FIRST)
    ask(dice, script, FIRST)


def cycles(dice, script):
    """Keys that depend on each other in any way, on themselves too, with and without a key that depends on nothing."""
    keys = dependency_steps.mixed_keys(dice, script, dice.between(1, 6))
    ends = dice.below(3)
    links = [(key, call_steps.distinct(dice, keys, dice.between(1, 3))) for key in keys[ends:]]
    put(dice, script, FIRST, [(key, []) for key in keys[:ends]] + links)
    ask_for_each(script, FIRST)
    ask(dice, script, FIRST)


def gaps(dice, script):
    """Keys that are not in the map (6) and keys without target (7), alone and both on one way."""
    keys = dependency_steps.mixed_keys(dice, script, dice.between(3, 9))
    links = [link for link in layered(dice, keys) if not dice.chance(0.15)]
    put(dice, script, FIRST, links, without=dice.pick([0, 0.15, 0.3]))
    for key in keys:
        script.prefixes(FIRST, key)
    ask(dice, script, FIRST)


def start_without_target(dice, script):
    """Keys without target that nothing depends on: their prefix orderings are there all the same."""
    keys = dependency_steps.columns(dice, script, dice.between(2, 6))
    heads = dependency_steps.columns(dice, script, dice.between(1, 3), 20)
    put(dice, script, FIRST, layered(dice, keys))
    put(dice, script, FIRST, [(head, call_steps.distinct(dice, keys, dice.below(4))) for head in heads], without=0.8)
    for head in heads:
        script.prefixes(FIRST, head)
    script.generate(FIRST, heads)
    ask(dice, script, FIRST)


def shared_targets(dice, script):
    """Several keys with one target, and targets of one expression with other options, which a push drops."""
    keys = dependency_steps.columns(dice, script, dice.between(2, 6))
    targets = dependency_steps.columns(dice, script, dice.between(1, 2), 30)
    targets += [dependency_steps.other_options(dice, target) for target in targets]
    put(dice, script, FIRST, layered(dice, keys), targets * 2 + keys[:1])
    twins, target = dependency_steps.columns(dice, script, dice.between(2, 4), 40), dice.pick(targets)
    for twin in twins:
        for dependency in call_steps.distinct(dice, keys[-2:], dice.between(1, 2)):
            script.insert(FIRST, twin, target, dependency)
    put(dice, script, FIRST, layered(dice, twins + [(script.column(60), 0)]))
    ask_for_each(script, FIRST)
    ask(dice, script, FIRST)


def repeats(dice, script):
    """Inserts that come again with other targets, and keys that are given more than once, with other options too."""
    keys = dependency_steps.columns(dice, script, dice.between(2, 5))
    for _ in range(dice.between(1, 3)):
        put(dice, script, FIRST, layered(dice, keys), keys, without=0.1)
    given = call_steps.distinct(dice, keys, dice.between(1, 4))
    for _ in range(dice.between(1, 3)):
        again = [dice.pick(given) for _ in range(dice.between(1, 14))]
        others = [dependency_steps.other_options(dice, key) for key in again if dice.chance(0.03)]
        script.generate(FIRST, in_any_order(dice, given + again + others))
    ask(dice, script, FIRST)


def heads_of(dice, script, sizes):
    """Keys with as many orderings each, over columns that they share or not. Some of the keys have no target."""
    heads = [(script.column(1000 + place, place), 0) for place in range(len(sizes))]
    apart = dice.pick([0, ROW])
    for place, (head, size) in enumerate(zip(heads, sizes)):
        links, above = fan(script, apart * place if size < ROW else 500, size)
        put(dice, script, FIRST, [link for link in links if link[0] not in script.maps[FIRST]])
        put(dice, script, FIRST, [(head, above)], without=0.2)
    return heads


def several_lists(dice, script):
    """Up to seven keys with one ordering each, or one of them with two, in any order; six give 720, seven are 5."""
    count = dice.weighed([(2, 1), (3, 2), (4, 2), (5, 1), (6, 2), (7, 2)])
    sizes = [1] * count
    if count < 6 and dice.chance(0.5):
        sizes[dice.below(count)] = 2
    heads = heads_of(dice, script, sizes)
    idle = dependency_steps.columns(dice, script, dice.below(4), 500)
    put(dice, script, FIRST, [(key, []) for key in idle])
    script.generate(FIRST, call_steps.shuffled(dice, heads + idle))
    generate_with_faulty(dice, script, heads)


def faulty_key(dice, script):
    """A key that is not in the map, or one that depends on such a key or on one without target."""
    key, below = ((script.column(900 + place), 0) for place in range(2))
    what = dice.below(3)
    if what > 0:
        script.insert(FIRST, key, key, below)
    if what > 1:
        script.insert(FIRST, below, None, None)
    return key


def generate_with_faulty(dice, script, keys):
    """At times the same with a key for which the walk ends: 6 and 7 come before 5."""
    if dice.chance(0.4):
        script.generate(FIRST, call_steps.inserted(dice, keys, faulty_key(dice, script)))


def product_bounds(dice, script):
    """Products of 1,024 orderings or close to that, and products of more."""
    heads = heads_of(dice, script, in_any_order(dice, dice.pick(MOST_WAYS + TOO_MANY_WAYS)))
    script.generate(FIRST, in_any_order(dice, heads))
    script.prefixes(FIRST, dice.pick(heads))
    generate_with_faulty(dice, script, heads)


def wide_walks(dice, script):
    """Up to some hundred orderings that lead to one key, which only rows of keys above rows of keys allow."""
    heads = heads_of(dice, script, [dice.between(100, 480)] + [1] * dice.below(2))
    for head in heads:
        script.prefixes(FIRST, head)
    script.generate(FIRST, heads)


def many_given(dice, script):
    """About 16 different keys given, with and without repeats; most of them depend on nothing, and so contribute
    nothing. One may not be in the map, or stand above one without target."""
    keys = dependency_steps.columns(dice, script, dice.between(15, 18))
    heads = dice.below(4)
    links = [(key, keys[-1:]) for key in keys[:heads]] + [(key, []) for key in keys[heads:]]
    if dice.chance(0.5):
        links.pop()
    put(dice, script, FIRST, links, without=dice.pick([0, 0, 0.1]))
    again = [dice.pick(keys) for _ in range(dice.below(4))]
    script.generate(FIRST, call_steps.shuffled(dice, keys) + again)
    script.generate(FIRST, call_steps.distinct(dice, keys, dice.between(14, 18)))


def long_orderings(dice, script):
    """Orderings of about 16 keys: one chain, or two whose orderings come one behind the other, some keys in both."""
    keys = dependency_steps.columns(dice, script, dice.between(15, 18))
    targets = keys[:3] if dice.chance(0.3) else ()
    cut = dice.pick([len(keys), dice.between(1, len(keys) - 1)])
    heads = [(script.column(60 + place, 0), 0) for place in range(2)]
    parts = [part for part in (keys[:cut], keys[cut:]) if part]
    for head, part in zip(heads, parts):
        put(dice, script, FIRST, chain(part) + [(head, part[-1:])], targets)
    heads = heads[: len(parts)]
    for head in heads:
        script.prefixes(FIRST, head)
    script.generate(FIRST, heads)
    if dice.chance(0.3):
        script.insert(FIRST, heads[0], None, faulty_key(dice, script))
        script.prefixes(FIRST, heads[0])
    generate_with_faulty(dice, script, heads)


def many_dependencies(dice, script):
    """A key with 16 dependencies or about that, put in more than once."""
    keys = dependency_steps.columns(dice, script, dice.between(15, 18))
    head = (script.column(70, 0), 0)
    put(dice, script, FIRST, [(key, []) for key in call_steps.distinct(dice, keys, dice.between(14, 18))])
    for key in keys + [dice.pick(keys) for _ in range(dice.below(3))]:
        script.insert(FIRST, head, head if dice.chance(0.5) else None, key)
    script.prefixes(FIRST, head)
    ask(dice, script, FIRST, 3)


def many_keys(dice, script):
    """A map of 64 keys or about that; then keys that are there and others."""
    keys = dependency_steps.columns(dice, script, dice.between(62, 66))
    keys += [dependency_steps.other_options(dice, key) for key in keys[:2]]
    for place, key in enumerate(keys):
        script.insert(FIRST, key, key, dice.pick(keys[:place]) if place and dice.chance(0.5) else None)
    several(dice, 1, 4, lambda dice, script: dependency_steps.insert(dice, script, FIRST), script)
    ask(dice, script, FIRST, 4)


def bad_keys(dice, script):
    """Calls with options outside their set, with unknown expressions, on keys that are not there, several at once."""
    keys = dependency_steps.mixed_keys(dice, script, dice.between(2, 6))
    put(dice, script, FIRST, layered(dice, keys), without=0.2)
    for _ in range(dice.between(2, 12)):
        dependency_steps.odd_call(dice, script, dice.pick([FIRST, FIRST, dependency_steps.any_map(dice)]))


def any_order(dice, script):
    """A little of everything on all three maps, in any order."""
    dependency_steps.mixed_keys(dice, script, dice.between(2, 6))
    for _ in range(dice.between(4, 40)):
        dependency_steps.any_call(dice, script)


def among_calls(dice, script):
    """Maps between all other calls, which add nodes that the keys then name."""
    dependency_steps.mixed_keys(dice, script, dice.between(2, 6))
    for _ in range(dice.between(4, 25)):
        step = dice.weighed([
            (dependency_steps.any_call, 8), (call_steps.any_call, 3), (projection_steps.any_call, 2),
            (steps.operation, 2),
        ])
        step(dice, script)


THEMES = [
    (chains, 8),
    (shared, 14),
    (cycles, 12),
    (gaps, 12),
    (start_without_target, 6),
    (shared_targets, 10),
    (repeats, 8),
    (several_lists, 4),
    (product_bounds, 4),
    (wide_walks, 0.3),
    (many_given, 5),
    (long_orderings, 6),
    (many_dependencies, 4),
    (many_keys, 2),
    (bad_keys, 10),
    (any_order, 10),
    (among_calls, 6),
]
