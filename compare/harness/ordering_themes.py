"""Scripts of lists of orderings and of sort keys, of one sort each. A theme fills a script; its weight says how often
it comes."""

from harness import call_steps, dependency_steps, ordering_steps, steps
from harness.draft import MOST_NODES
from harness.ordering_steps import LAST_INDEX, MOST_KEYS, MOST_ORDERINGS, as_orderings, ask, give, lists_over
from harness.steps import several

FIRST, SECOND, THIRD = range(3)

# How many orderings two lists have whose join is just within the bound, or just too large.
PRODUCTS = [(4, 8), (8, 4), (32, 1), (1, 32), (2, 16), (5, 6), (31, 1), (3, 11), (11, 3), (6, 6), (33, 0), (32, 0)]


def overlapping(dice, script):
    """Many short lists of keys over few expressions, so that reduction has much to do."""
    pool, options = ordering_steps.expressions(dice, script), ordering_steps.option_set(dice)
    for _ in range(dice.between(1, 6)):
        give(dice, script, FIRST, lists_over(dice, pool, options, dice.between(1, 8), dice.between(1, 5)))
    ask(dice, script, FIRST)


def chained(dice, script):
    """Orderings cut out of one long row of keys, so that ends meet beginnings, in any order."""
    row = dependency_steps.columns(dice, script, dice.between(3, 14))
    for _ in range(dice.between(1, 4)):
        cuts = []
        for _ in range(dice.between(1, 8)):
            start = dice.below(len(row))
            cuts.append(row[start : dice.between(start + 1, min(len(row), start + 6))])
        give(dice, script, FIRST, cuts)
    ask(dice, script, FIRST)


def ends_as_beginnings(dice, script):
    """Orderings that begin as another ends, by one key, by several or by all; some are a part of another."""
    pool, options = ordering_steps.expressions(dice, script, 3, 7), ordering_steps.option_set(dice)
    lists = as_orderings(lists_over(dice, pool, options, 4, 5)) or [[(pool[0], 0)]]
    for _ in range(dice.between(1, 5)):
        one = dice.pick(lists)
        shared = one[dice.below(len(one)) :]
        more = shared + ordering_steps.keys_over(dice, pool, options, 3)
        lists = call_steps.inserted(dice, lists, dice.pick([more, more, shared, one[: len(one) - 1]]))
    give(dice, script, FIRST, lists)
    give(dice, script, FIRST, [dice.pick(lists)])
    ask(dice, script, FIRST)


def gaps(dice, script):
    """Orderings of one key and longer ones over the same keys: where one is cut to nothing the last takes its place,
    and meets what was looked at before."""
    pool = [(script.column(name), options) for name in range(dice.between(2, 4)) for options in range(2)]
    lists = [[key] for key in call_steps.distinct(dice, pool, dice.between(1, 5))]
    for _ in range(dice.between(1, 5)):
        lists = call_steps.inserted(dice, lists, call_steps.distinct(dice, pool, dice.between(2, 4)))
    give(dice, script, FIRST, lists)
    script.new_orderings(SECOND, dependency_steps.in_any_order(dice, lists))
    script.new_orderings(THIRD, lists[::-1])
    ask(dice, script, FIRST)


def options_apart(dice, script):
    """One expression with several options: such keys are not the same, and two opposite ones make it partly
    constant."""
    expressions = [script.column(name) for name in range(dice.between(1, 3))]
    tails = [[], [], [(expressions[-1], 0)], [(expressions[0], dice.below(4))]]
    lists = [[(dice.pick(expressions), dice.below(4)), *dice.pick(tails)] for _ in range(dice.between(1, 8))]
    give(dice, script, FIRST, lists)
    for expression in expressions:
        script.call("oopt", FIRST, expression)
        script.call("opart", FIRST, expression)
    ask(dice, script, FIRST)


def empties_and_repeats(dice, script):
    """Empty lists and lists that repeat an expression: dropped by new and add, refused by extend."""
    pool = ordering_steps.expressions(dice, script, 1, 3)
    for _ in range(dice.between(2, 6)):
        lists = lists_over(dice, pool, [0, 1], 4, 4)
        for _ in range(dice.below(3)):
            lists = call_steps.inserted(dice, lists, [])
        name = ordering_steps.any_list(dice)
        if dice.chance(0.3):
            script.new_orderings(name, lists)
        else:
            script.more_orderings(dice.pick(["oadd", "oext"]), name, lists)
    ask(dice, script, FIRST)


def apart(script, count, start=0, tail=()):
    """As many orderings that don't meet: columns with all options, each with a tail."""
    return [[(script.column(start + place // 4), place % 4), *tail] for place in range(count)]


def many_orderings(dice, script):
    """About 32 orderings: all at once, or some and then others; empty ones don't count, such that would be reduced
    away do."""
    count = dice.between(MOST_ORDERINGS - 2, MOST_ORDERINGS + 2)
    lists = apart(script, count, 0, [(script.column(90), 0)] if dice.chance(0.3) else [])
    for _ in range(dice.below(4)):
        extra = dice.pick([[], [], lists[0], lists[-1][:1], [(script.column(91), 0)]])
        lists = call_steps.inserted(dice, lists, extra)
    cut = dice.pick([0, len(lists), dice.below(len(lists))])
    script.new_orderings(FIRST, lists[:cut])
    script.more_orderings(dice.pick(["oadd", "oadd", "oext"]), FIRST, lists[cut:])
    several(dice, 0, 3, lambda dice, script: ordering_steps.more(dice, script, FIRST), script)
    several(dice, 0, 1, lambda dice, script: ordering_steps.add_offset(dice, script, FIRST), script)
    ask(dice, script, FIRST, 3)


def long_orderings(dice, script):
    """Orderings of about 16 keys, with repeats before the end and after it, and what all of them make together."""
    keys = dependency_steps.columns(dice, script, dice.between(14, 18))
    for _ in range(dice.below(4)):
        keys = call_steps.inserted(dice, keys, dependency_steps.other_options(dice, dice.pick(keys)))
    short = [dice.pick(keys) for _ in range(dice.below(3))]
    give(dice, script, FIRST, call_steps.inserted(dice, [short], keys))
    several(dice, 0, 1, lambda dice, script: ordering_steps.add_offset(dice, script, FIRST), script)
    script.call("oout", FIRST)
    cut = dice.between(1, len(keys) - 1)
    script.new_orderings(SECOND, [keys[:cut], keys[cut:][::-1]])
    script.call("oout", SECOND)
    script.join_suffix(THIRD, FIRST, SECOND)
    ask(dice, script, SECOND, 3)


def joined_lists(dice, script):
    """Two lists and their joins, of each with each, with itself and with an empty one; then the joined one is
    changed."""
    pool, options = ordering_steps.expressions(dice, script, 3, 7), ordering_steps.option_set(dice)
    for name in (FIRST, SECOND):
        give(dice, script, name, lists_over(dice, pool, options, 4, 3))
    for _ in range(dice.between(1, 4)):
        made, left, right = (ordering_steps.any_list(dice) for _ in range(3))
        script.join_suffix(made, left, right)
        ask(dice, script, made, 2)
    several(dice, 0, 3, lambda dice, script: ordering_steps.more(dice, script, THIRD), script)


def join_bounds(dice, script):
    """Joins of about 32 orderings, and joins whose orderings have about 16 keys once the repeats are dropped."""
    left, right = dice.pick(PRODUCTS)
    size = dice.weighed([(0, 3), (dice.between(13, 15), 2)])
    tail = dependency_steps.columns(dice, script, size, 200)
    script.new_orderings(FIRST, apart(script, left, 0, tail))
    shared = tail[: dice.below(3)] if tail else []
    script.new_orderings(SECOND, apart(script, right, dice.pick([100, 100, 0]), shared))
    script.join_suffix(THIRD, FIRST, SECOND)
    script.join_suffix(THIRD, SECOND, FIRST)
    ask(dice, script, THIRD, 2)


def offsets(dice, script):
    """Shifts to and fro, of columns alone and within operations, up to the first and the last index and beyond; also
    of what has no column."""
    indices = [dice.pick([0, 1, 2, 3, 65533, 65534, LAST_INDEX]) for _ in range(dice.between(1, 4))]
    for name, index in enumerate(indices):
        script.column(name, index)
    several(dice, 0, 2, steps.leaf, script)
    several(dice, 0, 3, steps.operation, script)
    pool = list(range(script.count()))
    give(dice, script, FIRST, lists_over(dice, pool, [0, 1], 5, 4) or [[(0, 0)]])
    for _ in range(dice.between(1, 5)):
        edge = dice.pick(indices)
        room = dice.pick([LAST_INDEX - edge, -edge])
        by = dice.weighed([(room, 4), (room + dice.pick([-1, 1]), 3), (dice.pick(ordering_steps.OFFSETS), 2)])
        if dice.chance(0.6):
            script.add_offset(FIRST, by)
        else:
            script.shift(dice.pick(pool), by)
    ask(dice, script, FIRST, 3)


def full_arena(dice, script):
    """Shifts and normal forms of keys that need more nodes than there are places, or just as many."""
    columns = [script.column(name, name) for name in range(dice.between(2, 4))]
    several(dice, 1, 4, steps.operation, script)
    used = script.count()
    for name in range(MOST_NODES - dice.pick([0, 1, 1, 2, 2, 3, 4, 6]) - used):
        script.column(1000 + name)
    pool = list(range(used))
    script.new(FIRST, call_steps.in_domain(dice, [(0, 0, call_steps.distinct(dice, columns, 2))]))
    script.new_orderings(FIRST, lists_over(dice, pool, [0, 1], 3, 3) or [[(0, 0)]])
    for _ in range(dice.between(2, 8)):
        full_arena_call(dice, script, pool)


def full_arena_call(dice, script, pool):
    """A call that may add nodes; with more than 16 keys two refusals may hold."""
    what = dice.below(4)
    if what == 0:
        script.add_offset(FIRST, dice.pick([1, 2, 3, -1, 70000]))
    elif what == 1:
        script.shift(dice.pick(pool), dice.pick([1, 2, 3, 4]))
    elif what == 2:
        script.normal_key(FIRST, (dice.pick(pool), dice.below(4)))
    else:
        count = dice.pick([1, 2, 4, MOST_KEYS, MOST_KEYS + 1])
        script.normal_keys(FIRST, [(dice.pick(pool), dice.below(4)) for _ in range(count)])


def sort_keys(dice, script):
    """Keys by a group: members become the first of their class, uniform constants are dropped, others stay, doubles
    stay."""
    for name in range(dice.between(2, 6)):
        script.column(name)
    several(dice, 0, 2, steps.leaf, script)
    several(dice, 0, 4, steps.operation, script)
    call_steps.fill(dice, script, FIRST)
    for _ in range(dice.between(2, 8)):
        step = dice.weighed([
            (ordering_steps.normal_keys, 5), (ordering_steps.normal_key, 1), (ordering_steps.class_of, 2),
            (call_steps.constant, 2), (call_steps.equal_condition, 2), (call_steps.is_constant, 1),
        ])
        step(dice, script, FIRST)


def many_sort_keys(dice, script):
    """About 16 keys by a group that drops some of them: what counts is how many are given."""
    columns = [script.column(name) for name in range(dice.between(2, 6))]
    literal = script.literal(dice.pick(steps.VALUES))
    several(dice, 0, 3, steps.operation, script)
    script.constant(FIRST, columns[0], dice.below(2), 0)
    several(dice, 0, 3, lambda dice, script: call_steps.equal_condition(dice, script, FIRST), script)
    for _ in range(dice.between(1, 3)):
        count = dice.between(MOST_KEYS - 1, MOST_KEYS + 2)
        keys = [(dice.pick([*columns, literal, script.known()]), dice.below(4)) for _ in range(count)]
        if dice.chance(0.2):
            keys = call_steps.inserted(dice, keys, ordering_steps.odd_key(dice, script, FIRST))
        script.normal_keys(FIRST, keys)


def normal_orderings(dice, script):
    """Lists whose keys come from normal forms that were added, beside the group that they are normal by."""
    pool = ordering_steps.expressions(dice, script, 2, 4)
    several(dice, 1, 3, steps.operation, script)
    call_steps.fill(dice, script, FIRST)
    for _ in range(dice.between(2, 8)):
        ordering_steps.any_key_call(dice, script)
        give(dice, script, FIRST, [[(dice.pick([script.some(), *pool]), dice.below(2)) for _ in range(dice.below(4))]])
    ask(dice, script, FIRST, 3)


def bad_keys(dice, script):
    """Calls with options outside their set, unknown expressions, empty lists, repeats, too many keys and lists, several
    at once."""
    pool = ordering_steps.expressions(dice, script, 1, 4)
    give(dice, script, FIRST, lists_over(dice, pool, [0, 1, 2, 3], 4, 3))
    for _ in range(dice.between(2, 10)):
        ordering_steps.odd_call(dice, script)


def any_order(dice, script):
    """A little of everything on all three lists, in any order."""
    ordering_steps.expressions(dice, script)
    for _ in range(dice.between(4, 30)):
        dice.weighed([(ordering_steps.any_call, 9), (steps.operation, 1)])(dice, script)


THEMES = [
    (overlapping, 14),
    (chained, 8),
    (ends_as_beginnings, 10),
    (gaps, 8),
    (options_apart, 8),
    (empties_and_repeats, 6),
    (many_orderings, 4),
    (long_orderings, 6),
    (joined_lists, 8),
    (join_bounds, 4),
    (offsets, 8),
    (full_arena, 1.5),
    (sort_keys, 10),
    (many_sort_keys, 4),
    (normal_orderings, 5),
    (bad_keys, 10),
    (any_order, 10),
]
