"""Single calls on lists of orderings and on sort keys, with chosen or chance contents, from which scripts are made. A
key is a pair of an expression and options; a list of keys becomes an ordering."""

from harness import steps
from harness.call_steps import any_group, inserted, shuffled
from harness.commands import USUAL_NAMES
from harness.dependency_steps import columns, other_options

MOST_ORDERINGS, MOST_KEYS = 32, 16
LAST_INDEX = 65535
ODD_OPTIONS = [4, 5, 7, 256, 65535]
FAR_OFFSETS = [65536, -65536, 0xFFFFFFFF, -(2**31), 2**32, 2**63 - 1, -(2**63)]
OFFSETS = [0, 1, -1, 2, 65533, 65534, LAST_INDEX, -LAST_INDEX, *FAR_OFFSETS]


def any_list(dice):
    return dice.below(USUAL_NAMES)


def option_set(dice):
    """The options that keys may have: most often few, so that keys meet."""
    return dice.pick([[0], [0], [0, 1], [0, 3], [0, 1, 2, 3]])


def expressions(dice, script, low=2, high=5):
    """A few expressions to order by: columns, at times literals and operations over them."""
    for name in range(dice.between(low, high)):
        script.column(name, dice.below(4))
    for _ in range(dice.weighed([(0, 3), (dice.between(1, 3), 1)])):
        dice.pick([steps.leaf, steps.operation])(dice, script)
    return list(range(script.count()))


def keys_over(dice, pool, options, longest):
    """A list of keys over few expressions, in which one may come twice; now and then an empty one."""
    size = 0 if dice.chance(0.03) else dice.between(1, longest)
    return [(dice.pick(pool), dice.pick(options)) for _ in range(size)]


def lists_over(dice, pool, options, most, longest):
    """Several lists of keys."""
    return [keys_over(dice, pool, options, longest) for _ in range(dice.between(0, most))]


def without_repeats(keys):
    """The keys as an ordering has them: each expression once."""
    return [key for place, key in enumerate(keys) if key[0] not in [before[0] for before in keys[:place]]]


def as_orderings(lists):
    """The lists that are orderings, which oext takes."""
    return [keys for keys in map(without_repeats, lists) if keys]


def give(dice, script, name, lists):
    """The lists by one of the three calls, or one list after the other."""
    what = dice.weighed([("onew", 3), ("oadd", 3), ("oext", 3), ("each", 1)])
    if what == "onew":
        script.new_orderings(name, lists)
    elif what == "oadd":
        script.more_orderings(what, name, lists)
    elif what == "oext":
        script.more_orderings(what, name, lists if dice.chance(0.1) else as_orderings(lists))
    else:
        for keys in lists:
            script.more_orderings("oadd", name, [keys])


def lead(dice, script, name):
    """The expression of a key of the list, or another."""
    return script.key(name)[0]


def options_of(dice, script, name):
    script.call("oopt", name, lead(dice, script, name))


def partial_const(dice, script, name):
    script.call("opart", name, lead(dice, script, name))


def output(dice, script, name):
    script.call("oout", name)


def show(dice, script, name):
    script.call("oshow", name)


def join(dice, script, name):
    script.join_suffix(any_list(dice), name, any_list(dice))


def add_offset(dice, script, name):
    script.add_offset(name, dice.weighed([(dice.below(5), 8), (-dice.below(5), 4), (dice.pick(OFFSETS), 1)]))


def shift(dice, script, name):
    script.shift(lead(dice, script, name), dice.weighed([(dice.below(5), 4), (dice.pick(OFFSETS), 1)]))


def more(dice, script, name):
    """One or two more lists of any keys."""
    give(dice, script, name, [[script.key(name) for _ in range(dice.below(5))] for _ in range(dice.between(1, 2))])


def ask(dice, script, name, most=6):
    """Several questions."""
    for _ in range(dice.between(1, most)):
        dice.weighed([(options_of, 2), (partial_const, 2), (output, 2), (show, 1)])(dice, script, name)


def any_call(dice, script):
    """One call of any sort on any list."""
    name = any_list(dice)
    if dice.chance(0.03):
        return script.clear_orderings(name)
    step = dice.weighed([
        (more, 8), (options_of, 2), (partial_const, 2), (output, 2), (join, 2), (add_offset, 2), (shift, 1),
    ])
    step(dice, script, name)


def sort_keys(dice, script, group, most=6):
    """Keys by their normal forms: members of the group among them, some more than once."""
    keys = [(script.member(group), dice.below(4)) for _ in range(dice.between(0, most))]
    return inserted(dice, keys, dice.pick(keys)) if keys and dice.chance(0.3) else keys


def normal_keys(dice, script, group):
    script.normal_keys(group, sort_keys(dice, script, group))


def normal_key(dice, script, group):
    script.normal_key(group, (script.member(group), dice.below(4)))


def class_of(dice, script, group):
    script.call("class", group, script.member(group))


def any_key_call(dice, script):
    """One call on sort keys, or the class of an expression."""
    dice.weighed([(normal_keys, 4), (normal_key, 1), (class_of, 2)])(dice, script, any_group(dice))


def odd_key(dice, script, name):
    """A key that may have options outside their set or an unknown expression."""
    expression, options = script.key(name)
    if dice.chance(0.3):
        options = dice.pick(ODD_OPTIONS)
    if dice.chance(0.3):
        expression = script.odd_number()
    return expression, options


def odd_lists(dice, script, name):
    """Lists with a fault, or with several, so that the order of tests shows: an empty one, a repeated expression,
    odd keys, too many keys, too many lists."""
    lists = [[script.key(name) for _ in range(dice.between(1, 4))] for _ in range(dice.between(1, 3))]
    for _ in range(dice.between(1, 3)):
        fault = dice.pick([empty, repeat, odd, odd, too_many_keys, too_many_lists])
        place = dice.below(len(lists))
        lists[place : place + 1] = fault(dice, script, name, lists[place])
    return lists


def empty(dice, script, name, keys):
    return [keys, []]


def repeat(dice, script, name, keys):
    return [inserted(dice, keys, other_options(dice, dice.pick(keys)) if keys else (0, 0))]


def odd(dice, script, name, keys):
    return [inserted(dice, keys, odd_key(dice, script, name))]


def too_many_keys(dice, script, name, keys):
    return [keys + columns(dice, script, dice.between(MOST_KEYS - 1, MOST_KEYS + 1), 400)]


def too_many_lists(dice, script, name, keys):
    """About as many as there can be; those of one key stay apart, those of the same keys don't."""
    count = dice.between(MOST_ORDERINGS - 2, MOST_ORDERINGS + 1)
    apart = [[(script.column(500 + place // 4, 0), place % 4)] for place in range(count)] if dice.chance(0.5) else None
    return apart or [keys] * count


def odd_call(dice, script):
    """One call whose numbers may be faulty."""
    name = any_list(dice)
    what = dice.below(8)
    if what == 0:
        script.new_orderings(name, odd_lists(dice, script, name))
    elif what <= 3:
        script.more_orderings(dice.pick(["oadd", "oext", "oext"]), name, odd_lists(dice, script, name))
    elif what == 4:
        script.call(dice.pick(["oopt", "opart"]), name, script.odd_number())
    elif what == 5:
        script.add_offset(name, dice.pick(OFFSETS))
    elif what == 6:
        script.shift(dice.pick([script.odd_number(), script.some()]), dice.pick(OFFSETS))
    else:
        odd_key_call(dice, script, name)


def odd_key_call(dice, script, name):
    """Normal forms of keys that may be faulty, or of about 16 keys; the class of what may not be there."""
    group, what = any_group(dice), dice.below(3)
    if what == 0:
        count = dice.weighed([(dice.between(1, 4), 3), (dice.between(MOST_KEYS - 1, MOST_KEYS + 1), 2)])
        keys = shuffled(dice, [odd_key(dice, script, name)] + [script.key(name) for _ in range(count - 1)])
        script.normal_keys(group, keys)
    elif what == 1:
        script.normal_key(group, odd_key(dice, script, name))
    else:
        script.call("class", group, script.odd_number())
