"""Single calls on groups with chosen or chance contents, from which scripts are made."""

from harness.commands import LARGEST_LIMIT, USUAL_NAMES
from harness.steps import LABELS, VALUES

KINDS = 10
INNER, LEFT = 0, 1
ODD_FLAVOURS = [4, 5, 16, 256, 65535]


def any_group(dice):
    return dice.below(USUAL_NAMES)


def value_of(dice, known):
    """A value where one is known, else 0."""
    return dice.pick(VALUES) if known else 0


def distinct(dice, pool, count):
    """Up to this many of the pool, in any order and none twice."""
    chosen = []
    for _ in range(count):
        left = [one for one in pool if one not in chosen]
        if left:
            chosen.append(dice.pick(left))
    return chosen


def shuffled(dice, items):
    """The items in another order."""
    return distinct(dice, items, len(items))


def inserted(dice, items, item):
    """The items with one more at the front, at the end or between."""
    place = dice.pick([0, dice.below(len(items) + 1), len(items)])
    return items[:place] + [item] + items[place:]


def class_of(dice, script, members):
    """A class with a constant that its members allow: a uniform one where there is a literal."""
    uniform = any(script.is_literal(member) for member in members)
    flavour = dice.weighed([(2, 1), (3, 3)] if uniform else [(0, 6), (1, 2), (2, 1), (3, 2)])
    return flavour, value_of(dice, flavour == 3), members


def in_domain(dice, classes):
    """The list with a constant on each class of one member that stands in another class too."""
    members = [member for *_, members in classes for member in members]
    kept = []
    for flavour, value, own in classes:
        if flavour == 0 and len(own) == 1 and members.count(own[0]) > 1:
            flavour = dice.between(1, 3)
            value = value_of(dice, flavour == 3)
        kept.append((flavour, value, own))
    return kept


def list_over(dice, script, pool, low=0, high=8):
    """A list of classes over few expressions, so that they overlap; nearly always in the domain."""
    classes = []
    for _ in range(dice.between(low, high)):
        size = dice.weighed([(0, 1), (1, 3), (2, 6), (3, 3), (dice.between(4, 6), 1)])
        classes.append(class_of(dice, script, distinct(dice, pool, size)))
    return classes if dice.chance(0.02) else in_domain(dice, classes)


def new(dice, script, group):
    """A list over few of the nodes."""
    pool = distinct(dice, range(script.count()), dice.between(2, 10))
    script.new(group, list_over(dice, script, pool))


def open_group(dice, script, group):
    script.open(group, dice.weighed([(LARGEST_LIMIT, 2), (dice.between(1, 8), 5), (dice.pick([0, 257, 65535]), 1)]))


def equal_condition(dice, script, group):
    left = script.member(group)
    script.equal_condition(group, left, left if dice.chance(0.05) else script.member(group))


def constant(dice, script, group):
    """A constant of any flavour; a value where none may be known is rare."""
    flavour = dice.below(3)
    value = value_of(dice, flavour == 2 or dice.chance(0.02))
    script.constant(group, script.member(group), dice.pick(ODD_FLAVOURS) if dice.chance(0.01) else flavour, value)


def clear(dice, script, group):
    script.call("clear", group)


def is_constant(dice, script, group):
    script.call("isconst", group, script.member(group))


def are_equal(dice, script, group):
    script.call("equal", group, script.member(group), script.member(group))


def twins_equal(dice, script, group):
    """Whether two operations over the same children are equal; the second one's label may be another."""
    number = script.known()
    kind, *fields = script.nodes[number]
    if kind == "operation":
        script.call("equal", group, number, script.operation(dice.pick(LABELS), fields[1:]))


def normal_form(dice, script, group):
    script.normal_form(group, script.member(group))


def show(dice, script, group):
    script.call("show", group)


def join_of(dice, script, made, left, right, kind, left_size):
    """A join of two groups on a few pairs. The shifted nodes are often there before."""
    count = dice.weighed([(0, 2), (1, 4), (2, 3), (5, 1)])
    pairs = [(script.member(left), script.member(right)) for _ in range(count)]
    if dice.chance(0.5):
        for number in distinct(dice, [one for one in script.members[right] if one < script.count()], 4):
            script.add_shifted(number, left_size)
    script.join(made, left, right, kind, left_size, pairs)


def join(dice, script, made):
    """A join of any two groups, most often an inner one."""
    kind = INNER if dice.chance(0.4) else dice.below(KINDS)
    left_size = dice.weighed([(dice.below(5), 20), (dice.below(70000), 1)])
    join_of(dice, script, made, any_group(dice), any_group(dice), kind, left_size)


def look(dice, script, group):
    """One question or change on the group, whose answer depends on where its expressions are found."""
    questions = [(normal_form, 3), (are_equal, 3), (is_constant, 3), (show, 1)]
    step = dice.weighed(questions + [(equal_condition, 4), (constant, 3), (clear, 1)])
    step(dice, script, group)


def probe(dice, script, group, most=8):
    """Several of them."""
    for _ in range(dice.between(1, most)):
        look(dice, script, group)


def fill(dice, script, group):
    """A group with some classes, by a list or one call after the other."""
    if dice.chance(0.5):
        return new(dice, script, group)
    script.open(group, LARGEST_LIMIT)
    for _ in range(dice.between(1, 8)):
        dice.weighed([(equal_condition, 3), (constant, 2)])(dice, script, group)


def any_call(dice, script):
    """One call of any sort on any group."""
    step = dice.weighed([(look, 12), (new, 3), (join, 3), (open_group, 1)])
    step(dice, script, any_group(dice))


def odd_constant(dice, script, group):
    flavour, value = dice.below(5), dice.pick([0, 0, 1])
    script.constant(group, odd_or_member(dice, script, group), flavour, value)


def odd_or_member(dice, script, group):
    return script.odd_number() if dice.chance(0.5) else script.member(group)


def odd_list(dice, script, group):
    """A list with a fault, or with several, so that the order of tests shows."""
    classes = list_over(dice, script, range(script.count()), 1, 6)
    for _ in range(dice.between(1, 3)):
        fault = dice.pick([odd_flavour, odd_value, repeated_member, bare_literal, unknown_member, too_many_classes])
        place = dice.below(len(classes))
        classes[place : place + 1] = fault(dice, script, *classes[place])
    script.new(group, classes)


def odd_flavour(dice, script, flavour, value, members):
    return [(dice.pick(ODD_FLAVOURS), value, members)]


def odd_value(dice, script, flavour, value, members):
    return [(dice.below(3), dice.pick(VALUES), members)]


def repeated_member(dice, script, flavour, value, members):
    return [(flavour, value, inserted(dice, members, dice.pick(members or [script.odd_number()])))]


def bare_literal(dice, script, flavour, value, members):
    literals = [number for number in range(script.count()) if script.is_literal(number)]
    return [(dice.below(2), 0, inserted(dice, members, dice.pick(literals or [0])))]


def unknown_member(dice, script, flavour, value, members):
    return [(flavour, value, inserted(dice, members, script.odd_number()))]


def too_many_classes(dice, script, flavour, value, members):
    return [(flavour, value, members)] + [(0, 0, [])] * dice.between(55, 66)


def odd_join(dice, script, group):
    """A join with numbers that may be outside their sets, unknown or too large."""
    kind = dice.pick([dice.below(KINDS), INNER, 10, 11, 255, 65535])
    left_size = dice.pick([0, 1, 65534, 65535, 65536, 0xFFFFFFFF])
    sides = any_group(dice), any_group(dice)
    pairs = [tuple(odd_or_member(dice, script, side) for side in sides) for _ in range(dice.below(4))]
    script.join(group, *sides, kind, left_size, pairs)


def odd_question(dice, script, group):
    """A call on numbers that may not be there."""
    left, right = (odd_or_member(dice, script, group) for _ in range(2))
    name, *numbers = dice.pick([("eq", left, right), ("equal", left, right), ("isconst", left), ("nf", left)])
    script.call(name, group, *numbers)


def odd_limit(dice, script, group):
    script.open(group, dice.pick([0, 1, 255, 256, 257, 512, 65535]))


def odd_operation(dice, script, group):
    """An operation over too many children, or over some that may not be there."""
    children = [odd_or_member(dice, script, group) for _ in range(dice.between(7, 10))]
    script.add(script.form.operation(dice.pick(LABELS), children))


def odd_call(dice, script):
    """One call at or past a bound."""
    step = dice.weighed([
        (odd_list, 5), (odd_join, 4), (odd_constant, 2), (odd_question, 3), (odd_limit, 1), (odd_operation, 1),
    ])
    step(dice, script, any_group(dice))
