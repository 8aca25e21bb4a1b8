"""Scripts of one sort each. A theme fills a script; its weight says how often it comes."""

from harness import call_steps, steps
from harness.draft import MOST_NODES
from harness.script import LAST_INDEX
from harness.steps import several

FIRST, SECOND, THIRD = range(3)


def nodes(dice, script):
    """Columns of few names and indices, literals, operations with and without children."""
    for _ in range(dice.between(2, 10)):
        script.column(dice.below(4), dice.below(6))
    several(dice, 0, 3, steps.leaf, script)
    if dice.chance(0.4):
        script.operation(dice.pick(steps.LABELS), [])
    several(dice, 0, 5, steps.operation, script)


def mixed(dice, script):
    """A little of everything, in any order."""
    nodes(dice, script)
    for _ in range(dice.between(1, 25)):
        dice.weighed([(call_steps.any_call, 9), (steps.leaf, 1), (steps.operation, 1)])(dice, script)


def lists(dice, script):
    """Lists whose classes overlap, and what is found of them."""
    nodes(dice, script)
    for _ in range(dice.between(1, 5)):
        group = call_steps.any_group(dice)
        call_steps.new(dice, script, group)
        call_steps.probe(dice, script, group)


def chains(dice, script):
    """Classes that follow one from the other, in any order, some links missing: a scan that starts again and again,
    with gaps that the last class closes."""
    count = dice.between(4, 24)
    columns = [script.column(name) for name in range(count)]
    links = []
    for place in range(count - 1):
        if dice.chance(0.85):
            links.append(columns[place : place + dice.between(2, 3)])
    apart = [[script.column(100 + name), script.column(200 + name)] for name in range(dice.below(4))]
    classes = [call_steps.class_of(dice, script, one) for one in call_steps.shuffled(dice, links + apart)]
    script.new(FIRST, call_steps.in_domain(dice, classes))
    call_steps.probe(dice, script, FIRST, 12)


def idle_classes(dice, script):
    """Empty classes and classes of one member, with and without a constant, at the front, at the end and between."""
    nodes(dice, script)
    for _ in range(dice.between(1, 3)):
        group = call_steps.any_group(dice)
        classes = call_steps.list_over(dice, script, range(script.count()), 0, 5)
        for name in range(dice.between(1, 6)):
            alone = [] if dice.chance(0.5) else [script.column(300 + name, dice.below(2))]
            idle = (0, 0, alone) if dice.chance(0.5) else call_steps.class_of(dice, script, alone)
            classes = call_steps.inserted(dice, classes, idle)
        script.new(group, call_steps.in_domain(dice, classes))
        call_steps.probe(dice, script, group)


def listed_constants(dice, script):
    """Classes with equal and with other constants, then constants that look for their class, and clearing."""
    columns = [script.column(name) for name in range(dice.between(4, 12))]
    literals = [script.literal(value) for value in call_steps.distinct(dice, steps.VALUES, dice.between(1, 3))]
    classes = []
    for _ in range(dice.between(2, 8)):
        size = dice.between(1, 3)
        flavour = dice.between(1, 3)
        pool = columns if flavour == 1 else columns + literals
        classes.append((flavour, call_steps.value_of(dice, flavour == 3), call_steps.distinct(dice, pool, size)))
    script.new(FIRST, classes)
    for _ in range(dice.between(2, 10)):
        step = dice.weighed([(call_steps.constant, 4), (call_steps.clear, 1), (call_steps.is_constant, 2)])
        step(dice, script, FIRST)
    call_steps.probe(dice, script, FIRST)


def trees(dice, script):
    """Operations whose parts stand in classes, and themselves in others, with and without constants."""
    for name in range(dice.between(2, 4)):
        script.column(name)
    literal = script.literal(dice.pick(steps.VALUES))
    script.operation(dice.pick(steps.LABELS), [literal])
    several(dice, 3, 12, steps.operation, script)
    script.new(FIRST, call_steps.list_over(dice, script, range(script.count()), 1, 6))
    questions = [call_steps.normal_form, call_steps.are_equal, call_steps.is_constant, call_steps.twins_equal]
    for _ in range(dice.between(3, 12)):
        dice.pick(questions + [call_steps.look])(dice, script, FIRST)


def joins(dice, script):
    """Two groups and their joins, also of groups that were joined before."""
    nodes(dice, script)
    call_steps.fill(dice, script, FIRST)
    call_steps.fill(dice, script, SECOND)
    for _ in range(dice.between(1, 4)):
        made = dice.weighed([(THIRD, 4), (call_steps.any_group(dice), 1)])
        call_steps.join(dice, script, made)
        call_steps.probe(dice, script, made)


def every_kind(dice, script):
    """All ten kinds on one pair of groups."""
    nodes(dice, script)
    call_steps.fill(dice, script, FIRST)
    call_steps.fill(dice, script, SECOND)
    left_size = dice.below(5)
    for kind in call_steps.shuffled(dice, range(call_steps.KINDS)):
        call_steps.join_of(dice, script, THIRD, FIRST, SECOND, kind, left_size)
        call_steps.probe(dice, script, THIRD, 3)


def shared_sides(dice, script):
    """Joins whose shifted right side meets the left one: in columns, in literals, in what has no column."""
    left_size = dice.between(0, 3)
    names = range(dice.between(1, 4))
    right = [script.column(name, index) for name in names for index in range(2)]
    for number in right:
        script.add_shifted(number, left_size)
    common = [script.literal(dice.pick(steps.VALUES)), script.operation(dice.pick(steps.LABELS), [])]
    common.append(script.operation(dice.pick(steps.LABELS), common))
    script.new(FIRST, call_steps.list_over(dice, script, range(script.count()), 1, 5))
    pairs = [call_steps.distinct(dice, right + common, dice.between(2, 4)) for _ in range(dice.between(1, 4))]
    script.new(SECOND, [call_steps.class_of(dice, script, members) for members in pairs])
    several(dice, 1, 3, lambda dice, script: call_steps.join_of(
        dice, script, THIRD, FIRST, SECOND, dice.below(4), left_size), script)
    call_steps.probe(dice, script, THIRD)


def shift_bounds(dice, script):
    """Shifts that end at the last index or just beyond, in classes, in operations, in pairs of all kinds."""
    indices = [dice.pick([0, 1, 2, 65000, 65533, 65534, 65535]) for _ in range(dice.between(2, 5))]
    for name, index in enumerate(indices):
        script.column(name, index)
    several(dice, 0, 2, steps.leaf, script)
    several(dice, 0, 3, steps.operation, script)
    for _ in range(dice.between(1, 3)):
        call_steps.fill(dice, script, FIRST)
        call_steps.fill(dice, script, SECOND)
        room = LAST_INDEX - dice.pick(indices)
        left_size = dice.pick([room, room, room + 1, max(room - 1, 0), 0, 0xFFFFFFFF, 0x10000])
        kind = dice.pick([0, 0, 1, 2, 3, dice.below(call_steps.KINDS)])
        call_steps.join_of(dice, script, THIRD, FIRST, SECOND, kind, left_size)
        call_steps.probe(dice, script, THIRD, 4)


def full_arena(dice, script):
    """Joins and normal forms that need more nodes than there are places, or just as many."""
    for name in range(dice.between(2, 5)):
        script.column(name)
    several(dice, 1, 3, steps.operation, script)
    used = script.count()
    room = dice.between(0, 8)
    for name in range(MOST_NODES - room - used):
        script.column(1000 + name)
    for group in (FIRST, SECOND):
        script.new(group, call_steps.list_over(dice, script, range(used), 1, 4))
    for left_size in range(1, dice.between(3, 8)):
        sides = dice.pick([(FIRST, SECOND), (SECOND, FIRST)])
        pairs = [(dice.below(used), dice.below(used)) for _ in range(dice.below(4))]
        shift = LAST_INDEX + 1 if dice.chance(0.1) else left_size
        script.join(THIRD, *sides, dice.pick([0, 0, 1, 4]), shift, pairs)
        script.normal_form(dice.pick([SECOND, THIRD]), dice.below(used))
        call_steps.probe(dice, script, THIRD, 3)
    several(dice, 0, 2, steps.operation, script)
    several(dice, 0, 3, call_steps.odd_call, script)


def doubled(dice, script):
    """Joins have doubled a class up to 64, and may have filled the arena but for a few places. Then inner joins whose
    pairs open one class more, merge it again or not, and need nodes that fit or don't."""
    script.open(SECOND, call_steps.LARGEST_LIMIT)
    fixed = [script.operation(label, []) for label in range(3)]
    pair = [script.column(0, index) for index in range(2)]
    script.new(FIRST, [(0, 0, pair)])
    columns = 2
    while columns < 128:
        script.join(FIRST, FIRST, FIRST, call_steps.LEFT, columns, [])
        columns *= 2
    if dice.chance(0.5):
        columns = fill_by_shifts(script, columns, MOST_NODES - len(fixed) - dice.between(0, 4))
    for _ in range(dice.pick([0, 0, 1, 2])):
        script.equal_condition(FIRST, pair[0], len(fixed) + dice.below(128))
    script.new(SECOND, [(0, 0, pair)] * dice.below(2))
    for _ in range(dice.between(1, 4)):
        rights = fixed + [len(fixed) + dice.below(7)]
        pairs = [(dice.pick(fixed + pair), dice.pick(rights)) for _ in range(dice.between(1, 4))]
        script.join(THIRD, FIRST, SECOND, call_steps.INNER, columns - dice.below(2), pairs)
        call_steps.probe(dice, script, FIRST, 2)


def fill_by_shifts(script, columns, wanted):
    """Adds columns up to the wanted number by shifting the 128 of the first group; the second one is empty."""
    while columns < wanted:
        columns = min(columns + 128, wanted)
        script.join(THIRD, SECOND, FIRST, call_steps.LEFT, columns - 128, [])
    return columns


def pairs_of(numbers):
    """The numbers two by two."""
    return [list(pair) for pair in zip(numbers[::2], numbers[1::2])]


def many_classes(dice, script):
    """Lists and joins of close to 64 classes, some of which don't stay, and pairs that open more before they merge
    some."""
    count = dice.between(61, 67)
    columns = [script.column(name, index) for name in range(count) for index in range(2)]
    fresh = [script.column(500 + place, place) for place in range(3)]
    classes = []
    for members in pairs_of(columns):
        single = dice.chance(dice.pick([0, 0.1]))
        classes.append((dice.between(1, 2), 0, members[:1]) if single else call_steps.class_of(dice, script, members))
    cut = dice.pick([count, dice.between(0, count), dice.between(40, count)])
    script.new(FIRST, classes[:cut])
    script.new(SECOND, classes[cut:])
    for _ in range(dice.between(1, 3)):
        pairs = [(dice.pick(fresh + columns), dice.pick(fresh + columns)) for _ in range(dice.below(8))]
        script.join(THIRD, FIRST, SECOND, dice.pick([0, 0, 0, 1, 2, 3, 4, 7]), dice.between(2, 3), pairs)
    full_group_calls(dice, script)


def many_members(dice, script):
    """Lists and joins of close to 256 members, with repeats in the lists."""
    count = dice.between(250, 262)
    columns = [script.column(name) for name in range(count)]
    repeats = dice.pick([0, 0, 1, 3, 8])
    members = columns[repeats:] + [dice.pick(columns) for _ in range(repeats)]
    cut = dice.pick([count, dice.between(0, count)])
    for group, part in ((FIRST, members[:cut]), (SECOND, members[cut:])):
        script.new(group, call_steps.in_domain(dice, rows_of(dice, script, part)))
    for _ in range(dice.between(1, 3)):
        pairs = [(script.member(FIRST), script.known()) for _ in range(dice.below(6))]
        script.join(THIRD, FIRST, SECOND, dice.pick([0, 0, 0, 1, 3, 5, 8]), dice.between(0, 1), pairs)
    full_group_calls(dice, script)


def rows_of(dice, script, members):
    """The members cut into classes, none of them with an expression twice."""
    size = dice.pick([5, 9, 40, 256])
    rows = [members[start : start + size] for start in range(0, len(members), size)]
    return [call_steps.class_of(dice, script, list(dict.fromkeys(row))) for row in rows]


def full_group_calls(dice, script):
    """What groups that are nearly full are asked."""
    script.literal(1)
    for group in (FIRST, SECOND, THIRD):
        for _ in range(dice.between(0, 6)):
            step = dice.weighed([(call_steps.equal_condition, 4), (call_steps.constant, 3), (call_steps.look, 2)])
            step(dice, script, group)


def small_limits(dice, script):
    """Groups with a member limit of a few, and joins of them, which have the largest one."""
    nodes(dice, script)
    for group in (FIRST, SECOND):
        script.open(group, dice.between(1, 6))
        if dice.chance(0.3):
            call_steps.new(dice, script, group)
        for _ in range(dice.between(2, 10)):
            step = dice.weighed([(call_steps.equal_condition, 5), (call_steps.constant, 3), (call_steps.look, 2)])
            step(dice, script, group)
    made = dice.pick([SECOND, THIRD])
    call_steps.join(dice, script, made)
    several(dice, 2, 8, lambda dice, script: call_steps.equal_condition(dice, script, made), script)
    call_steps.probe(dice, script, made)


def bad_numbers(dice, script):
    """Calls with numbers outside their sets, broken rules, unknown expressions, several at once."""
    nodes(dice, script)
    call_steps.fill(dice, script, FIRST)
    for _ in range(dice.between(2, 12)):
        dice.weighed([(call_steps.odd_call, 4), (call_steps.any_call, 1)])(dice, script)


def outside_domain(dice, script):
    """A class of one member without constant whose member stands in another class: not compared, only run."""
    nodes(dice, script)
    classes = call_steps.list_over(dice, script, range(script.count()), 1, 5)
    script.new(FIRST, call_steps.inserted(dice, classes, (0, 0, [0])))
    call_steps.probe(dice, script, FIRST)


THEMES = [
    (mixed, 14),
    (lists, 16),
    (chains, 8),
    (idle_classes, 10),
    (listed_constants, 8),
    (trees, 8),
    (joins, 14),
    (every_kind, 3),
    (shared_sides, 8),
    (shift_bounds, 6),
    (full_arena, 2),
    (doubled, 2),
    (many_classes, 3),
    (many_members, 3),
    (small_limits, 6),
    (bad_numbers, 8),
    (outside_domain, 0.5),
]
