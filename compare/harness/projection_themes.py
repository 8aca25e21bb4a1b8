"""Scripts of projections, of one sort each. A theme fills a script; its weight says how often it comes."""

from harness import call_steps, projection_steps, steps
from harness.draft import MOST_NODES
from harness.steps import several

FIRST, SECOND, THIRD = range(3)
ONE, OTHER = range(2)


def nodes(dice, script, low=2, high=8):
    """Columns, literals, and operations over them, with and without children."""
    for _ in range(dice.between(low, high)):
        script.column(dice.below(4), dice.below(6))
    several(dice, 0, 2, steps.leaf, script)
    several(dice, 1, 6, lambda dice, script: projection_steps.operation_over(
        dice, script, list(range(script.count()))), script)


def projections(dice, script):
    """A small group and a mapping, and projections of all sorts."""
    nodes(dice, script)
    call_steps.fill(dice, script, FIRST)
    projection_steps.any_map(dice, script, FIRST, ONE)
    for _ in range(dice.between(1, 8)):
        projection_steps.ask(dice, script, FIRST, ONE)


def projections_among_calls(dice, script):
    """Projections between all other calls, of groups that were joined or projected before."""
    nodes(dice, script)
    for mapping in range(3):
        projection_steps.any_map(dice, script, mapping, mapping)
    for _ in range(dice.between(3, 25)):
        dice.weighed([(call_steps.any_call, 4), (projection_steps.any_call, 5), (steps.operation, 1)])(dice, script)


def equal_sources(dice, script):
    """Sources that are equal by their normal forms, `[a + c, b + c]` with a = b, and such that are not."""
    columns = [script.column(name, name) for name in range(dice.between(3, 6))]
    label = dice.pick(steps.LABELS)
    alike = [script.operation(label, [column, columns[-1]]) for column in columns[:-1]]
    above = [script.operation(dice.pick(steps.LABELS), [one]) for one in call_steps.distinct(dice, alike, 2)]
    for _ in range(dice.between(1, 4)):
        call_steps.equal_condition(dice, script, FIRST)
        script.equal_condition(FIRST, dice.pick(columns), dice.pick(columns + alike))
    sources = call_steps.distinct(dice, columns + alike * 3 + above, dice.between(2, 7))
    projection_steps.map_sources(dice, script, ONE, sources)
    script.project(SECOND, FIRST, ONE)
    call_steps.probe(dice, script, SECOND)
    several(dice, 0, 4, lambda dice, script: projection_steps.ask(dice, script, FIRST, ONE), script)


def failing_children(dice, script):
    """Operations with children that project beside children that don't, alone and as members. What fails adds no
    nodes, which the numbers afterwards show."""
    mapped = [script.column(name, name) for name in range(dice.between(1, 3))]
    others = [script.column(10 + name, name) for name in range(dice.between(1, 2))]
    others.append(script.operation(dice.pick(steps.LABELS), []))
    pool = mapped * 3 + others + [script.literal(dice.pick(steps.VALUES))]
    for _ in range(dice.between(3, 10)):
        pool.append(projection_steps.operation_over(dice, script, pool))
    projection_steps.map_sources(dice, script, ONE, mapped)
    script.new(FIRST, call_steps.list_over(dice, script, pool, 0, 5))
    for _ in range(dice.between(2, 8)):
        step = dice.pick([projection_steps.project_expr, projection_steps.project_expressions])
        step(dice, script, FIRST, ONE)
    script.project(SECOND, FIRST, ONE)
    call_steps.probe(dice, script, SECOND)


def projected_constants(dice, script):
    """Constants of every flavour on sources, on their parts and on targets that are literals; two unknown uniforms
    among them."""
    columns = [script.column(name, name) for name in range(dice.between(2, 6))]
    literals = [script.literal(value) for value in call_steps.distinct(dice, steps.VALUES, dice.between(1, 3))]
    above = [projection_steps.operation_over(dice, script, columns + literals) for _ in range(dice.between(0, 3))]
    for _ in range(dice.between(1, 6)):
        flavour = dice.below(3)
        script.constant(FIRST, dice.pick(columns + above), flavour, call_steps.value_of(dice, flavour == 2))
    several(dice, 0, 3, lambda dice, script: call_steps.equal_condition(dice, script, FIRST), script)
    sources = call_steps.distinct(dice, columns * 2 + literals + above, dice.between(1, 7))
    pool = projection_steps.outputs(script, dice.between(2, 7)) + call_steps.distinct(dice, literals, dice.below(2))
    script.map(ONE, [(source, projection_steps.targets_of(dice, pool)) for source in sources])
    script.project(SECOND, FIRST, ONE)
    for _ in range(dice.between(2, 8)):
        step = dice.weighed([(call_steps.is_constant, 4), (call_steps.constant, 2), (call_steps.clear, 1)])
        step(dice, script, SECOND)
    call_steps.probe(dice, script, SECOND)


def projected_again(dice, script):
    """A group that is projected by one mapping, and what came of it by another, to and fro."""
    nodes(dice, script)
    call_steps.fill(dice, script, FIRST)
    projection_steps.any_map(dice, script, FIRST, ONE)
    script.project(SECOND, FIRST, ONE)
    projection_steps.any_map(dice, script, SECOND, OTHER)
    for _ in range(dice.between(1, 4)):
        made, group = dice.pick([(SECOND, FIRST), (THIRD, SECOND), (FIRST, THIRD), (SECOND, SECOND)])
        script.project(made, group, dice.pick([ONE, OTHER]))
        call_steps.probe(dice, script, made, 4)


def full_arena_projected(dice, script):
    """Projections that need more nodes than there are places, or just as many: of members, of sources' normal forms,
    of one expression and of several."""
    columns = [script.column(name, name) for name in range(dice.between(2, 4))]
    for _ in range(dice.between(3, 8)):
        projection_steps.operation_over(dice, script, columns * 4 + list(range(script.count())))
    used = script.count()
    targets = projection_steps.outputs(script, dice.between(1, 4))
    for name in range(MOST_NODES - dice.pick([0, 1, 1, 2, 2, 3, 4, 6]) - script.count()):
        script.column(1000 + name)
    script.new(FIRST, call_steps.list_over(dice, script, columns + list(range(used)), 2, 6))
    for _ in range(dice.between(1, 3)):
        pool = dice.pick([columns, columns * 2 + list(range(used))])
        sources = call_steps.distinct(dice, pool, dice.between(1, 5))
        script.map(ONE, [(source, projection_steps.targets_of(dice, targets)) for source in sources])
        for _ in range(dice.between(1, 4)):
            full_arena_call(dice, script, used)


def full_arena_call(dice, script, used):
    """A projection of expressions that were there before the arena was filled."""
    numbers = [dice.below(used) for _ in range(dice.between(1, 6))]
    what = dice.below(3)
    if what == 0:
        script.project_expr(FIRST, ONE, numbers[0])
    elif what == 1:
        script.project_expressions(FIRST, ONE, numbers)
    else:
        script.project(dice.pick([SECOND, SECOND, FIRST]), FIRST, ONE)


def many_targets(dice, script):
    """Mappings of close to 64 sources, with close to 8 targets each or close to 256 in all, of one normal form, of a
    few or all of their own."""
    count = dice.weighed([(64, 6), (dice.between(1, 63), 3), (dice.between(65, 66), 1)])
    sources = [script.column(name, name) for name in range(count)]
    each = dice.weighed([(1, 1), (3, 3), (4, 4), (8, 3), (dice.between(2, 9), 1)])
    sizes = [each] * count
    for _ in range(dice.weighed([(0, 3), (1, 3), (dice.between(2, 8), 2)])):
        sizes[dice.below(count)] += dice.pick([-1, 1, 1])
    places = iter(range(sum(sizes)))
    targets = projection_steps.outputs(script, sum(sizes))
    rows = [[targets[next(places)] for _ in range(size)] for size in sizes]
    if dice.chance(0.2):
        rows[dice.below(count)] = rows[0]
    script.map(ONE, list(zip(sources, rows)))
    size = dice.pick([1, 1, 2, 16, 64])
    classes = [sources[start : start + size] for start in range(0, count, size)]
    script.new(FIRST, call_steps.in_domain(dice, [call_steps.class_of(dice, script, one) for one in classes]))
    script.project(SECOND, FIRST, ONE)
    for _ in range(dice.below(4)):
        projection_steps.ask(dice, script, dice.pick([FIRST, SECOND]), ONE)
    call_steps.probe(dice, script, SECOND, 3)


def targets_just_fit(dice, script):
    """Sources with several targets, which make a list of 256 members or just below; then constants on sources with
    one target, which may be one member too many."""
    count = dice.between(36, 60)
    alone = dice.between(1, 4)
    sources = [script.column(name, name) for name in range(count + alone)]
    members = 256 - dice.below(3)
    sizes = [members // count + (place < members % count) for place in range(count)] + [1] * alone
    targets = iter(projection_steps.outputs(script, sum(sizes)))
    script.map(ONE, [(source, [next(targets) for _ in range(size)]) for source, size in zip(sources, sizes)])
    for source in sources[count:]:
        flavour = dice.below(3)
        script.constant(FIRST, source, flavour, call_steps.value_of(dice, flavour == 2))
    script.project(SECOND, FIRST, ONE)
    call_steps.probe(dice, script, SECOND, 4)


def many_projected_classes(dice, script):
    """Close to 64 classes of members' projections and of targets together, then constants that open more."""
    paired = dice.between(20, 61)
    alone = dice.between(0, min(6, 64 - paired))
    sources = [script.column(name, name) for name in range(paired + alone)]
    above = dice.between(max(0, 61 - paired), 66 - paired)
    rows = [[script.operation(label, [source]) for source in sources[:2]] for label in range(above)]
    script.new(FIRST, [(0, 0, row) for row in rows])
    for source in call_steps.distinct(dice, sources[paired:], dice.below(alone + 1)):
        flavour = dice.below(3)
        script.constant(FIRST, source, flavour, call_steps.value_of(dice, flavour == 2))
    targets = projection_steps.outputs(script, 2 * paired + alone)
    pairs = [targets[2 * place : 2 * place + 2] for place in range(paired)]
    script.map(ONE, list(zip(sources, pairs + [[target] for target in targets[2 * paired :]])))
    script.project(SECOND, FIRST, ONE)
    call_steps.probe(dice, script, SECOND, 4)


def bad_mappings(dice, script):
    """Mappings with faults of every sort, some at once, used by all sorts of projections, on numbers that may not be
    there."""
    nodes(dice, script)
    call_steps.fill(dice, script, FIRST)
    for _ in range(dice.between(1, 5)):
        projection_steps.odd_map(dice, script, ONE)
        for _ in range(dice.between(1, 3)):
            bad_mapping_call(dice, script)
    call_steps.probe(dice, script, FIRST, 3)


def bad_mapping_call(dice, script):
    """A projection, at times of numbers that are not there."""
    numbers = [call_steps.odd_or_member(dice, script, FIRST) for _ in range(dice.below(4))]
    what = dice.below(3)
    if what == 0:
        script.project_expr(FIRST, ONE, (numbers or [0])[0])
    elif what == 1:
        script.project_expressions(FIRST, ONE, numbers)
    else:
        script.project(dice.pick([FIRST, SECOND]), FIRST, ONE)


THEMES = [
    (projections, 14),
    (projections_among_calls, 12),
    (equal_sources, 12),
    (failing_children, 10),
    (projected_constants, 12),
    (projected_again, 8),
    (full_arena_projected, 4),
    (many_targets, 4),
    (targets_just_fit, 2),
    (many_projected_classes, 3),
    (bad_mappings, 10),
]
