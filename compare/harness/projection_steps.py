"""Single mappings and projections with chosen or chance contents, from which scripts are made."""

from harness.call_steps import any_group, distinct, inserted, probe
from harness.commands import USUAL_NAMES
from harness.steps import LABELS

MOST_SOURCES, MOST_TARGETS = 64, 8


def any_mapping(dice):
    return dice.below(USUAL_NAMES)


def outputs(script, count):
    """The columns of the projected table."""
    return [script.column(50 + place, place) for place in range(count)]


def targets_of(dice, pool):
    """One target or a few; one may come twice."""
    count = dice.weighed([(1, 8), (2, 4), (3, 2), (dice.between(4, MOST_TARGETS), 1)])
    return [dice.pick(pool) for _ in range(count)]


def map_sources(dice, script, mapping, sources):
    """A mapping with these sources, most often to columns of the projected table, at times to anything."""
    count = script.count()
    columns = outputs(script, dice.between(1, 6))
    pool = dice.weighed([(columns, 4), (columns + list(sources), 1), (columns + list(range(count)), 1)])
    script.map(mapping, [(source, targets_of(dice, pool)) for source in sources])


def any_map(dice, script, group, mapping):
    """A mapping whose sources are likely members of the group, or operations over them."""
    pool = list(range(script.count())) + [one for one in script.members[group] if one < script.count()] * 2
    map_sources(dice, script, mapping, distinct(dice, pool, dice.weighed([(0, 1), (dice.between(1, 6), 12)])))


def operation_over(dice, script, pool):
    """An operation over expressions of the pool, now and then over none."""
    size = dice.weighed([(0, 1), (1, 3), (2, 5), (3, 2)])
    return script.operation(dice.pick(LABELS[:3]), [dice.pick(pool) for _ in range(size)])


def asked(dice, script, group, mapping):
    """An expression to project: a member, a source or any other."""
    return dice.pick([script.member(group), script.source(mapping), script.some()])


def project_expr(dice, script, group, mapping):
    script.project_expr(group, mapping, asked(dice, script, group, mapping))


def project_expressions(dice, script, group, mapping):
    count = dice.weighed([(0, 1), (dice.between(1, 6), 8)])
    script.project_expressions(group, mapping, [asked(dice, script, group, mapping) for _ in range(count)])


def project(dice, script, group, mapping):
    """A projection of the group, and what is found of it."""
    made = any_group(dice)
    script.project(made, group, mapping)
    probe(dice, script, made, 4)


def ask(dice, script, group, mapping):
    """One projection of any sort."""
    step = dice.weighed([(project_expr, 4), (project_expressions, 3), (project, 4)])
    step(dice, script, group, mapping)


def any_call(dice, script):
    """A new mapping, or a projection of any group by any mapping."""
    step = dice.weighed([(ask, 4), (any_map, 1)])
    step(dice, script, any_group(dice), any_mapping(dice))


def no_targets(dice, script, source, targets):
    return [(source, [])]


def too_many_targets(dice, script, source, targets):
    return [(source, [dice.pick(targets or [0]) for _ in range(dice.between(MOST_TARGETS, MOST_TARGETS + 2))])]


def source_twice(dice, script, source, targets):
    return [(source, targets), (source, targets[:1])]


def unknown_source(dice, script, source, targets):
    return [(script.odd_number(), targets)]


def unknown_target(dice, script, source, targets):
    return [(source, inserted(dice, targets, script.odd_number()))]


def too_many_sources(dice, script, source, targets):
    """As many sources as there can be, or a few more or less; where there are too few nodes, unknown ones."""
    others = [one for one in range(dice.between(MOST_SOURCES - 2, MOST_SOURCES + 2)) if one != source]
    return [(source, targets)] + [(other, targets[:1]) for other in others]


def odd_map(dice, script, mapping):
    """A mapping with a fault, or with several, so that the order of tests shows."""
    sources = distinct(dice, list(range(script.count())), dice.between(1, 4))
    pairs = [(source, targets_of(dice, list(range(script.count())))) for source in sources]
    for _ in range(dice.between(1, 3)):
        fault = dice.weighed([
            (no_targets, 2), (too_many_targets, 2), (source_twice, 2), (unknown_source, 2), (unknown_target, 2),
            (too_many_sources, 1),
        ])
        place = dice.below(len(pairs))
        pairs[place : place + 1] = fault(dice, script, *pairs[place])
    script.map(mapping, pairs)
