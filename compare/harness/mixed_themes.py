"""Scripts of all calls together, and of what concerns the script itself: lines that are no commands, many names, a
state that is empty again. A theme fills a script; its weight says how often it comes."""

from harness import call_steps, call_themes, commands, dependency_steps, dependency_themes, ordering_steps
from harness import ordering_themes, projection_steps, projection_themes, steps
from harness.steps import several

MOST_NAMES = 16

# Lines that are no commands: by their words, by a name, by the form of a field.
NO_COMMANDS = [
    "cols 1 2", "col 1", "col 1 2 3", "COL 1 2", "lit", "lit a", "lit 0x1", "lit 1.0", "op", "op 1 a", "arena 1",
    "reset A", "! lit 1", "-", "group", "group a", "group 1A", "group A_", "group ABCDEFGHI", "group A 1 2", "new",
    "new A 0:0", "new A 0:0:1:2", "new A 0:0:1,", "new A 0:0:,1", "new A ::", "eq A 1", "eq A 1 2 3", "const A 1 2",
    "clear", "clear A B", "isconst A", "equal A 1", "class A", "nf A", "nf A -", "nfkey A", "nfkey A -", "nfkey A 1",
    "nfkeys A", "nfkeys A 1", "nfkeys A 1:0 2:0", "nfkeys A 1:0,", "nfkeys A -,1:0", "map", "map P 1", "map P =1",
    "map P 1=2=3", "map P 1=2,", "projexpr A P", "projexpr A 1", "projexprs A", "project A B", "project A B P 1",
    "join A B C 0", "join A B C 0 0 1", "join A B C 0 0 1=2=3", "join A B C -1 0", "show", "show a", "show A 1",
    "onew", "onew X 1", "onew X 1:0,-", "onew X 1:0:0", "onew X 1:-1", "oadd x 1:0", "oext X 1:0,", "oshow",
    "oout X Y", "ojoin X Y", "ojoin X Y Z X", "ooff X", "ooff X +1", "ooff X --1", "ooff X -", "ooff X 1 2", "oopt X",
    "opart X -", "clearord", "off 0", "off 0 +1", "off -1 0", "off 0 1-", "dmap", "dmap D E", "dins D 1:0 2:0",
    "dins D - 2:0 -", "dins D 1:0 2:0,3:0 -", "dins D 1 2:0 -", "dshow", "dprefix D -", "dprefix D 1:0,2:0",
    "dgen D", "dgen D 1:0 2:0", "dgen D 1:0,", "dgen D 1:-1",
]

# Lines with a number that is one too large for its field.
TOO_LARGE = [
    "col 65536 0", "col 0 65536", "lit 4294967296", "op 4294967296", "op 1 4294967296", "group A 4294967296",
    "new A 4294967296:0:", "new A 3:4294967296:", "new A 0:0:4294967296", "eq A 4294967296 0", "eq A 0 4294967296",
    "const A 4294967296 0 0", "const A 0 4294967296 0", "const A 0 2 4294967296", "isconst A 4294967296",
    "equal A 0 4294967296", "class A 4294967296", "nf A 4294967296", "nfkey A 4294967296:0", "nfkey A 0:4294967296",
    "nfkeys A 0:0,4294967296:0", "nfkeys A 0:4294967296", "map P 4294967296=0", "map P 0=4294967296",
    "projexpr A P 4294967296", "projexprs A P 4294967296", "join A B C 4294967296 0",
    "join A B C 0 18446744073709551616", "join A B C 0 0 4294967296=0", "join A B C 0 0 0=4294967296",
    "onew X 65536:0", "onew X 0:65536", "oadd X 0:0 0:0,65536:0", "oext X 0:65536", "ooff X 9223372036854775808",
    "ooff X -9223372036854775809", "oopt X 4294967296", "opart X 4294967296", "off 4294967296 0",
    "off 0 9223372036854775808", "off 0 -9223372036854775809", "off 0 99999999999999999999999",
    "dins D 4294967296:0 - -", "dins D 0:4294967296 - -", "dins D 0:0 4294967296:0 -", "dins D 0:0 - 0:4294967296",
    "dprefix D 4294967296:0", "dgen D 0:4294967296",
]

# Commands whose numbers are the largest of their fields, or are written in an unusual way. Each answers one line.
AT_THE_EDGE = [
    "col 65535 65535", "lit 4294967295", "op 4294967295", "col 007 0000000000000000000000001", "lit 00",
    "  lit\t1  ", "lit 1# a comment", "op 1 4294967295", "off 4294967295 0", "off 0 9223372036854775807",
    "off 0 -9223372036854775808", "off 0 -0", "isconst A 4294967295", "class A 4294967295", "nf A 4294967295",
    "nfkey A 4294967295:3", "nfkey A 0:4294967295", "oopt X 4294967295", "dprefix D 4294967295:3",
    "dins D 4294967295:4294967295 - -", "onew X 65535:65535", "onew X 65535:3", "oext X 0:0,65535:0,0:65535",
    "oext X - 65535:3", "join A B C 4294967295 18446744073709551615",
]


def call(dice, script):
    """One call of any sort."""
    step = dice.weighed([
        (call_steps.any_call, 5), (projection_steps.any_call, 3), (ordering_steps.any_call, 4),
        (ordering_steps.any_key_call, 3), (dependency_steps.any_call, 3), (steps.operation, 1), (steps.leaf, 1),
    ])
    step(dice, script)


def odd_call(dice, script):
    """One call of any sort at or past a bound."""
    what = dice.below(5)
    if what == 0:
        call_steps.odd_call(dice, script)
    elif what == 1:
        projection_steps.odd_map(dice, script, projection_steps.any_mapping(dice))
        projection_themes.bad_mapping_call(dice, script)
    elif what == 2:
        dependency_steps.odd_call(dice, script, dependency_steps.any_map(dice))
    else:
        ordering_steps.odd_call(dice, script)


def all_calls(dice, script):
    """A little of everything, in any order."""
    call_themes.nodes(dice, script)
    several(dice, 4, 40, call, script)


def all_odd_calls(dice, script):
    """Calls of all sorts with faulty numbers, between others."""
    call_themes.nodes(dice, script)
    for _ in range(dice.between(4, 25)):
        dice.weighed([(odd_call, 2), (call, 1)])(dice, script)


def far_shifts(dice, script):
    """Joins whose right side is shifted by numbers of up to 64 bits: no column stays, but what has none does."""
    script.column(0, dice.pick([0, 1, 65535]))
    fixed = [script.literal(5), script.operation(1, []), script.operation(2, [0]), script.operation(3, [])]
    for group in (0, 1):
        pool = dice.pick([fixed, fixed, [0, *fixed]])
        script.new(group, call_steps.list_over(dice, script, pool, 1, 3))
    for _ in range(dice.between(1, 4)):
        left_size = dice.pick([0, 65535, 65536, 2**32, 2**63 - 1, 2**63, 2**64 - 65536, 2**64 - 1])
        pairs = [(dice.pick(fixed), dice.pick([0, *fixed])) for _ in range(dice.below(3))]
        script.join(2, 0, 1, dice.pick([0, 0, 1, 2, 3, dice.below(10)]), left_size, pairs)
        call_steps.probe(dice, script, 2, 3)


def no_commands(dice, script):
    """Lines that are no commands, and commands with the largest numbers, between others."""
    call_themes.nodes(dice, script)
    for _ in range(dice.between(3, 15)):
        lines = dice.weighed([(NO_COMMANDS, 3), (TOO_LARGE, 3), (AT_THE_EDGE, 2), (None, 3)])
        if lines:
            script.add(commands.no_command(dice.pick(lines)))
        else:
            call(dice, script)


def make(dice, script, kind, name):
    """Makes a state of this kind under this name, by one of the calls that do."""
    if kind == "group":
        call_steps.fill(dice, script, name)
    elif kind == "mapping":
        script.map(name, [(script.known(), [script.known()])])
    elif kind == "orderings":
        ordering_steps.give(dice, script, name, [[(script.known(), dice.below(4))]])
    else:
        dice.pick([lambda: script.open_map(name), lambda: dependency_steps.insert(dice, script, name)])()


def look(dice, script, kind, name):
    """Shows or uses what has this name."""
    if kind == "group":
        script.call("show", name)
    elif kind == "mapping":
        script.project_expr(0, name, script.known())
    elif kind == "orderings":
        ordering_steps.ask(dice, script, name, 1)
    else:
        script.call("dshow", name)


def many_names(dice, script):
    """About 16 names of one kind. A name that nothing was put under stands for an empty state, and one name too many
    makes a line no command."""
    call_themes.nodes(dice, script)
    kind = dice.pick(["group", "mapping", "orderings", "map"])
    names = call_steps.shuffled(dice, range(dice.between(MOST_NAMES - 2, MOST_NAMES + 3)))
    for name in names:
        make(dice, script, kind, name)
        if dice.chance(0.3):
            look(dice, script, kind, dice.below(MOST_NAMES + 4))
    for name in names[-4:]:
        look(dice, script, kind, name)


def emptied(dice, script):
    """Small scripts of all sorts, and everything empty again between them."""
    small = [
        call_themes.lists, call_themes.joins, projection_themes.projections, dependency_themes.shared,
        ordering_themes.overlapping, ordering_themes.sort_keys, all_calls,
    ]
    dice.pick(small)(dice, script)
    for _ in range(dice.between(1, 2)):
        script.reset()
        dice.pick(small)(dice, script)


THEMES = [
    (all_calls, 30),
    (all_odd_calls, 14),
    (far_shifts, 4),
    (no_commands, 8),
    (many_names, 4),
    (emptied, 5),
]
