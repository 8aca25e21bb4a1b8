"""Calls as commands, each a line of text."""

from dataclasses import dataclass

NONE = "-"
LARGEST_LIMIT = 256
USUAL_NAMES = 3


@dataclass(frozen=True)
class Number:
    """A number that stands for itself."""

    number: int

    def text(self):
        return str(self.number)

    def renumbered(self, new_number):
        return self

    def smaller(self):
        """A number has nothing to leave out."""
        return ()


class Expression(Number):
    """The number of an expression."""

    def renumbered(self, new_number):
        return Expression(new_number(self.number))


class Name(Number):
    """A state by its place: a letter for the first three, which are the usual ones, then a letter and digits."""

    letters = ""

    def text(self):
        if self.number < USUAL_NAMES:
            return self.letters[self.number]
        return f"{self.letters[0]}{self.number:0{7 if self.number % 2 else 1}}"


class GroupName(Name):
    """A group."""

    letters = "ABC"


class MappingName(Name):
    """A projection mapping."""

    letters = "PQR"


class ListName(Name):
    """A list of orderings."""

    letters = "XYZ"


class MapName(Name):
    """A dependency map."""

    letters = "DEF"


def joined(numbers):
    """Expressions as text, with commas between them."""
    return ",".join(map(str, numbers))


def each_left_out(items):
    """The items without one of them, for each of them."""
    return (items[:place] + items[place + 1 :] for place in range(len(items)))


@dataclass(frozen=True)
class ListedClass:
    """A class of a list: the flavour and value of its constant, and its members."""

    flavour: int
    value: int
    members: tuple

    def text(self):
        return f"{self.flavour}:{self.value}:{joined(self.members)}"

    def renumbered(self, new_number):
        return ListedClass(self.flavour, self.value, tuple(map(new_number, self.members)))

    def smaller(self):
        """The class without one of its members."""
        return (ListedClass(self.flavour, self.value, fewer) for fewer in each_left_out(self.members))


@dataclass(frozen=True)
class Mapped:
    """A source of a mapping with its targets."""

    source: int
    targets: tuple

    def text(self):
        return f"{self.source}={joined(self.targets)}"

    def renumbered(self, new_number):
        return Mapped(new_number(self.source), tuple(map(new_number, self.targets)))

    def smaller(self):
        """The source without one of its targets."""
        return (Mapped(self.source, fewer) for fewer in each_left_out(self.targets))


@dataclass(frozen=True)
class Pair:
    """A pair of expressions of a join."""

    left: int
    right: int

    def text(self):
        return f"{self.left}={self.right}"

    def renumbered(self, new_number):
        return Pair(new_number(self.left), new_number(self.right))

    def smaller(self):
        """A pair has nothing to leave out."""
        return ()


@dataclass(frozen=True)
class Keys:
    """Sort keys as pairs of an expression and options, with commas between them, or `-` where there are none."""

    keys: tuple

    def text(self):
        return ",".join(f"{expression}:{options}" for expression, options in self.keys) or NONE

    def renumbered(self, new_number):
        return type(self)(tuple((new_number(expression), options) for expression, options in self.keys))

    def smaller(self):
        """Without one of the keys."""
        return map(type(self), each_left_out(self.keys))


class Key(Keys):
    """One key."""

    def smaller(self):
        """A key has nothing to leave out."""
        return ()


# The fields of the commands that have the same number of them each time.
FORMS = {
    "reset": [],
    "col": [Number, Number],
    "lit": [Number],
    "off": [Expression, Number],
    "arena": [],
    "group": [GroupName, Number],
    "eq": [GroupName, Expression, Expression],
    "const": [GroupName, Expression, Number, Number],
    "clear": [GroupName],
    "isconst": [GroupName, Expression],
    "equal": [GroupName, Expression, Expression],
    "class": [GroupName, Expression],
    "nf": [GroupName, Expression],
    "nfkey": [GroupName, Key],
    "nfkeys": [GroupName, Keys],
    "show": [GroupName],
    "projexpr": [GroupName, MappingName, Expression],
    "project": [GroupName, GroupName, MappingName],
    "clearord": [ListName],
    "oshow": [ListName],
    "oout": [ListName],
    "ojoin": [ListName, ListName, ListName],
    "ooff": [ListName, Number],
    "oopt": [ListName, Expression],
    "opart": [ListName, Expression],
    "dmap": [MapName],
    "dins": [MapName, Key, Keys, Keys],
    "dshow": [MapName],
    "dprefix": [MapName, Key],
    "dgen": [MapName, Keys],
}
NODES = ("col", "lit", "op")


@dataclass(frozen=True)
class Command:
    """A command by its name, with its fields, and those that follow them any number of times."""

    name: str
    fields: tuple
    rest: tuple = ()

    def text(self):
        return " ".join([self.name, *(field.text() for field in self.fields + self.rest)])

    def renumbered(self, new_number):
        """The command with a new number for each expression that it refers to."""
        fields, rest = ([field.renumbered(new_number) for field in part] for part in (self.fields, self.rest))
        return Command(self.name, tuple(fields), tuple(rest))


def command(name, *given):
    """A command without fields that follow. A number is given as it is, keys as a tuple of pairs."""
    return Command(name, tuple(form(one) for form, one in zip(FORMS[name], given, strict=True)))


def no_command(line):
    """A line that is no command, kept as it is."""
    return Command(line, ())


def column(name, index):
    return command("col", name, index)


def literal(value):
    return command("lit", value)


def operation(label, children):
    return Command("op", (Number(label),), tuple(map(Expression, children)))


def new(group, classes):
    """Classes are triples of flavour, value and members."""
    listed = (ListedClass(flavour, value, tuple(members)) for flavour, value, members in classes)
    return Command("new", (GroupName(group),), tuple(listed))


def join(made, left, right, kind, left_size, pairs):
    fields = *map(GroupName, (made, left, right)), Number(kind), Number(left_size)
    return Command("join", fields, tuple(Pair(*pair) for pair in pairs))


def mapping(name, sources):
    """Sources are pairs of a source and its targets."""
    return Command("map", (MappingName(name),), tuple(Mapped(source, tuple(targets)) for source, targets in sources))


def project_expressions(group, mapping, expressions):
    return Command("projexprs", (GroupName(group), MappingName(mapping)), tuple(map(Expression, expressions)))


def orderings(call, name, lists):
    """One of the three calls that take lists of keys: onew, oadd, oext."""
    return Command(call, (ListName(name),), tuple(Keys(tuple(keys)) for keys in lists))


def insert(name, key, target, dependency):
    """A key is a pair; a target and a dependency are pairs or none."""
    return command("dins", name, (key,), *((one,) if one else () for one in (target, dependency)))


def as_text(commands):
    """The commands as text."""
    return "".join(f"{one.text()}\n" for one in commands)


def is_node(one):
    """Whether the command adds a node."""
    return one.name in NODES


def moved_down(one, first, gone):
    """The command with each reference from `first` + `gone` on made smaller by `gone`."""
    return one.renumbered(lambda number: number - gone if number >= first + gone else number)


def smaller(one):
    """The command with one of the fields that follow left out, or with something within a field left out."""
    for place, field in enumerate(one.fields):
        for fewer in field.smaller():
            yield Command(one.name, (*one.fields[:place], fewer, *one.fields[place + 1 :]), one.rest)
    for place, field in enumerate(one.rest):
        before, after = one.rest[:place], one.rest[place + 1 :]
        yield Command(one.name, one.fields, before + after)
        for fewer in field.smaller():
            yield Command(one.name, one.fields, (*before, fewer, *after))
