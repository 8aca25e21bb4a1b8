"""How many lines of each sort the inputs print."""

from collections import Counter

from harness import records
from harness.commands import NONE

GROUP_CALLS = ("group", "new", "eq", "const", "clear", "join", "show", "project")
MAP_CALLS = ("dins", "dshow")
ORDERING_CALLS = (
    "dprefix", "dgen", "nfkeys", "onew", "oadd", "oext", "oshow", "oout", "ojoin", "ooff", "clearord",
)


class Tally:
    """Counts over the answers of one side. What a line is counted as is for each sort of input to say."""

    def __init__(self):
        self.themes = Counter()
        self.not_compared = Counter()
        self.lines = Counter()
        self.refusals = Counter()
        self.sizes = Counter()

    def count(self, theme, parts, answer):
        """Takes one compared input and its answer in."""
        self.themes[theme] += 1
        self.count_lines(parts, answer.splitlines())

    def count_left_out(self, theme, reason):
        """Takes in an input that is not compared."""
        self.themes[theme] += 1
        self.not_compared[reason] += 1

    def count_sizes(self, sizes):
        """Takes in how large something was, by the name of what was counted."""
        for what, size in sizes.items():
            self.sizes[what, int(size)] += 1

    def largest(self, what):
        """The largest size, and how often it came."""
        most = max(size for sort, size in self.sizes if sort == what)
        return f"{most} ({self.sizes[what, most]} times)"

    def show(self, plural):
        """Prints all counts."""
        left_out = "".join(f", {count} {reason}" for reason, count in sorted(self.not_compared.items()))
        print(f"{sum(self.themes.values())} {plural}{left_out}")
        for title, counts in [("themes", self.themes), ("lines", self.lines), ("refusals", self.refusals)]:
            print(f"{title}:")
            for name in sorted(counts, key=in_order):
                print(f"  {name}: {counts[name]}")
        for what in sorted({what for what, _ in self.sizes}):
            print(f"most {what}: {self.largest(what)}")


class SessionTally(Tally):
    """Counts over sessions."""

    def count_lines(self, parts, lines):
        for line in lines:
            self.count_line(line.split(), parts)

    def count_line(self, words, parts):
        """Takes one line in; a refusal is counted with the kind of the record that it refuses."""
        if words[0] == "n":
            self.lines["n, itself" if words[1] == words[2] else "n, another"] += 1
        elif words[0] == "q":
            self.lines[f"q, {words[3]}"] += 1
        elif words[0] == "r":
            self.lines[f"r, {words[2]}"] += 1
            self.refusals[self.refused(int(words[1]), words[2], parts)] += 1
        else:
            self.lines[words[0]] += 1
            self.count_sizes(dict(zip(["classes at an end", "members at an end", "orderings at an end"], words[1:])))

    def refused(self, place, number, parts):
        """The refusal with the kind of its record, in words."""
        if place == 0:
            return f"{number} of the whole input"
        kind = records.kind_of(parts[place - 1])
        if kind is None:
            return f"{number} of a cut header"
        return f"{number} of kind {kind}" if 1 <= kind <= 8 else f"{number} of another kind"


class ScriptTally(Tally):
    """Counts over scripts."""

    def count_lines(self, commands, lines):
        """Takes the answers in, each with the command that it answers."""
        for command in commands:
            own = lines[: lines_of(command.name, lines)]
            lines = lines[len(own) :]
            for line in own:
                self.count_line(command, line.split())

    def count_line(self, command, words):
        sort, *numbers = words
        if sort == "!":
            self.lines[sort] += 1
        elif sort == "r":
            self.refusals[f"{numbers[0]} of {command.name.split()[0]}"] += 1
        elif command.name in MAP_CALLS:
            self.count_map_line(command, numbers)
        elif command.name in ORDERING_CALLS:
            self.count_ordering_line(command, sort, numbers)
        elif sort == "g":
            self.lines[f"g, of {named(command)}"] += 1
            self.count_sizes({"classes": numbers[0], "members": numbers[1], "nodes": numbers[3]})
        elif sort == "n":
            own = int(numbers[0]) == command.fields[1].number
            self.lines["n, itself" if own else "n, another"] += 1
        elif sort == "p":
            for expression, answer in zip(asked_of(command), numbers):
                self.lines[f"p, {projected(expression, answer)}, of {command.name}"] += 1
        else:
            self.lines[f"{sort}, {numbers[0]}" if sort in "bckqv" else self.other(sort, numbers)] += 1

    def other(self, sort, words):
        """A line whose first word alone counts, or that there is nothing to say."""
        return f"{sort}, none" if words[:1] == [NONE] else sort

    def count_map_line(self, command, words):
        """Takes in the line of a map, which has one number, or of one of its keys."""
        if len(words) == 1:
            self.lines[f"d, of {command.name}"] += 1
            self.count_sizes({"keys in a map": words[0]})
        else:
            self.lines["d, a key" if words[2] != NONE else "d, a key without target"] += 1
            self.count_sizes({"dependencies of a key": len(words[4:])})

    def count_ordering_line(self, command, sort, words):
        """Takes in the line that counts orderings, or one of them."""
        empty = words in ([], ["0"])
        self.lines[f"{sort}, none, of {command.name}" if empty else f"{sort}, of {command.name}"] += 1
        if sort == "o":
            self.count_sizes({f"orderings of {command.name}": words[0]})
        else:
            self.count_sizes({f"keys in an ordering of {command.name}": len(words)})


def asked_of(command):
    """The expressions that a command projects."""
    return [field.number for field in command.rest or command.fields[2:]]


def projected(expression, answer):
    """What came of an expression, in a word."""
    if answer == "-":
        return "none"
    return "itself" if int(answer) == expression else "another"


def named(command):
    """The command's name, a join's with its kind."""
    return f"join {command.fields[3].number}" if command.name == "join" else command.name


def lines_of(name, lines):
    """How many of the lines, from the first on, answer a command of this name."""
    if name == "arena":
        return next((place for place, line in enumerate(lines) if not line.startswith("node")), len(lines))
    if lines[0].startswith(("r ", "! ")) or name not in GROUP_CALLS + MAP_CALLS + ORDERING_CALLS:
        return 1
    head = 1 if lines[0].startswith("b ") else 0
    return head + 1 + int(lines[head].split()[1])


def in_order(name):
    """Orders names with numbers by the numbers."""
    return [(0, int(word), "") if word.isdigit() else (1, 0, word) for word in name.split()]
