"""A script of calls while it is being made: commands one after the other."""

from collections import defaultdict

from harness import commands
from harness.draft import Draft

LAST_INDEX = 65535


class Script(Draft):
    """Beside the nodes, a script knows about which expressions stand in each group: those that it put there, whether
    or not they stayed. It also knows the sources and targets of each mapping, the orderings that were put into each
    list, and the keys that were put into each dependency map."""

    most_beyond = 12

    def __init__(self, dice):
        super().__init__(dice, commands)
        self.forget_states()

    def forget_states(self):
        self.nodes = []
        self.members, self.mappings, self.lists, self.maps = (defaultdict(list) for _ in range(4))

    def reset(self):
        """Everything is empty again."""
        self.call("reset")
        self.forget_nodes()
        self.forget_states()

    def node(self, node, size, part):
        number = super().node(node, size, part)
        if len(self.nodes) < self.count():
            self.nodes.append(node)
        return number

    def is_literal(self, number):
        return number < self.count() and self.nodes[number][0] == "literal"

    def call(self, name, *numbers):
        self.add(commands.command(name, *numbers))

    def open(self, group, limit):
        self.call("group", group, limit)
        self.members[group] = []

    def new(self, group, classes):
        """Classes are triples of flavour, value and members."""
        self.add(commands.new(group, classes))
        self.members[group] = [member for *_, members in classes for member in members]

    def equal_condition(self, group, left, right):
        self.call("eq", group, left, right)
        self.members[group] += [left, right]

    def constant(self, group, expression, flavour, value):
        self.call("const", group, expression, flavour, value)
        self.members[group].append(expression)

    def normal_form(self, group, expression):
        self.call("nf", group, expression)
        self.grown += 1

    def join(self, made, left, right, kind, left_size, pairs):
        """A join. The shifted nodes that are known count as members; the others may be new ones."""
        self.add(commands.join(made, left, right, kind, left_size, pairs))
        shifted = [self.known_shifted(member, left_size) for member in self.members[right]]
        self.members[made] = self.members[left] + [member for member in shifted if member is not None]
        self.grown += shifted.count(None)

    def map(self, mapping, sources):
        """Sources are pairs of a source and its targets."""
        self.add(commands.mapping(mapping, sources))
        self.mappings[mapping] = sources

    def project_expr(self, group, mapping, expression):
        self.call("projexpr", group, mapping, expression)
        self.grown += 1

    def project_expressions(self, group, mapping, expressions):
        self.add(commands.project_expressions(group, mapping, expressions))
        self.grown += len(expressions)

    def project(self, made, group, mapping):
        """A projection of a group. The targets count as members; what comes of other members may be new nodes."""
        self.call("project", made, group, mapping)
        self.grown += len(self.members[group])
        self.members[made] = [target for _, targets in self.mappings[mapping] for target in targets]

    def open_map(self, name):
        self.call("dmap", name)
        self.maps[name] = []

    def insert(self, name, key, target, dependency):
        """A key is a pair of an expression and options; a target and a dependency may be none."""
        self.add(commands.insert(name, key, target, dependency))
        if key not in self.maps[name]:
            self.maps[name].append(key)

    def prefixes(self, name, key):
        self.call("dprefix", name, (key,))

    def generate(self, name, keys):
        self.call("dgen", name, tuple(keys))

    def new_orderings(self, name, lists):
        """Lists of keys, which are pairs of an expression and options."""
        self.add(commands.orderings("onew", name, lists))
        self.lists[name] = list(lists)

    def more_orderings(self, call, name, lists):
        """The same lists for a list that is there: oadd or oext."""
        self.add(commands.orderings(call, name, lists))
        self.lists[name] = self.lists[name] + list(lists)

    def clear_orderings(self, name):
        self.call("clearord", name)
        self.lists[name] = []

    def join_suffix(self, made, left, right):
        self.call("ojoin", made, left, right)
        ends = self.lists[right] or [[]]
        self.lists[made] = [[*start, *end] for end in ends for start in self.lists[left]]

    def add_offset(self, name, offset):
        """The shifted keys that are known stay known; the others may be new nodes."""
        self.call("ooff", name, offset)
        moved = [[(self.known_shifted(one, offset), options) for one, options in keys] for keys in self.lists[name]]
        self.lists[name] = [[key for key in keys if key[0] is not None] for keys in moved]
        self.grown += sum(map(len, moved)) - sum(map(len, self.lists[name]))

    def shift(self, expression, offset):
        self.call("off", expression, offset)
        self.grown += 1

    def normal_key(self, group, key):
        self.call("nfkey", group, (key,))
        self.grown += 1

    def normal_keys(self, group, keys):
        self.call("nfkeys", group, tuple(keys))
        self.grown += len(keys)

    def show(self, *calls):
        """The nodes, and by each of these calls the usual three states."""
        self.call("arena")
        for call in calls:
            for name in range(commands.USUAL_NAMES):
                self.call(call, name)

    def key(self, name):
        """A key that likely stands in the list of orderings, or now and then some other."""
        keys = [key for keys in self.lists[name] for key in keys]
        return self.dice.pick(keys) if keys and self.dice.chance(0.75) else (self.some(), self.dice.below(4))

    def member(self, group):
        """The number of an expression that likely stands in the group, or now and then some other number."""
        members = self.members[group]
        return self.dice.pick(members) if members and self.dice.chance(0.75) else self.some()

    def source(self, mapping):
        """The number of a source of the mapping, or now and then some other number."""
        sources = self.mappings[mapping]
        return self.dice.pick(sources)[0] if sources and self.dice.chance(0.75) else self.some()

    def add_shifted(self, number, by):
        """Adds the nodes of an expression whose columns are moved, as far as their indices go."""
        kind, *fields = self.nodes[number]
        if kind == "column":
            self.column(fields[0], min(fields[1] + by, LAST_INDEX))
        elif kind == "operation":
            for child in fields[1:]:
                self.add_shifted(child, by)
            children = [self.known_shifted(child, by) for child in fields[1:]]
            if None not in children:
                self.operation(fields[0], children)

    def known_shifted(self, number, by):
        """The number of an expression whose columns are moved, or none where it isn't known to be there."""
        if number >= self.count():
            return None
        kind, *fields = self.nodes[number]
        if kind == "literal":
            return number
        if kind == "column":
            return self.numbers.get((kind, fields[0], fields[1] + by))
        return self.numbers.get((kind, fields[0], *(self.known_shifted(child, by) for child in fields[1:])))
