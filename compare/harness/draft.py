"""A session or script while it is being made: its parts, and the nodes that they surely add."""

MOST_NODES = 1024
MOST_TREE = 2000


class Draft:
    """Node numbers count the nodes that were asked for. Calls that make expressions may add more, which a draft
    doesn't follow; it only knows about how many there may be. The form writes a node as a part."""

    most_beyond = 3

    def __init__(self, dice, form):
        self.dice = dice
        self.form = form
        self.parts = []
        self.forget_nodes()

    def forget_nodes(self):
        self.numbers = {}
        self.sizes = []
        self.grown = 0

    def count(self):
        """The nodes known to be there."""
        return len(self.sizes)

    def add(self, part):
        self.parts.append(part)

    def node(self, node, size, part):
        """Adds the part of a node; answers its number, also where the node is old."""
        self.add(part)
        if node not in self.numbers and self.count() < MOST_NODES:
            self.numbers[node] = self.count()
            self.sizes.append(size)
        return self.numbers.get(node, 0)

    def column(self, name, index=0):
        return self.node(("column", name, index), 1, self.form.column(name, index))

    def literal(self, value):
        return self.node(("literal", value), 1, self.form.literal(value))

    def operation(self, label, children):
        """An operation, kept small as a tree: children that are too large are left out."""
        small = []
        for child in children:
            if 1 + sum(self.sizes[kept] for kept in small + [child]) <= MOST_TREE:
                small.append(child)
        size = 1 + sum(self.sizes[child] for child in small)
        return self.node(("operation", label, *small), size, self.form.operation(label, small))

    def known(self):
        """The number of a node that is there, or 0 where none is."""
        return self.dice.below(self.count()) if self.count() else 0

    def recent(self):
        """The number of one of the last nodes."""
        return max(0, self.count() - 1 - self.dice.below(8))

    def beyond(self):
        """The number of a node that a call may have added."""
        return self.count() + self.dice.below(min(self.grown, self.most_beyond))

    def some(self):
        """A number to refer to: nearly always of a known node, else of one that may not be there."""
        if self.dice.chance(0.03):
            return self.odd_number()
        if self.grown and self.dice.chance(0.05):
            return self.beyond()
        return self.recent() if self.dice.chance(0.25) else self.known()

    def odd_number(self):
        """A number near a bound, of a node that is there or not."""
        count = self.count()
        near = [max(count - 1, 0), count, count + 1, count + self.dice.below(20)]
        return self.dice.pick(near + near + [255, 256, 1023, 1024, 65535])
