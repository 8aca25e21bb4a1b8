"""A session while it is being made: records one after the other."""

from harness import records
from harness.draft import Draft


class Session(Draft):
    """Each normal form may add a node."""

    def __init__(self, dice):
        super().__init__(dice, records)

    def bytes(self):
        return b"".join(self.parts)

    def add(self, part):
        super().add(part)
        self.grown += records.kind_of(part) == records.NORMAL
