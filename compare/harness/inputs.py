"""The inputs that are compared: sessions and scripts. Each is a list of parts, and both sides get the same bytes."""

from harness import commands, records
from harness.generator import sort_of, theme_and_script, theme_and_session
from harness.sides import OUTSIDE_DOMAIN, TOO_LARGE
from harness.tally import ScriptTally, SessionTally


class Sessions:
    """Sessions of records."""

    one, plural, parts, ending = "session", "sessions", "records", ".bin"
    rust_program, our_program = "rust-session", "session"
    tally = SessionTally
    is_node, moved_down = staticmethod(records.is_node), staticmethod(records.moved_down)

    def made(self, seed):
        """The theme and the parts of a seed."""
        theme, session = theme_and_session(seed)
        return theme, records.split(session)

    def bytes(self, parts):
        """What both sides are given."""
        return b"".join(parts)

    def smaller(self, part):
        """Records are not made smaller."""
        return ()

    def not_compared(self, answer):
        """Why an input that the Rust answers so is not compared, or none."""
        return "too large for the Rust" if answer == TOO_LARGE else None

    def shown(self, parts):
        """The parts, one a line, and the whole in hex."""
        for place, part in enumerate(parts, 1):
            yield f"{place:4}  {part[:2].hex()} {part[2:4].hex()} {part[4:].hex()}"
        yield f"\n{b''.join(parts).hex()}"


class Scripts(Sessions):
    """Scripts of calls: of one sort, or of all sorts in turn."""

    one, plural, parts, ending = "script", "scripts", "commands", ".txt"
    rust_program, our_program = "rust-calls", "calls"
    tally = ScriptTally
    is_node, moved_down = staticmethod(commands.is_node), staticmethod(commands.moved_down)
    smaller = staticmethod(commands.smaller)

    def __init__(self, sort=None):
        self.sort = sort

    def made(self, seed):
        sort = self.sort or sort_of(seed)
        theme, parts = theme_and_script(seed, sort)
        return f"{sort}, {theme}", parts

    def bytes(self, parts):
        return commands.as_text(parts).encode()

    def not_compared(self, answer):
        return "outside the domain" if OUTSIDE_DOMAIN in answer else super().not_compared(answer)

    def shown(self, parts):
        return commands.as_text(parts).splitlines()


SESSIONS = "sessions"


def inputs_of(sort):
    """The inputs of this sort, which may be sessions."""
    return Sessions() if sort == SESSIONS else Scripts(sort)
