"""The session of a seed, and the script of a seed. Scripts are of several sorts, and each sort has its own script for
a seed."""

from typing import NamedTuple

from harness import call_themes, dependency_themes, mixed_themes, ordering_themes, projection_themes, themes
from harness.dice import Dice
from harness.script import Script
from harness.session import Session


class Sort(NamedTuple):
    """A sort of scripts: its themes, each with how often it comes, and the calls that show the states at the end."""

    themes: list
    shown: tuple


SORTS = {
    "groups": Sort(call_themes.THEMES + projection_themes.THEMES, ("show",)),
    "dependencies": Sort(dependency_themes.THEMES, ("dshow",)),
    "orderings": Sort(ordering_themes.THEMES, ("oshow", "show")),
    "mixed": Sort(mixed_themes.THEMES, ("oshow", "show", "dshow")),
}


def made(seed, draft_of, choices):
    """The name of the seed's theme, and the draft that it fills."""
    dice = Dice(seed)
    theme = dice.weighed(choices)
    draft = draft_of(dice)
    theme(dice, draft)
    return theme.__name__, draft


def theme_and_session(seed):
    """The name of the seed's theme, and its session as bytes."""
    theme, draft = made(seed, Session, themes.THEMES)
    return theme, draft.bytes()


def sort_of(seed):
    """The sort of the seed's script where none is asked for: all sorts in turn."""
    return list(SORTS)[seed % len(SORTS)]


def theme_and_script(seed, sort):
    """The name of the seed's theme, and its script of this sort as commands. At the end all is shown."""
    theme, script = made(seed, Script, SORTS[sort].themes)
    script.show(*SORTS[sort].shown)
    return theme, script.parts
