"""The recorded sessions and scripts, and whether their answers are still the Rust's."""

import re
import runpy

from harness.inputs import Scripts, Sessions
from harness.sides import OUTSIDE_DOMAIN, ROOT, TOO_LARGE, RustSide

GENERATED = "random-"
HEADER = "# The script of seed {seed} of the sort '{sort}', theme '{theme}' (compare/generate). The answer is the Rust's.\n"


def sessions():
    """Each recorded session: its text's file, what the Rust is given, and the ending of its answer."""
    bytes_of = runpy.run_path(str(ROOT / "tools/records"))["bytes_of"]
    for folder, ending in (("examples", ".expected"), ("tests/sessions", ".answer")):
        for text in sorted((ROOT / folder).glob("*.txt")):
            yield text, bytes_of(text.read_text()), ending


def scripts():
    """Each recorded script, in the same way."""
    for text in sorted((ROOT / "tests/scripts").glob("*.txt")):
        yield text, text.read_bytes(), ".answer"


def worked_scripts():
    """The scripts that were not generated."""
    return (script for script in scripts() if not script[0].name.startswith(GENERATED))


def generated_name(seed, sort):
    """The name of a generated script."""
    return f"{GENERATED}{sort}-{seed:05}"


def generated_text(seed, sort):
    """A generated script as it is recorded: a line that says how it was made, and its commands."""
    inputs = Scripts(sort)
    theme, parts = inputs.made(seed)
    return HEADER.format(seed=seed, sort=sort, theme=theme_name(theme)) + inputs.bytes(parts).decode()


def theme_name(theme):
    """A theme without its sort, in words."""
    return theme.split(", ")[1].replace("_", " ")


def made_of(name):
    """The seed and the sort of a generated script, by its name."""
    sort, seed = re.fullmatch(rf"{GENERATED}(\w+)-(\d+)", name).groups()
    return int(seed), sort


def ending_for(said, ending):
    """The ending of the file that has this answer of the Rust: outside the domain it is not the answer by 01, which
    has the other ending."""
    return ".rust" if OUTSIDE_DOMAIN in said else ending


def is_recorded(said, file):
    return file.is_file() and file.read_text() == said


def compare(inputs, recordings):
    """Asks the Rust for each recording, says how many of the answers are the Rust's, and answers whether none is
    another one."""
    rust = RustSide(inputs.rust_program)
    same, outside, too_large, others = [], [], [], []
    for text, asked, ending in recordings:
        said = rust.answer(asked)
        if said == TOO_LARGE:
            too_large.append(text.stem)
        elif not is_recorded(said, text.with_suffix(ending_for(said, ending))):
            others.append(text.stem)
        else:
            (outside if OUTSIDE_DOMAIN in said else same).append(text.stem)
    print(f"{inputs.plural}: {len(same)} recorded answers are the Rust's, {len(others)} are not")
    for names, what in (
        (too_large, "too large for the Rust"),
        (outside, "outside the domain, the Rust's own answer recorded as .rust"),
        (others, "other answers"),
    ):
        if names:
            print(f"  {len(names)} {what}: {', '.join(names)}")
    return not others


def compare_sessions():
    return compare(Sessions(), sessions())


def compare_scripts():
    return compare(Scripts(), scripts())


def compare_worked_scripts():
    return compare(Scripts(), worked_scripts())
