"""The two sides: the Rust's driver as one process for many inputs, and our program, one run an input."""

import os
import shutil
import struct
import subprocess
import sys
import tempfile
from concurrent.futures import ThreadPoolExecutor
from pathlib import Path

HERE = Path(__file__).resolve().parent.parent
ROOT = HERE.parent
RUST_PROGRAMS = ROOT / "target/compare/release"
# Our programs, and what makes them.
OUR_PROGRAMS = {
    "session": (ROOT / "crates/session/out/session", "rt run, in crates/session,"),
    "calls": (ROOT / "target/calls/calls", "tests/calls/build"),
    "direct": (ROOT / "target/calls/direct", "tests/calls/build"),
}
TOO_LARGE = "too large\n"
OUTSIDE_DOMAIN = "# outside the domain\n"
SECONDS = 60


def stop(message):
    """Ends with a plain message and status 2: something that is needed is not there."""
    print(message, file=sys.stderr)
    sys.exit(2)


def build_rust_side():
    """Builds the driver where anything in it is new. An answer from an older build is never used."""
    if subprocess.run([HERE / "build"]).returncode != 0:
        stop("The Rust's side could not be built.")


class RustSide:
    """A driver over the Rust text: for sessions, where no other is named."""

    def __init__(self, program="rust-session"):
        build_rust_side()
        command = [RUST_PROGRAMS / program, "--many"]
        self.process = subprocess.Popen(command, stdin=subprocess.PIPE, stdout=subprocess.PIPE)

    def answer(self, asked):
        """The lines that the Rust's side prints for an input."""
        self.process.stdin.write(struct.pack("<I", len(asked)) + asked)
        self.process.stdin.flush()
        length = self.process.stdout.read(4)
        if len(length) < 4:
            stop(f"The Rust's side ended on this input:\n{asked.hex()}")
        return self.process.stdout.read(struct.unpack("<I", length)[0]).decode(errors="replace")


def toolchain():
    """The folder of the kit's toolchain, found as `rt` finds it: by RATTLE_HOME, or beside `rt` itself."""
    home = os.environ.get("RATTLE_HOME")
    if not home:
        rt = shutil.which("rt") or stop("There is no rt: set RATTLE_HOME to the kit's folder.")
        home = Path(rt).resolve().parent.parent
    return Path(home) / "toolchain"


def our_command(program):
    """The words that run our program; an input's file is added to them. An environment variable, GALTHUMIR_ and
    the program's name in capitals, names another program, which is run as it is."""
    other = os.environ.get(f"GALTHUMIR_{program.upper()}")
    if other:
        return [other]
    ours, maker = OUR_PROGRAMS[program]
    if not ours.is_file():
        stop(f"There is no {ours.relative_to(ROOT)}: {maker} makes it.")
    libraries = toolchain() / "lib"
    return [libraries / "ld-linux-x86-64.so.2", "--library-path", libraries, ours]


class OurSide:
    """A compiled program of this repository, on as many processors as there are."""

    def __init__(self, program):
        self.command = our_command(program)
        self.room = tempfile.TemporaryDirectory()
        self.runners = ThreadPoolExecutor(os.cpu_count())

    def answer(self, asked):
        """The lines that our program prints for an input, and what else there is to say of its end."""
        with tempfile.NamedTemporaryFile(dir=self.room.name) as file:
            file.write(asked)
            file.flush()
            try:
                ended = subprocess.run(self.command + [file.name], capture_output=True, timeout=SECONDS)
            except subprocess.TimeoutExpired:
                return f"(no end within {SECONDS} seconds)\n"
        said = ended.stdout.decode(errors="replace")
        return said if ended.returncode == 0 else f"{said}(ended with status {ended.returncode})\n"

    def answers(self, asked):
        """The answers to several inputs, in their order."""
        return self.runners.map(self.answer, asked)
