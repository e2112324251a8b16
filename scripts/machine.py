"""What the scripts must know of the machine. The library and the programs are for x86-64: on another machine they run
under an emulator (`./thalluscrest run`), C is compiled by Debian's cross compiler, and a count or a time is refused,
since it would be the emulator's. THALLUSCREST_EMULATE=1 asks for all of this on x86-64 too."""

import os
import platform
import shutil
import subprocess
import sys
from pathlib import Path

ROOT = Path(__file__).resolve().parent.parent
# The status of a script that could not do here what it is for, or a part of it: neither good (0) nor bad (1).
NOT_HERE = 77
RUST_TARGET = "x86_64-unknown-linux-gnu"


def emulated():
    """Whether programs for x86-64 run under an emulator here."""
    return platform.machine() != "x86_64" or bool(os.environ.get("THALLUSCREST_EMULATE"))


def end_not_here(script, why):
    """Ends the script in one line that says why."""
    print(f"{script}: not here, where x86-64 is emulated ({platform.machine()}): {why}", file=sys.stderr)
    sys.exit(NOT_HERE)


def figures_only_on_x86_64(script, what):
    """For scripts whose whole result is a count or a time."""
    if emulated():
        end_not_here(script, f"{what} would be the emulator's. Measure on x86-64")


def running(program):
    """The words that run a program for x86-64."""
    return [str(ROOT / "thalluscrest"), "run", str(program)] if emulated() else [str(program)]


def x86_64_tool(script, plain, cross):
    """A tool for x86-64 programs: the plain name here on x86-64, elsewhere the cross compiler's."""
    if not emulated():
        return plain
    if not shutil.which(cross):
        end_not_here(script, f"there is no {cross}. Install Debian's package gcc-x86-64-linux-gnu")
    return cross


def c_compiler(script):
    """The C compiler whose programs the archive links into."""
    return x86_64_tool(script, "cc", "x86_64-linux-gnu-gcc")


def symbol_lister(script):
    """What lists the symbols of the archive."""
    return x86_64_tool(script, "nm", "x86_64-linux-gnu-nm")


def rust_words(script):
    """The words that compile Rust for x86-64, or none where rustc has no library for it."""
    if not emulated():
        return ["rustc"]
    asked = ["rustc", "--print", "target-libdir", "--target", RUST_TARGET]
    try:
        folder = Path(subprocess.run(asked, capture_output=True, text=True, check=True).stdout.strip())
    except (OSError, subprocess.CalledProcessError):
        return []
    if not any(folder.glob("libstd-*")):
        return []
    return ["rustc", "--target", RUST_TARGET, "-C", f"linker={c_compiler(script)}"]
