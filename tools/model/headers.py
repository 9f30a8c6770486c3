"""Has compilers of C and C++ read a block's header, with each of its constants in use."""
import collections
import pathlib
import re
import shutil
import subprocess

from model.simulation import Counts, Mismatch, SECONDS, run

CONSTANT = re.compile(r"^#define (\w+) \w+$", re.MULTILINE)
LANGUAGES = {"cc": "c", "c++": "c++"}
WARNINGS = ["-Wall", "-Wextra", "-Wpedantic", "-Werror"]
USAGE_STATUS = 2


def compilers() -> list[str]:
    """The compilers that are there, in the order in which they are tried."""
    return [name for name in LANGUAGES if shutil.which(name)]


def written_header(program: str, block: str, folder: pathlib.Path) -> pathlib.Path | None:
    """The path of the header that the program writes for a block; None where it answers that it has no such command."""
    path = folder / f"{block}_regs.h"
    words = [program, "regtool", "-D", "-t", ".", f"{block}.hjson"]
    done = subprocess.run(words, cwd=folder, stdin=subprocess.DEVNULL, capture_output=True, text=True, timeout=SECONDS)
    if done.returncode == USAGE_STATUS:
        return None
    if done.returncode != 0 or done.stdout != "built 1 0\n" or not path.exists():
        raise Mismatch(f"header: status {done.returncode}, {done.stdout!r}, {done.stderr!r}")
    return path


def source_of(header: str, constants: list[str]) -> str:
    """A source that includes the header twice, and uses each constant."""
    values = "".join(f"  {name},\n" for name in constants)
    return (f'#include "{header}"\n' * 2
            + f"extern const unsigned long long values[{len(constants)}];\n"
            + f"const unsigned long long values[{len(constants)}] = {{\n{values}}};\n")


def compile_header(path: pathlib.Path, folder: pathlib.Path) -> Counts:
    """Counts the compilers that take the header, and its constants."""
    constants = CONSTANT.findall(path.read_text())
    if not constants:
        raise Mismatch(f"{path.name}: it has no constant")
    source = folder / f"{path.stem}.c"
    source.write_text(source_of(path.name, constants))
    for name in compilers():
        run([name, "-x", LANGUAGES[name], *WARNINGS, "-c", source.name, "-o", f"{path.stem}.o"], folder)
    return collections.Counter(compilers(), constants=len(constants))


def try_header(program: str, block: str, folder: pathlib.Path) -> Counts:
    """Counts what is tried at a block's header, or that the program does not write one."""
    path = written_header(program, block, folder)
    if path is None:
        return collections.Counter({"headers not written": 1})
    return collections.Counter(headers=1) + compile_header(path, folder)


def report_headers(counts: Counts) -> None:
    """Prints what was tried at headers, and what was skipped."""
    if counts["headers not written"]:
        print(f"headers: skipped at {counts['headers not written']} blocks, the program does not write them yet")
    if counts["headers"]:
        print(f"headers written: {counts['headers']}, with {counts['constants']} constants")
        for name in LANGUAGES:
            told = f"{counts[name]} headers accepted with {' '.join(WARNINGS)}"
            print(f"{name}: {told if name in compilers() else 'skipped, it is not installed'}")
