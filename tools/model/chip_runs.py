"""Runs `topgen` of the built program on files in a folder, and compares what it says and writes with what is wanted."""
from __future__ import annotations

import dataclasses
import pathlib
import shutil
import subprocess

from model.whole_build import Built, Held, built

SECONDS, SHOWN = 600, 4000
OUT = "out"


@dataclasses.dataclass(frozen=True)
class Said:
    """What a run ends with, says and writes."""
    status: int
    output: str
    error: str
    outputs: dict[str, bytes]


def wanted(made: Built) -> Said:
    """What a run is to end with, to say and to write."""
    if made.line:
        return Said(1, "", made.line, {})
    return Said(0, f"built {len(made.outputs)} 0\n", "", dict(made.outputs))


def said(program: pathlib.Path, folder: pathlib.Path, held: Held, file: str, workers: int) -> Said:
    """What the program makes of these files, which are written below the folder."""
    for name, given in held.items():
        path = folder / name
        path.parent.mkdir(parents=True, exist_ok=True)
        path.write_bytes(given)
    out = folder / OUT
    shutil.rmtree(out, ignore_errors=True)
    out.mkdir()
    words = [str(program), "topgen", "-t", file, "-o", OUT, "-w", str(workers)]
    run = subprocess.run(words, cwd=folder, stdin=subprocess.DEVNULL, capture_output=True, timeout=SECONDS)
    outputs = {path.name: path.read_bytes() for path in out.iterdir()}
    return Said(run.returncode, run.stdout.decode(errors="replace"), run.stderr.decode(errors="replace"), outputs)


def first_difference(name: str, found: bytes, expected: bytes) -> str:
    """The first line in which two texts differ."""
    lines, others = found.split(b"\n"), expected.split(b"\n")
    for count, (line, other) in enumerate(zip([*lines, b"(end)"], [*others, b"(end)"]), 1):
        if line != other:
            return f"{name}: line {count} is {line.decode(errors='replace')!r}, wanted {other.decode(errors='replace')!r}"
    return f"{name}: one is longer"


def difference(found: Said, expected: Said) -> str:
    """How what a run says and writes differs from what is wanted; nothing where it does not."""
    if (found.status, found.output, found.error) != (expected.status, expected.output, expected.error):
        return (f"status {found.status}, wanted {expected.status}; output {found.output!r}, wanted {expected.output!r}; "
                f"error {found.error!r}, wanted {expected.error!r}")
    for name in sorted(found.outputs.keys() | expected.outputs.keys()):
        if name not in found.outputs:
            return f"{name}: not written"
        if name not in expected.outputs:
            return f"{name}: written, and not wanted"
        if found.outputs[name] != expected.outputs[name]:
            return first_difference(name, found.outputs[name], expected.outputs[name])
    return ""


def shown(held: Held) -> str:
    """The files, one after the other, as far as there is room."""
    pieces = [f"---- {name}, {len(given)} bytes\n{given[:SHOWN].decode(errors='replace')}\n" for name, given in held.items()]
    return "".join(pieces)[:SHOWN]


def completed(held: Held, file: str, made: Built) -> Held:
    """The files with the completed descriptions in place of their sources."""
    folder, outputs = file[:file.rfind("/") + 1], dict(made.outputs)
    top = outputs["manifest.txt"].split(b"\n")[0].decode().removeprefix("top ")
    changed = {file: outputs[f"top_{top}.gen.hjson"]}
    for name, given in outputs.items():
        if name.endswith(".gen.hjson") and name != f"top_{top}.gen.hjson":
            changed[f"{folder}{name.removesuffix('.gen.hjson')}.hjson"] = given
    return held | changed


@dataclasses.dataclass
class Trials:
    """Runs of one program below one folder: how often each rule was told, and what first differed.

    Counted besides are the tops that were built again of completed descriptions, and those that were not, as their file is one of their blocks' too.
    """
    program: pathlib.Path
    folder: pathlib.Path
    counts: dict[str, int] = dataclasses.field(default_factory=dict)
    told: str = ""
    again: int = 0
    own_blocks: int = 0

    def same(self, title: str, held: Held, file: str, made: Built, workers: int) -> bool:
        """Whether the program makes of the files what is wanted. Else it is told, and the files stay in a folder of this title."""
        below = self.folder / title
        below.mkdir(parents=True)
        self.told = difference(said(self.program, below, held, file, workers), wanted(made))
        if self.told:
            self.told = f"{title}: topgen -t {file} -o {OUT} -w {workers}: {self.told}\nIts files are in {below}:\n{shown(held)}"
            return False
        shutil.rmtree(below)
        return True

    def tried(self, title: str, held: Held, file: str, workers: int) -> bool:
        """Whether the program makes of a top what the model makes of it; and the same bytes of its completed descriptions, if it builds."""
        made = built(held, file)
        kind = made.line.split(": ")[1] if made.line else "built"
        self.counts[kind] = self.counts.get(kind, 0) + 1
        if not self.same(title, held, file, made, workers):
            return False
        if made.line:
            return True
        if is_its_own_block(file, made):
            self.own_blocks += 1
            return True
        self.again += 1
        return self.same(f"{title}-completed", completed(held, file, made), file, made, workers)


def is_its_own_block(file: str, made: Built) -> bool:
    """Whether the top's file is one of its blocks' too: then a completed description in its place is another's too."""
    stem = file[file.rfind("/") + 1:].removesuffix(".hjson")
    return any(name == f"{stem}.gen.hjson" for name, _ in made.outputs)
