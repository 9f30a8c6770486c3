"""Puts a block's completed description in place of its source: what is written of it must be the same."""
import collections
import json
import pathlib

from model.simulation import Counts, Mismatch, run

FLAGS = ["-r", "-D", "-j"]


def made_of(program: str, description: str, flag: str, folder: pathlib.Path) -> tuple[str, dict[str, bytes]]:
    """What the program prints with this flag, and the files that it writes into the folder, by their names."""
    folder.mkdir()
    said = run([program, "regtool", flag, "-t", folder.name, description], folder.parent)
    return said, {path.name: path.read_bytes() for path in folder.iterdir()}


def try_completed(program: str, block: str, folder: pathlib.Path) -> Counts:
    """Counts the outputs that are the same of a block's completed description as of its source."""
    sources = {flag: made_of(program, f"{block}.hjson", flag, folder / f"source{flag}") for flag in FLAGS}
    completed = folder / "source-j" / f"{block}.gen.hjson"
    if json.loads(completed.read_text())["name"] != block:
        raise Mismatch(f"{completed.name}: it is not of {block}")
    for flag in FLAGS:
        again = made_of(program, str(completed.relative_to(folder)), flag, folder / f"again{flag}")
        if again != sources[flag]:
            raise Mismatch(f"{completed.name}: regtool {flag} writes something else")
    return collections.Counter(completed=1, again=sum(len(files) for said, files in sources.values()))


def report_completed(counts: Counts) -> None:
    """Prints what was tried at completed descriptions."""
    print(f"completed descriptions: {counts['completed']}, of which {counts['again']} outputs are those of the sources byte for byte")
