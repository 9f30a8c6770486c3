"""Has other tools take what is written of a top: Icarus Verilog, Verilator and Yosys its texts, with stubs of its cores, and `sha256sum` its manifest."""
from __future__ import annotations

import collections
import pathlib
import shutil

from model.chip_runs import completed, is_its_own_block
from model.simulation import Counts, Mismatch, run
from model.top_bench import PARTS, Bench
from model.whole_build import Built, Held

# style alone, in the texts or in the stubs and parts: clocks and bits that nothing uses, several modules in a file, integers inside parts
WAIVED = ["-Wno-UNUSED", "-Wno-DECLFILENAME", "-Wno-WIDTH"]
# beside these, of a top with an interface in no crossbar: ports that are not connected
LOOSE = ["-Wno-PINMISSING"]
TOOLS = ["iverilog", "verilator", "yosys"]


def words_of(bench: Bench, texts: list[pathlib.Path]) -> dict[str, list[str]]:
    """The words of each tool that is there, for the texts of a top with the stubs of its cores."""
    top, files = f"top_{bench.chip.name}", [*map(str, texts), "stubs.sv", *map(str, PARTS)]
    waived = WAIVED + (LOOSE if bench.loose else [])
    words = {
        "iverilog": ["iverilog", "-t", "null", "-g2012", "-Wall", "-Wno-timescale", "-s", top, *files],
        "verilator": ["verilator", "--lint-only", "-Wall", *waived, "--top-module", top, *files],
        "yosys": ["yosys", "-q", "-p", f"read_verilog -sv {' '.join(files)}; hierarchy -check -top {top}; proc; check -assert"],
    }
    return {name: made for name, made in words.items() if shutil.which(name)}


def check_texts(bench: Bench, texts: list[pathlib.Path], folder: pathlib.Path) -> Counts:
    """Counts the tools that take all texts of a top."""
    (folder / "stubs.sv").write_text(bench.stubs())
    counts: Counts = collections.Counter()
    for name, words in words_of(bench, texts).items():
        run(words, folder)
        counts[f"tops in {name}"] += 1
    return counts


def check_manifest(folder: pathlib.Path, outputs: dict[str, bytes], top: str) -> Counts:
    """Counts the files of a manifest, which must be all others, and whose sums `sha256sum` must find."""
    first, *lines = outputs["manifest.txt"].decode().splitlines(keepends=True)
    named = [line.partition(" ")[2].removesuffix("\n") for line in lines]
    if first != f"top {top}\n" or named != sorted(outputs.keys() - {"manifest.txt"}, key=str.encode):
        raise Mismatch(f"manifest.txt: it is not of {top} and of all outputs")
    if shutil.which("sha256sum") is None:
        return collections.Counter({"manifests that sha256sum was not there for": 1})
    (folder / "sums.txt").write_text("".join(lines))
    run(["sha256sum", "-c", "--strict", "--quiet", "sums.txt"], folder)
    return collections.Counter({"sums": len(lines)})


def check_completed(outputs: dict[str, bytes], again: dict[str, bytes]) -> Counts:
    """Counts the outputs that are the same bytes of completed descriptions in place of their sources."""
    differing = sorted(name for name in outputs.keys() | again.keys() if outputs.get(name) != again.get(name))
    if differing:
        raise Mismatch(f"of completed descriptions in place of their sources {differing[0]} is another")
    return collections.Counter({"outputs again of completed descriptions": len(outputs)})


def with_completed(held: Held, file: str, outputs: dict[str, bytes]) -> Held | None:
    """The files with the completed descriptions in place of their sources; none where a file is the top's and a block's."""
    made = Built("", list(outputs.items()))
    return None if is_its_own_block(file, made) else completed(held, file, made)
