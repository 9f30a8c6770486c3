"""What `topgen` makes of a top with its files, from their bytes on: the line of the first fault, or all outputs."""
from __future__ import annotations

import dataclasses
import hashlib

from model.block_header import block_header
from model.chips import Chip
from model.crossbar_text import declared, first_repeat, module_text
from model.document import Value, read
from model.forms import listed, text
from model.full import completed_text, full_block
from model.full_top import completed_top
from model.joined import (LARGEST, LARGEST_OF_ALL, PHRASES, Fault, Whole, bad_ranges, block_broken, circles, crossbar_broken, first, node_joins,
                          top_joins, whole_of)
from model.layout import interfaces
from model.pins import broken, pins_of
from model.register_text import module_name, register_text
from model.rules import clash
from model.sources import Files, too_many, without_source
from model.top_header import header_names, top_header
from model.top_text import connected_ports, module_names, output_names, top_names, top_text
from model.tops import top_broken

# the names of files with their bytes
Held = dict[str, bytes]
# phase, place, rule, name
Broken = tuple[int, int, int, str]
CLASH = 70


@dataclasses.dataclass(frozen=True)
class Built:
    """What a run makes: the line of the first fault, or the outputs in the order of writing, without the output folder, and what they are of."""
    line: str
    outputs: list[tuple[str, bytes]]
    chip: Chip | None = None


@dataclasses.dataclass(frozen=True)
class Read:
    """A file that is read: its name, what of its bytes are characters, and its tree, or what it breaks instead."""
    name: str
    text: str
    root: Value | None
    broken: list[Broken]
    size: int


# ---- reading

def good_prefix(given: bytes) -> tuple[str, bool]:
    """The characters up to the first byte that is none, and whether they are all."""
    try:
        return given.decode(), True
    except UnicodeDecodeError as error:
        return given[:error.start].decode(), False


def read_file(held: Held, name: str, before: int) -> Read:
    """The file of this name, before which files of so many bytes stand."""
    given = held.get(name)
    if given is None:
        return Read(name, "", None, [(0, 0, 10, "")], 0)
    if len(given) > LARGEST or before + len(given) > LARGEST_OF_ALL:
        return Read(name, "", None, [(0, 0, 11, "")], len(given))
    characters, is_text = good_prefix(given)
    if not is_text:
        return Read(name, characters, None, [(0, len(characters), 12, "")], len(given))
    root, failed = read(characters)
    return Read(name, characters, root, [] if failed is None else [(1, failed[1], failed[0], "")], len(given))


def line_of(files: list[Read], fault: Fault) -> str:
    """The line of a fault."""
    _, file, place, rule, name = fault
    before = files[file].text[:place]
    told = f"{files[file].name}:{before.count(chr(10)) + 1}:{len(before) - before.rfind(chr(10))}: fault {rule}: {PHRASES[rule]}"
    return told + (f": {name}" if name else "") + "\n"


def refused(files: list[Read], faults: list[Fault]) -> Built:
    """The line of the first of faults."""
    return Built(line_of(files, first(faults)), [])


# ---- names that clash

def top_lists(chip: Chip) -> list[list[str]]:
    """The lists of a top of which none may have a name twice."""
    return [module_names(chip), output_names(chip), *connected_ports(chip), top_names(chip), header_names(chip)]


def clashes(chip: Chip) -> list[Fault]:
    """The first name that comes twice, in each of the files."""
    crossbars = [[declared(chip.crossbar(count))] for count in range(len(chip.whole.crossbars))]
    made: list[Fault] = []
    for file, lists in enumerate([top_lists(chip), *crossbars]):
        repeats = [repeat for repeat in map(first_repeat, lists) if repeat is not None]
        root = chip.files.crossbars[file - 1] if file else chip.files.top
        made += [(12, file, root.place, CLASH, repeats[0])] if repeats else []
    for file, kind in enumerate(chip.kinds, len(crossbars) + 1):
        made += [(phase, file, place, rule, name) for phase, place, rule, name in clash(chip.files.blocks[kind])]
    return made


# ---- outputs

def block_outputs(block: Value) -> dict[str, str]:
    """The texts that are written of a block."""
    name, faces = text(block, "name"), interfaces(full_block(block))
    made = {f"{module_name(name, face)}.sv": register_text(name, face) for face in faces}
    return made | {f"{name}_regs.h": block_header(name, faces), f"{name}.gen.hjson": completed_text(block)[1]}


def outputs(chip: Chip) -> list[tuple[str, bytes]]:
    """All outputs by name, the manifest last."""
    completed, said = completed_top(chip.files.top)
    texts = {f"top_{chip.name}.sv": top_text(chip), f"top_{chip.name}.h": top_header(chip), f"{completed}.gen.hjson": said}
    for count, crossbar in enumerate(chip.whole.crossbars):
        texts[f"xbar_{crossbar.name}.sv"] = module_text(chip.crossbar(count))
    for kind in chip.kinds:
        texts |= block_outputs(chip.files.blocks[kind])
    made = [(name, texts[name].encode()) for name in sorted(texts, key=str.encode)]
    digests = [f"{hashlib.sha256(given).hexdigest()} {name}\n" for name, given in made]
    return [*made, ("manifest.txt", "".join([f"top {chip.name}\n", *digests]).encode())]


# ---- the whole

def later_faults(whole: Whole, chip: Chip) -> list[Fault]:
    """What is broken of the first phase of which anything is, from the one that joins files on."""
    return (top_joins(whole) + node_joins(whole) or circles(whole) or bad_ranges(whole) or too_many(chip.files) or without_source(chip.files)
            or broken(chip.pins) or clashes(chip))


def built(held: Held, file: str) -> Built:
    """What `topgen` makes of the top in this file, which stands in a folder with all others; `held` are the files by their whole names."""
    folder = file[:file.rfind("/") + 1]
    top = read_file(held, file, 0)
    found = top.broken or top_broken(top.root)
    if found:
        return refused([top], [(phase, 0, place, rule, name) for phase, place, rule, name in found])
    listings = [text(use, "name") for use in listed(top.root, "xbar")]
    kinds = list(dict.fromkeys(text(instance, "type") for instance in listed(top.root, "module")))
    files, faults = [top], []
    for count, (stem, wanted) in enumerate([(f"xbar_{name}", name) for name in listings] + [(kind, kind) for kind in kinds], 1):
        one = read_file(held, f"{folder}{stem}.hjson", sum(other.size for other in files))
        judge = block_broken if count > len(listings) else crossbar_broken
        files.append(one)
        faults += [(phase, count, place, rule, name) for phase, place, rule, name in one.broken or judge(one.root, wanted)]
    if faults:
        return refused(files, faults)
    roots = [one.root for one in files[1:]]
    described = Files(top.root, roots[:len(listings)], dict(zip(kinds, roots[len(listings):])))
    whole = whole_of(described.top, described.crossbars, described.blocks)
    chip = Chip(described, whole, pins_of(described.top, described.blocks))
    later = later_faults(whole, chip)
    return refused(files, later) if later else Built("", outputs(chip), chip)
