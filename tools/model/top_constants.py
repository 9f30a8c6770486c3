"""Checks the constants of a top's header and of its blocks' headers against the address map, by programs in C and C++ that have all of them."""
from __future__ import annotations

import collections
import pathlib
import re

from model.chips import Chip, SourceBit
from model.full import full_block
from model.headers import LANGUAGES, WARNINGS, compilers
from model.layout import Field, Interface, Register, Row, interfaces
from model.maps import rows
from model.pins import Bit
from model.simulation import Counts, Mismatch, run

CONSTANT = re.compile(r"^#define (\w+) \w+$", re.MULTILINE)
STANDARDS = {"cc": "-std=c99", "c++": "-std=c++11"}
# an expression in C, and the value that it has to have
Check = tuple[str, int]
PLACE = re.compile(r"(register|word) (\w+?)(?::(\d+))? (\d+)(?: \d+)?")


# ---- one block

def prefix_of(kind: str, face: Interface) -> str:
    """How the names of an interface's constants begin."""
    return (kind if face.name is None else f"{kind}_{face.name}").upper()


def field_checks(start: str, field: Field) -> list[Check]:
    """The constants of a field, and the bits that they make together."""
    name, bits = f"{start}_{field.name.upper()}", field.ones << field.low
    if field.width == 1:
        return [(f"{name}_BIT", field.low), (f"1ULL << {name}_BIT", bits)]
    return [(f"{name}_MASK", field.ones), (f"{name}_OFFSET", field.low), (f"(unsigned long long){name}_MASK << {name}_OFFSET", bits)]


def row_checks(prefix: str, row: Row) -> list[Check]:
    """The constants of a register or of a window."""
    start = f"{prefix}_{row.name.upper()}"
    made: list[Check] = [(f"{start}_REG_OFFSET", row.offset)]
    if not isinstance(row, Register):
        return [*made, (f"{start}_SIZE_WORDS", row.words), (f"{start}_SIZE_BYTES", 4 * row.words)]
    made.append((f"{start}_REG_RESVAL", sum(field.reset << field.low for field in row.fields)))
    return made + [check for field in row.fields for check in field_checks(start, field)]


def block_checks(kind: str, faces: list[Interface]) -> list[Check]:
    """The constants of a block's header."""
    made: list[Check] = [(f"{kind.upper()}_PARAM_REG_WIDTH", 32)]
    return made + [check for face in faces for row in face.rows for check in row_checks(prefix_of(kind, face), row)]


# ---- the top

def bit_name(owner: str, name: str, width: int, bit: int) -> str:
    """The name of a bit of an instance's interrupt, alert or pin."""
    return f"{owner}_{name}" + ("" if width == 1 else f"_{bit}")


def source_checks(kind: str, sources: list[SourceBit], first: int) -> list[Check]:
    """The numbers of interrupts or alerts: their places in the vector."""
    return [(f"{kind}_{bit_name(*source)}", number) for number, source in enumerate(sources, first)]


def pin_checks(chip: Chip, kind: str, bits: dict[Bit, int]) -> list[Check]:
    """The numbers of pins: their places in `mio_in` or `mio_out`."""
    named = [(chip.pins.instances[bit.instance][0], chip.pins.port(bit), bit.bit, number) for bit, number in bits.items()]
    return [(f"{kind}_{bit_name(owner, port.name, port.width, bit)}", number) for owner, port, bit, number in named]


def top_checks(chip: Chip) -> list[Check]:
    """The constants of the top's header."""
    made: list[Check] = []
    for instance in chip.whole.instances:
        for number, face in enumerate(instance.faces):
            name = instance.name if face.name is None else f"{instance.name}_{face.name}"
            made += [(f"{name}_BASE_ADDR", chip.whole.base(instance, number)), (f"{name}_SIZE_BYTES", face.size)]
    made += source_checks("IRQ", chip.interrupts, 1) + source_checks("ALERT", chip.alerts, 0)
    made += pin_checks(chip, "MIO_IN", chip.muxed_in) + pin_checks(chip, "MIO_OUT", chip.muxed_out)
    return [(f"TOP_{chip.name}_{name}".upper(), value) for name, value in made]


# ---- both together

def map_checks(chip: Chip, faces: dict[str, list[Interface]]) -> list[Check]:
    """For each row of the address map that is an instance's: the base and the offset make its address, and a window's size its last one."""
    kinds = {instance.name: block.member("name").data for instance, (_, block) in zip(chip.whole.instances, chip.files.instances())}
    made: list[Check] = []
    for _, first, last, place in rows(chip.whole):
        found = PLACE.fullmatch(place)
        if found is None:
            continue
        owner, kind = found[2], kinds[found[2]]
        face = faces[kind][int(found[3] or 0)]
        row, name = face.rows[int(found[4])], owner if face.name is None else f"{owner}_{face.name}"
        start = f"{prefix_of(kind, face)}_{row.name.upper()}"
        address = "(unsigned long long)" + f"TOP_{chip.name}_{name}_BASE_ADDR".upper()
        made.append((f"{address} + {start}_REG_OFFSET", first))
        made += [(f"{address} + {start}_REG_OFFSET + {start}_SIZE_BYTES - 1", last)] if found[1] == "word" else []
    return made


def source_of(headers: list[str], checks: list[Check]) -> str:
    """A program that includes each header twice, and names each expression that has another value."""
    included = "".join(f'#include "{header}"\n' for header in [*headers, *headers])
    tried = "".join(f'  wrong += differs("{made}", {made}, {value}ULL);\n' for made, value in checks)
    return f"""#include <stdio.h>
{included}
static int differs(const char *made, unsigned long long got, unsigned long long wanted) {{
  if (got == wanted) return 0;
  printf("%s: 0x%llx, wanted 0x%llx\\n", made, got, wanted);
  return 1;
}}

int main(void) {{
  int wrong = 0;
{tried}  return wrong != 0;
}}
"""


def names_checked(name: str, text: str, checks: list[Check]) -> int:
    """How many constants a header has, which must be just those that are checked."""
    found, wanted = CONSTANT.findall(text), [made for made, _ in checks if " " not in made]
    if sorted(found) != sorted(wanted):
        raise Mismatch(f"{name}: its constants are not those wanted: {sorted(set(found) ^ set(wanted))}")
    return len(found)


def check_headers(chip: Chip, folder: pathlib.Path) -> Counts:
    """Counts the constants of all headers in the folder, and the expressions that the programs find as wanted."""
    faces = {kind: interfaces(full_block(chip.files.blocks[kind])) for kind in chip.kinds}
    by_header = {f"top_{chip.name}.h": top_checks(chip)} | {f"{kind}_regs.h": block_checks(kind, faces[kind]) for kind in chip.kinds}
    counts: Counts = collections.Counter(headers=len(by_header))
    for name, checks in by_header.items():
        counts["constants"] += names_checked(name, (folder / name).read_text(), checks)
    checks = [check for found in by_header.values() for check in found] + map_checks(chip, faces)
    (folder / "headers.c").write_text(source_of(list(by_header), checks))
    for name in compilers():
        run([name, "-x", LANGUAGES[name], STANDARDS[name], *WARNINGS, "headers.c", "-o", "headers"], folder)
        run(["./headers"], folder)
        counts[f"expressions in {name}"] += len(checks)
    return counts
