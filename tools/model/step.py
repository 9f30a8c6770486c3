"""What a register block does in a clock, and the ports that its module has."""
import dataclasses

from model.layout import Field, Interface, Register, Row, Window

# direction, width, name
Port = tuple[str, int, str]
# width, name
Input = tuple[int, str]
ALL_ONES = 0xFFFFFFFF
BUS_PORTS: list[Port] = [
    ("input", 1, "clk_i"), ("input", 1, "rst_ni"), ("input", 1, "reg_we"), ("input", 1, "reg_re"),
    ("input", 32, "reg_addr"), ("input", 32, "reg_wdata"), ("input", 4, "reg_be"),
    ("output", 32, "reg_rdata"), ("output", 1, "reg_error"),
]


@dataclasses.dataclass
class Clock:
    """A clock's inputs: reset, an access, and what hardware brings to each input net of its own."""
    rst_ni: int = 1
    reg_we: int = 0
    reg_re: int = 0
    reg_addr: int = 0
    reg_wdata: int = 0
    reg_be: int = 0
    hardware: dict[str, int] = dataclasses.field(default_factory=dict)

    def __str__(self) -> str:
        """The clock's access, and whether it is in reset."""
        access = "write of {0:#x}" if self.reg_we else "read" if self.reg_re else "no access, {0:#x}"
        reset = "" if self.rst_ni else ", in reset"
        return f"{access.format(self.reg_wdata)} at {self.reg_addr:#x}, strobes {self.reg_be:04b}{reset}"

    def value(self, net: str) -> int:
        """What the input net holds."""
        return self.hardware[net] if net in self.hardware else getattr(self, net)


def hardware_ports(interface: Interface) -> list[Port]:
    """The ports to hardware, row by row."""
    ports = []
    for row in interface.rows:
        if isinstance(row, Register):
            for field in row.fields:
                ports += field_ports(row, field)
            ports += update_ports(row)
        else:
            ports += window_ports(row)
    return ports


def update_ports(row: Register) -> list[Port]:
    """The port that shows the update error of a shadowed register; other registers have none."""
    return [("output", 1, f"upd_{row.name.lower()}_err")] if row.shadowed else []


def window_ports(row: Window) -> list[Port]:
    """The ports of a window."""
    net = f"win_{row.name.lower()}"
    return [("output", 1, f"{net}_we"), ("output", 1, f"{net}_re"), ("output", 32, f"{net}_addr"),
            ("output", 32, f"{net}_wdata"), ("output", 4, f"{net}_be"), ("input", 32, f"{net}_rdata")]


def field_ports(row: Register, field: Field) -> list[Port]:
    """The ports of a field, those of `_q`, `_qe`, `_re`, `_d` and `_de` that it has."""
    if field.external:
        kinds = {"q": field.writable, "qe": field.writable, "re": field.readable, "d": field.readable, "de": False}
    else:
        kinds = {"q": field.seen, "qe": row.write_strobe, "re": row.read_strobe, "d": field.driven, "de": field.driven}
    widths = {"q": field.width, "d": field.width}
    return [("input" if kind in {"d", "de"} else "output", widths.get(kind, 1), f"{field.net}_{kind}")
            for kind, there in kinds.items() if there]


def stored_fields(interface: Interface) -> list[Field]:
    """The fields that the block itself stores."""
    return [field for row in interface.rows if isinstance(row, Register) for field in row.fields if not field.external]


def target(interface: Interface, address: int) -> Row | None:
    """The row that an address reaches, if any."""
    word = address & ~3
    for row in interface.rows:
        if row.offset <= word < row.offset + 4 * row.words:
            return row
    return None


def accepted(row: Row | None, clock: Clock) -> bool:
    """Whether the access of a clock is done at its row."""
    if row is None or not (clock.reg_we or clock.reg_re):
        return False
    if isinstance(row, Register):
        needed = (1 << row.bytes_needed) - 1
        return bool(clock.reg_re) or clock.reg_be & needed == needed
    if clock.reg_re:
        return row.software != "wo"
    return row.software != "ro" and (row.byte_write or clock.reg_be == 0b1111)


def shadowed_rows(interface: Interface) -> dict[int, Register]:
    """The shadowed registers, by the numbers of their rows."""
    return {number: row for number, row in enumerate(interface.rows) if isinstance(row, Register) and row.shadowed}


class Block:
    """The values of an interface's stored fields, as they stand before a clock, and what shadowed registers keep: the
    staged value of each field, and the phase, which is 1 after a first write."""

    def __init__(self, interface: Interface) -> None:
        """The block with each field at its reset value."""
        self.interface = interface
        self.stored = stored_fields(interface)
        self.outputs = {name for direction, _, name in hardware_ports(interface) if direction == "output"}
        self.shadowed = shadowed_rows(interface)
        self.values: dict[Field, int] = {}
        self.staged: dict[Field, int] = {}
        self.phases: dict[int, int] = {}
        self.reset()

    def reset(self) -> None:
        """Each field has its reset value, nothing is staged, and each phase is 0."""
        self.values = {field: field.reset for field in self.stored}
        self.staged = {field: 0 for row in self.shadowed.values() for field in row.fields}
        self.phases = {number: 0 for number in self.shadowed}

    def effect(self, clock: Clock) -> tuple[Row | None, Row | None]:
        """The row that is written with effect, and the row that is read, each None where there is none."""
        row = target(self.interface, clock.reg_addr)
        if not accepted(row, clock):
            return None, None
        if clock.reg_re:
            return None, row
        is_open = not isinstance(row, Register) or row.gate is None or self.values[row.gate] != 0
        return row if is_open else None, None

    def is_equal(self, row: Register, clock: Clock) -> bool:
        """Whether every field's written value is its staged one."""
        return all((clock.reg_wdata >> field.low) & field.ones == self.staged[field] for field in row.fields)

    def update(self, number: int, clock: Clock) -> str | None:
        """What a write with effect at the shadowed register of this row does: it stages, commits or fails."""
        row = self.shadowed[number]
        if self.effect(clock)[0] is not row:
            return None
        if not self.phases[number]:
            return "stages"
        return "commits" if self.is_equal(row, clock) else "fails"

    def changes_fields(self, number: int, clock: Clock) -> bool:
        """Whether a write changes the fields of the register of this row."""
        if number in self.shadowed:
            return self.update(number, clock) == "commits"
        return self.effect(clock)[0] is self.interface.rows[number]

    def word(self, row: Row, clock: Clock) -> int:
        """What a read of the row shows."""
        if not isinstance(row, Register):
            return clock.value(f"win_{row.name.lower()}_rdata")
        shown = 0
        for field in row.fields:
            if field.readable:
                value = clock.value(f"{field.net}_d") if field.external else self.values[field]
                shown |= value << field.low
        return shown

    def answer(self, clock: Clock) -> tuple[int, int | None]:
        """Whether the clock's access is an error, and its read data, or None where nothing is said of them."""
        row = target(self.interface, clock.reg_addr)
        if (clock.reg_we or clock.reg_re) and not accepted(row, clock):
            return 1, ALL_ONES
        return 0, self.word(row, clock) if clock.reg_re else None

    def views(self, clock: Clock) -> dict[str, int]:
        """What hardware sees in the clock, by the nets' names."""
        written, read = self.effect(clock)
        seen = {}
        for number, row in enumerate(self.interface.rows):
            strobes = int(row is written), int(row is read)
            if isinstance(row, Register):
                if number in self.shadowed:
                    seen[f"upd_{row.name.lower()}_err"] = int(self.update(number, clock) == "fails")
                strobes = int(self.changes_fields(number, clock)), int(row is read)
                for field in row.fields:
                    value = (clock.reg_wdata >> field.low) & field.ones if field.external else self.values[field]
                    seen.update(zip([f"{field.net}_q", f"{field.net}_qe", f"{field.net}_re"], [value, *strobes]))
            else:
                nets = [f"win_{row.name.lower()}_{kind}" for kind in ["we", "re", "addr", "wdata", "be"]]
                seen.update(zip(nets, [*strobes, clock.reg_addr, clock.reg_wdata, clock.reg_be]))
        return {net: value for net, value in seen.items() if net in self.outputs}

    def pass_clock(self, clock: Clock) -> None:
        """Each stored field takes its next value."""
        if not clock.rst_ni:
            self.reset()
            return
        read = self.effect(clock)[1]
        following = {}
        for number, row in enumerate(self.interface.rows):
            for field in row.fields if isinstance(row, Register) else []:
                if not field.external:
                    following[field] = self.next_value(field, self.changes_fields(number, clock), row is read, clock)
        updates = {number: self.update(number, clock) for number in self.shadowed}
        for number, row in self.shadowed.items():
            if updates[number] == "stages":
                self.staged |= {field: (clock.reg_wdata >> field.low) & field.ones for field in row.fields}
                self.phases[number] = 1
            elif updates[number] is not None or row is read:
                self.phases[number] = 0
        self.values = following

    def next_value(self, field: Field, written: bool, read: bool, clock: Clock) -> int:
        """The value of a stored field after the clock: hardware's or its own, then changed by software's access."""
        held = self.values[field]
        if field.driven and clock.value(f"{field.net}_de"):
            held = clock.value(f"{field.net}_d")
        data = (clock.reg_wdata >> field.low) & field.ones
        if field.software == "rc":
            return 0 if read else held
        if not written:
            return held
        match field.software:
            case "rw" | "wo":
                return data
            case "rw1s":
                return held | data
            case "rw1c" | "r0w1c":
                return held & ~data
            case "rw0c":
                return held & data
            case _:
                return held
