"""A second reader of sessions: what an input asks for, what each build answers and changes, and how the session ends."""
from __future__ import annotations

import dataclasses
import re

from model.whole_build import Held, built

LIMIT, LONGEST = 67_108_864, 100
NAME = rb"[A-Za-z0-9_.-]{1,64}"
PUT, DEL = re.compile(rb"put (%s) ([0-9]{1,8})" % NAME), re.compile(rb"del (%s)" % NAME)
Files = dict[str, bytes]


@dataclasses.dataclass
class Session:
    """What a session has done: its status, its lines, the changes of the store in order, and the store under the names in its folder."""
    status: int = -1
    output: str = ""
    error: str = ""
    changes: list[str] = dataclasses.field(default_factory=list)
    store: Files = dataclasses.field(default_factory=dict)


def is_command(line: bytes) -> bool:
    """Whether a line, without its line feed, is a command."""
    return line in (b"build", b"end") or PUT.fullmatch(line) is not None or DEL.fullmatch(line) is not None


class Player:
    """Plays the commands of an input."""

    def __init__(self, top: str, folder: str) -> None:
        """Nothing is put yet; the top's file is `top`, and outputs go into `folder`."""
        self.top, self.folder = top, folder
        self.held: Held = {}
        self.good: list[tuple[str, bytes]] = []
        self.good_files: Held = {}
        self.refused = False
        self.done = Session()

    def write(self, name: str, data: bytes) -> None:
        """Writes an output."""
        self.done.store[name] = data
        self.done.changes.append(f"wrote {self.folder}/{name}")

    def build(self) -> None:
        """Builds the files that are held, and changes the store from the last good outputs to the new ones."""
        made = built(self.held, self.top)
        self.refused = bool(made.line)
        if made.line:
            self.done.output += made.line if made.line.endswith("\n") else made.line + "\n"
            return
        before, new = dict(self.good), dict(made.outputs)
        texts = [(name, data) for name, data in made.outputs if name != "manifest.txt"]
        fresh = [(name, data) for name, data in texts if before.get(name) != data]
        stale = [name for name in before if name not in new]
        last = [(name, data) for name, data in made.outputs if name == "manifest.txt" and before.get(name) != data]
        for name, data in fresh:
            self.write(name, data)
        for name in stale:
            del self.done.store[name]
            self.done.changes.append(f"removed {self.folder}/{name}")
        for name, data in last:
            self.write(name, data)
        self.good, self.good_files = made.outputs, dict(self.held)
        self.done.output += f"built {len(fresh) + len(last)} {len(stale)}\n"

    def do(self, line: bytes, body: bytes) -> None:
        """Does a command that does not end the session."""
        if line == b"build":
            self.build()
        elif put := PUT.fullmatch(line):
            self.held[put[1].decode()] = body
        elif gone := DEL.fullmatch(line):
            self.held.pop(gone[1].decode(), None)

    def ends(self, status: int, number: int) -> Session:
        """The session ends with this status at the command of this number."""
        self.done.status = status
        if status == 2:
            self.done.error = f"session command {number} is not a command\n"
        return self.done

    def play(self, data: bytes) -> Session:
        """The whole session of an input."""
        counted, place, number = data[:LIMIT], 0, 1
        short = 6 if len(data) > LIMIT else 2
        while True:
            line, feed, _ = counted[place:place + LONGEST + 1].partition(b"\n")
            if not feed:
                return self.ends(2 if len(line) > LONGEST else short, number)
            if not is_command(line):
                return self.ends(2, number)
            place += len(line) + 1
            if line == b"end":
                return self.ends(1 if self.refused else 0, number)
            size = int(PUT.fullmatch(line)[2]) if line.startswith(b"put ") else 0
            if len(counted) < place + size:
                return self.ends(short, number)
            self.do(line, counted[place:place + size])
            place, number = place + size, number + 1


def played(data: bytes, top: str, folder: str) -> Session:
    """What a session of this input does in an empty store."""
    return Player(top, folder).play(data)
