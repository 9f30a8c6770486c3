"""Tables of rows as the programs of rows take them, and what such a program tells of one."""
import pathlib
import subprocess
import tempfile
import time

PICTURES = {"\n": "\u240a", "\r": "\u240d", "\t": "\u2409", " ": "\u2420", "\x7f": "\u2421"}
# what is given, and what is wanted of it
Row = tuple[str, str]


def pictured(text: str) -> str:
    """The text as a table has it: each control character and each blank as its picture."""
    return "".join(PICTURES.get(character, character) for character in text)


def table_of(rows: list[Row]) -> str:
    """The table of these rows."""
    return "".join(f"{pictured(given)} \u21d2 {pictured(wanted)}\n" for given, wanted in rows)


def differing(program: pathlib.Path, table: str, rows: list[Row]) -> tuple[str, float]:
    """What the program tells where rows of its table of this name differ, else nothing; and the seconds that it took."""
    with tempfile.TemporaryDirectory(prefix="rows-") as work:
        (pathlib.Path(work) / table).write_text(table_of(rows))
        begun = time.perf_counter()
        run = subprocess.run([program], cwd=work, stdin=subprocess.DEVNULL, capture_output=True, text=True, timeout=600)
        seconds = time.perf_counter() - begun
    fits = f"{table}: {len(rows)} rows" in run.stdout and ": gives" not in run.stdout
    return ("" if fits else run.stdout or run.stderr or "nothing told"), seconds
