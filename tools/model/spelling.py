"""Spells descriptions as JSON, or as Hjson in one of its many ways."""
import json
import random
import re

from model.trees import Json, Object

COMMENTS = ["# a comment\n", "// registers: []\n", "/* { */", "/* two\n lines */"]
PLAIN = re.compile(r"(?!(true|false|null)$)[A-Za-z_][A-Za-z0-9_]*|[0-9]+:[0-9]+")


class Spelled(str):
    """A value that is spelled as it stands."""


class Doubled(dict[str, Json]):
    """An object that has some members twice: `again` are those that stand once more."""

    def __init__(self, members: Object, again: list[tuple[str, Json]]) -> None:
        """An object of these members, of which those of `again` are spelled behind them."""
        super().__init__(members)
        self.again = again

    def items(self) -> list[tuple[str, Json]]:
        """The members, and then those that stand once more."""
        return [*super().items(), *self.again]


def json_text(description: Object) -> str:
    """The description as JSON."""
    return json.dumps(description, indent=1) + "\n"


def hjson_text(description: Object, chance: random.Random) -> str:
    """The description as Hjson, each part spelled in a way that chance chooses."""
    return gap(chance) + value_text(description, chance) + gap(chance)


def gap(chance: random.Random) -> str:
    """Blanks, now and then with a comment."""
    if chance.random() < 0.06:
        return " " + chance.choice(COMMENTS)
    return chance.choice(["", " ", "\n", "\r\n", "\t "])


def closed(text: str, chance: random.Random) -> str:
    """A value or member that another may follow: a number or boolean without quotes must be closed."""
    if text.endswith(("\n", '"', "'", "}", "]")):
        return text + chance.choice(["", " ", "\n", ", ", ",\n"])
    return text + chance.choice([",", ", ", "\n", " # closed\n", "\t// closed\n", " /* closed */"])


def value_text(value: Json, chance: random.Random) -> str:
    """A value: an object, a list, a string, a number or a boolean."""
    if isinstance(value, Spelled):
        return str(value)
    if isinstance(value, dict):
        members = chance.sample(list(value.items()), len(value))
        return enclosed("{", [member_text(key, part, chance) for key, part in members], "}", chance)
    if isinstance(value, list):
        return enclosed("[", [value_text(part, chance) for part in value], "]", chance)
    if isinstance(value, bool):
        return chance.choice(["true", '"true"', "'true'"] if value else ["false", '"false"', "'false'"])
    if isinstance(value, int):
        return number_text(value, chance)
    return string_text(value, chance)


def enclosed(opener: str, parts: list[str], closer: str, chance: random.Random) -> str:
    """An object or a list of these parts."""
    return opener + "".join(gap(chance) + closed(part, chance) for part in parts) + gap(chance) + closer


def member_text(key: str, value: Json, chance: random.Random) -> str:
    """A member; its key stands with or without quotes."""
    spelled = chance.choice([key, f'"{key}"', f"'{key}'"])
    return spelled + gap(chance) + ":" + gap(chance) + value_text(value, chance)


def number_text(value: int, chance: random.Random) -> str:
    """A number, as such or as a string."""
    forms = ["{}", "{:#x}", "{:#X}", "{:#b}", "0B{:b}", "{:_}", "{:#_x}", "00{}"]
    text = chance.choice(forms).format(value)
    if text == f"{value}" and chance.random() < 0.7:
        return text
    return chance.choice([f'"{text}"', f"'{text}'"])


def string_text(text: str, chance: random.Random) -> str:
    """A string in quotes, or without them up to the line's end."""
    escaped = "".join(f"\\u{ord(character):04x}" if chance.random() < 0.1 else character for character in text)
    forms = [f'"{text}"', f"'{text}'", f'"{escaped}"', f"'''{text}'''"]
    if PLAIN.fullmatch(text):
        forms += [text + "\n", text + " \t\r\n"]
    return chance.choice(forms)
