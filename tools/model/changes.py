"""Changes of descriptions of tops and crossbars by chance: what both kinds share."""
from model.faulty import NAMES, NUMBERS, ODD, Changer
from model.spelling import Spelled
from model.trees import Json


class KeyChanger(Changer):
    """Changes one description whose kind has these known keys, and these words as values."""

    keys: list[str] = []
    words: list[str] = []

    def value(self) -> Json:
        """A value of any kind, now and then a word of such descriptions."""
        odd = Spelled(self.chance.choice(ODD))
        return self.chance.choice([self.chance.choice(NUMBERS), self.chance.choice(NAMES), self.chance.choice(self.words), odd, True, False])

    def add(self) -> None:
        """A known key with some value."""
        self.some(dict)[self.chance.choice(self.keys)] = self.value()
