"""Names within the grammar of the airport file: 1 to 16 letters, digits and the signs _ - / and dot, each given once."""
import re
import unicodedata

LONGEST = 16
ALLOWED = re.compile(r"[A-Za-z0-9_/.-]+")


def is_name(text):
    """Whether a text is a name as it stands."""
    return len(text) <= LONGEST and ALLOWED.fullmatch(text) is not None


def words_of(text):
    """The parts of a text that a name may have: accents go, other signs part words."""
    plain = unicodedata.normalize("NFKD", text).encode("ascii", "ignore").decode("ascii")
    words = (word.strip("_/.-") for word in ALLOWED.findall(plain))
    return [word for word in words if word]


def name_of(text, longest=LONGEST):
    """A name made from a text, or the empty text. Where it must be cut a short last word, mostly a number, stays."""
    words = words_of(text)
    whole = "_".join(words)
    if len(whole) <= longest:
        return whole
    last = words[-1]
    if len(words) > 1 and len(last) <= longest // 2:
        return "_".join(words[:-1])[: longest - 1 - len(last)].strip("_/.-") + "_" + last
    return whole[:longest].strip("_/.-")


class Names:
    """The names of one space, each given once."""

    def __init__(self):
        self.taken = set()
        self.counts = {}

    def take(self, wanted):
        """The name that is wanted, or where it is taken, the same with the least free number from 2 on."""
        name = wanted[:LONGEST]
        count = self.counts.get(name, 1)
        chosen = name
        while chosen in self.taken:
            count += 1
            ending = f".{count}"
            chosen = name[: LONGEST - len(ending)] + ending
        self.counts[name] = count
        self.taken.add(chosen)
        return chosen
