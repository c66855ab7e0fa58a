"""Small hand-made files for the tests: plain contents that a reader can check by eye."""

from books import P, Q, S
from legal import Item


def item(book, mark, **changes):
    """A row of sample contents; changes are named by their start, as in s185=125000."""
    contents = dict(SAMPLES[book.letter, mark])
    contents |= {int(name[1:]): content for name, content in changes.items()}
    return Item(mark, contents)


def _contents(book, mark, filled):
    """Contents with everything not filled but what is named by its start."""
    empty = {"text": b"", "word": b"", "long digits": b"0" * 20}
    kind = book.kinds[mark]
    return {field.start: empty.get(field.sort.value, 0) for field in kind.given} | filled


SAMPLES = {
    ("P", "0"): _contents(P, "0", {27: b"12345678", 35: 2, 37: 12345678000195, 156: 20240229}),
    ("P", "1"): _contents(P, "1", {
        2: 2, 4: 12345678000195, 46: b"+55119999", 123: 2, 124: 1, 126: b"TX1", 185: 125000,
    }),
    ("P", "2"): _contents(P, "2", {2: b"TX1", 37: b"Order", 87: b"4711"}),
    ("P", "9"): {},
    ("Q", "0"): _contents(Q, "0", {27: b"12345678", 35: 2, 37: 12345678000195, 156: 20240229}),
    ("Q", "1"): _contents(Q, "1", {
        2: b"12345678", 10: 2, 12: 12345678000195, 26: b"0001", 30: b"123456", 50: b"CACC",
        54: b"+55119999", 131: 2, 132: 6, 134: 20240229, 142: b"TX1", 285: 125000,
    }),
    ("Q", "2"): _contents(Q, "2", {2: b"TX1", 37: b"Order", 87: b"4711"}),
    ("Q", "9"): _contents(Q, "9", {5: b"12345678"}),
    ("S", "0"): _contents(S, "0", {
        27: b"12345678", 35: 2, 37: 12345678000195, 156: 20240229, 164: b"AGREEMENT", 732: 1,
    }),
    ("S", "A"): _contents(S, "A", {
        2: 1, 4: 1, 196: b"CONTRACT", 266: 2, 267: 2, 268: 20240229, 284: 2, 302: 2, 320: 1,
    }),
    ("S", "9"): {},
}
