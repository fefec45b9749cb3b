"""Boards item by item, and their audits."""
import array
import ctypes
import pathlib
import sys
from typing import NamedTuple

# The header's names.
INDEX_WORDS, INDEX_ROW = 10240, 5
BALLOT_WORDS, BALLOT_ROW = 1224, 3
AUDIT_WORDS, END_WORDS = 22, 16
NUMBER, ITEMS, MAINS, BALLOTS, WEIGHT_HIGH, WEIGHT_LOW, END = range(7)
ROW_PLACE, ROW_PARENT, ROW_SESSION, ROW_MAINS, ROW_CLOSER = range(5)
NO_ITEM = 2**32 - 1

MAIN, HIDDEN, VERDICT, CLOSING = 1, 2, 3, 15
GENESIS, TEXT, CONTEST, THRESHOLD, AUTHORIZER, ROUND = range(1, 7)
SESSION, VOTER_COMMITMENT, SERVER_COMMITMENT, BALLOT, CAST, SPOIL = range(16, 22)
INTENT, EXTRACTION, CONFIRMATION = range(32, 35)
TRACK, VERIFIER, VOTER_OPENING, SERVER_OPENING = range(48, 52)
CONFIG = range(GENESIS, ROUND + 1)


def words_of(*numbers):
    return array.array("I", numbers)


def zeros(count):
    return array.array("I", bytes(4 * count))


def swapped(words):
    """Words from this machine's byte order to the paper's, or back."""
    words = words[:]
    if sys.byteorder == "little":
        words.byteswap()
    return words


# ---- boards


class Curve(NamedTuple):
    name: str
    hash: str  # hashlib's
    address: int
    signature: int

    @property
    def frame(self):
        """The words of an item beside its content: head, parent, previous, time, signature, address."""
        return 1 + 3 * self.address + 2 + self.signature


CURVES = [Curve("secp256r1", "sha256", 8, 16), Curve("secp384r1", "sha384", 12, 24), Curve("secp521r1", "sha512", 16, 33)]


def traits_of(board):
    return board[18] if board[0] == 0x10010012 else 0


def curve_of(board):
    return CURVES[traits_of(board) >> 1]


class Item:
    """An item's words, its nine verdict words, and its parts."""

    def __init__(self, curve, words, verdict):
        count = words[0] & 0xFFFF
        hashed = 1 + count + 2 * curve.address + 2
        self.words, self.verdict = words, verdict
        self.kind, self.code = words[0] >> 28, words[0] >> 16 & 0xFFF
        self.content = words[1 : 1 + count]
        self.parent = words[1 + count : 1 + count + curve.address].tobytes()
        self.time = words[hashed - 2 : hashed]
        self.end = words[len(words) - curve.address :]
        self.address = self.end.tobytes()


class Board(NamedTuple):
    name: str
    curve: Curve
    wide: bool
    items: list
    roll: array.array
    made: bool  # from a seed
    last: int  # so many main items are taken for pairs, or all


def board_of(name, words, verdicts, roll, made=False, last=None):
    """An accepted board, item by item."""
    curve, items, place = curve_of(words), [], 0
    while words[place] >> 28 != CLOSING:
        end = place + (words[place] & 0xFFFF) + curve.frame
        items.append(Item(curve, words[place:end], verdicts[9 * len(items) : 9 * len(items) + 9]))
        place = end
    return Board(name, curve, traits_of(words) % 2 == 1, items, roll, made, last)


def laid(items):
    """The words of a board of these items, and its verdict words."""
    words, verdicts = zeros(0), zeros(0)
    words.frombytes(b"".join(item.words for item in items))
    words.append(CLOSING << 28 | len(items))
    verdicts.frombytes(b"".join(item.verdict for item in items))
    return words, verdicts


def mains_of(items):
    return [item for item in items if item.kind == MAIN]


# ---- audits


class Told(NamedTuple):
    """What an audit answers and writes."""

    answer: array.array
    index: array.array
    ballots: array.array

    def copy(self):
        return Told(*(words[:] for words in self))

    @property
    def weight(self):
        return self.answer[WEIGHT_HIGH] << 32 | self.answer[WEIGHT_LOW]

    @property
    def rows(self):
        """The rows of the ballot table: main number of the ballot, voter, weight."""
        return [tuple(self.ballots[at : at + 3]) for at in range(0, BALLOT_ROW * self.answer[BALLOTS], BALLOT_ROW)]

    def put_rows(self, rows):
        """These rows in the ballot table, then zeros; the answer is left as it is."""
        words = words_of(*(word for row in rows for word in row))
        self.ballots[:] = words + zeros(len(self.ballots) - len(words))

    def put_weight(self, weight):
        self.answer[WEIGHT_HIGH], self.answer[WEIGHT_LOW] = weight >> 32, weight & 0xFFFFFFFF

    def row(self, number):
        """The index row of an item."""
        return self.index[INDEX_ROW * (number - 1) : INDEX_ROW * number]


def audit(entry, words, verdicts, roll, more):
    """An audit with tables that are so many words longer than they must be, and full of other words before."""
    told = Told(*(words_of(0xA5A5A5A5) * count for count in (AUDIT_WORDS, INDEX_WORDS + more, BALLOT_WORDS + more)))
    passed = []
    for buffer in (words, verdicts, roll, told.index, told.ballots, told.answer):
        # The address of no words is that of some word.
        passed += [(buffer or told.answer).buffer_info()[0], len(buffer)]
    if entry(*passed) is not True:
        stop("an audit gives false")
    return told


def load(path, name):
    try:
        entry = ctypes.CDLL(path)[name]
    except AttributeError:
        stop(f"the library has no {name}")
    entry.argtypes = 6 * [ctypes.c_void_p, ctypes.c_size_t]
    entry.restype = ctypes.c_bool
    return entry


# ---- where boards come from


def read(path):
    """The words of a file; none where there is no such file."""
    return swapped(array.array("I", path.read_bytes() if path.exists() else b""))


def stored(folders):
    """The stored boards that are accepted."""
    for folder in folders:
        for path in sorted(pathlib.Path(folder).iterdir()):
            expected = path / "expected"
            if expected.is_file() and expected.read_text().startswith("accepted"):
                yield board_of(str(path), *(read(path / f"{file}.words") for file in ("board", "verdicts", "roll")))


class Shape(NamedTuple):
    crowded: bool
    items: int
    voters: int
    last: int = None  # so many main items are taken for pairs, or all


# The traits of the reference's boards, by number: none said, those of the plain layout, and those of the five others.
TRAITS = range(7)
SHAPES = Shape(False, 60, 2), Shape(False, 80, 3), Shape(True, 70, 6), Shape(True, 90, 4)
# The most items, and the most counted ballots or nearly so many, on each curve. The last three main items are the extraction.
FULL = [(0, Shape(True, 2048, 408, last=5)), (3, Shape(True, 2048, 400, last=8)), (6, Shape(True, 2048, 408, last=5))]


def made(reference, seed):
    """Boards that the reference makes."""
    make = ctypes.CDLL(reference).reference_board
    make.argtypes = [ctypes.c_uint64, ctypes.c_size_t, ctypes.c_bool, ctypes.c_size_t, ctypes.c_size_t]
    make.argtypes += [ctypes.c_void_p, ctypes.c_size_t, ctypes.c_void_p]
    make.restype = ctypes.c_bool
    out, counts = zeros(2**19), array.array("Q", bytes(24))
    wanted = [(traits, shape) for traits in TRAITS for shape in SHAPES] + FULL
    for number, (traits, shape) in enumerate(wanted, 1000 * seed):
        passed = out.buffer_info()[0], len(out), counts.buffer_info()[0]
        if make(number, traits, shape.crowded, shape.items, shape.voters, *passed) is not True:
            stop("a board does not fit")
        words, verdicts, roll = counts
        parts = out[:words], out[words : words + verdicts], out[words + verdicts : words + verdicts + roll]
        yield board_of(f"the reference's board {number}", *parts, made=True, last=shape.last)


def stop(why):
    print(f"tests/growth: {why}", file=sys.stderr)
    sys.exit(2)
