"""Holds audits to request (xiii), one more item. tests/growth builds the libraries and runs this.

A pair is an accepted board and the board with one more main item just before its closing word. Both are audited, with the same roll, and
what is answered and written, every word of both tables, is held to each sentence of the request (`sentences`), and to what follows from
the first board, its audit and the item alone (`follow`). Boards are the stored ones that are accepted and others that the reference makes.
Pairs are made of
- the items before each main item, and that item;
- the same without the hidden items between it and the main item before, and with every hidden item of the board that may stand by then;
- items that are made here: casts and spoils of ballots that are open, sessions, texts, intents, and some that are to be refused.
Where the second board is refused, nothing is said of the pair; it is counted. Planted mistakes must be found by `follow`, and those that a
sentence is about by the sentences alone, on each curve; each sentence must find one.
"""
import argparse
import collections
import random
import sys

from boards import *
from mistakes import IMPOSSIBLE, MISTAKES, had_row
from pairs import Making, pairs_of
from said import Pair, follow, sentences

KINDS = {
    TEXT: "text",
    CONTEST: "contest",
    THRESHOLD: "threshold",
    AUTHORIZER: "authorizer",
    ROUND: "round",
    SESSION: "session of a new voter",
    VOTER_COMMITMENT: "voter commitment",
    SERVER_COMMITMENT: "server commitment",
    BALLOT: "ballot",
    CAST: "cast of a new voter",
    SPOIL: "spoil",
    INTENT: "intent",
    EXTRACTION: "extraction",
    CONFIRMATION: "confirmation",
}
AGAIN = {SESSION: "session again", CAST: "cast again"}
MAKINGS = "as it stands", "at the cut", "all hidden items last", "made"
REFUSED = "made to be refused"
EACH = 5  # of so many pairs one gets items that are made

# What there must be, at the least: pairs of each kind on each curve with each width of sets, pairs of each making on each curve, pairs that
# each sentence is about on each curve, and pairs whose second board is refused by these numbers.
OF_KIND, OF_MAKING, OF_SENTENCE = 3, 40, 40
OF_REFUSED = {1: 5, 7: 20, 8: 20, 10: 20, 11: 100, 12: 20, 15: 20, 16: 20, 21: 20}
MOST_ITEMS, MOST_BALLOTS = 2048, 408  # in a second board

SHOWN = 10  # differences that are shown; all are counted


def kind_of(pair):
    code, again = pair.item.code, had_row(pair)
    if code == SESSION:
        again = any(item.code == SESSION and item.content[0] == pair.item.content[0] for item in pair.items)
    return AGAIN[code] if again else KINDS[code]


def difference(wanted, got):
    """Where two audits differ first."""
    for part, old, new in zip(("answer", "index", "ballots"), wanted, got):
        for at, (a, b) in enumerate(zip(old, new)):
            if a != b:
                return f"{part}, word {at}: {b} in place of {a}"
    return "nowhere"


class Held:
    """The audits by each entry, and what was found of pairs."""

    def __init__(self, entries, seed):
        self.entries, self.seed = entries, seed
        self.kinds, self.makings, self.sentences, self.refused = (collections.Counter() for _ in range(4))
        self.differ = self.most_items = self.most_ballots = 0
        # Mistakes that are not found yet, by curve: by `follow`, and by the sentences; and sentences that have found one.
        self.unseen = {curve.name: [m for m in MISTAKES if curve.name in m.curves] for curve in CURVES}
        self.unsaid = {curve: [m for m in mistakes if m.in_sentence] for curve, mistakes in self.unseen.items()}
        self.planted = sum(map(len, self.unseen.values())), sum(map(len, self.unsaid.values()))
        self.broken = set()

    def differs(self, name, what):
        self.differ += 1
        if self.differ <= SHOWN:
            print(f"tests/growth: {name}, seed {self.seed}: {what}")

    def hold(self, board):
        """All pairs of a board."""
        source, more, audits = random.Random(f"{self.seed} {board.name}"), len(board.items) % 3, {}

        def audited(name, items):
            """The words of a board of these items, and the audit by the first entry; any other must say the same."""
            which = tuple(map(id, items))
            if which not in audits:
                words, verdicts = laid(items)
                (by, told), *others = [(by, audit(entry, words, verdicts, board.roll, more)) for by, entry in self.entries.items()]
                for other, again in others:
                    if again != told:
                        self.differs(name, f"the {other} and the {by} differ: {difference(again, told)}")
                # The items stay, so that no other gets the id of one.
                audits[which] = words, told, items
            return audits[which][:2]

        def grow(making, items, item):
            name = f"{board.name}, {making}, {len(items)} items and one of type {item.code}"
            (words, first), (_, second) = audited(name, items), audited(name, items + [item])
            number = second.answer[NUMBER]
            if first.answer[NUMBER] != 0:
                self.differs(name, f"the first board is refused by {first.answer[NUMBER]}")
            elif (making in MAKINGS[:-1] and number != 0) or (making == REFUSED and number == 0):
                self.differs(name, f"the second board is refused by {number}" if number else "the second board is accepted")
            elif number != 0:
                self.refused[number] += 1
            else:
                self.check(Pair(name, board, items, item, words, first, second), making)

        def grow_more(items, turn):
            first = audited(board.name, items)[1]
            if board.made and first.answer[NUMBER] == 0:
                making = Making(board, items, first, source)
                for item in making.right():
                    grow("made", items, item)
                wrong = list(making.wrong())
                grow(REFUSED, items, wrong[turn % len(wrong)])

        for at, (making, items, item) in enumerate(pairs_of(board)):
            grow(making, items, item)
            if at % EACH == 0:
                grow_more(items, at // EACH)
        grow_more(board.items, 0)

    def check(self, pair, making):
        """What is said of a pair; then wrong audits in the place of the second."""
        curve = pair.board.curve.name
        self.kinds[curve, pair.board.wide, kind_of(pair)] += 1
        self.makings[curve, making] += 1
        self.makings[curve, "behind a hidden item"] += pair.items[-1].kind == HIDDEN
        self.most_items = max(self.most_items, pair.second.answer[ITEMS])
        self.most_ballots = max(self.most_ballots, pair.second.answer[BALLOTS])
        try:
            for what, holds in sentences(pair):
                self.sentences[curve, what] += 1
                if not holds:
                    self.differs(pair.name, f"it is not so that {what}")
            right = follow(pair.words, pair.first, pair.item)
        except (LookupError, RuntimeError, StopIteration) as error:
            return self.differs(pair.name, f"what was written can't be read: {error!r}")
        if right != pair.second:
            return self.differs(pair.name, f"the second audit does not follow from the first: {difference(right, pair.second)}")

        def wrong(planted):
            told = right.copy()
            planted.change(pair, told)
            return told

        self.unseen[curve] = [planted for planted in self.unseen[curve] if wrong(planted) == pair.second]
        for planted in self.unsaid[curve][:]:
            if self.breaks(pair._replace(second=wrong(planted))):
                self.unsaid[curve].remove(planted)
        for what, change in IMPOSSIBLE.items():
            if what not in self.broken:
                changed = change(pair)
                if changed is not None:
                    self.breaks(changed)

    def breaks(self, pair):
        """Whether a sentence is not so of a pair with a mistake in it."""
        found = [what for what, holds in sentences(pair) if not holds]
        self.broken.update(found)
        return bool(found)

    def missing(self):
        """What there were too few of, and mistakes that were not found."""
        for curve in (curve.name for curve in CURVES):
            for kind in [*KINDS.values(), *AGAIN.values()]:
                for wide in False, True:
                    if self.kinds[curve, wide, kind] < OF_KIND:
                        yield f"{self.kinds[curve, wide, kind]} pairs with one more {kind} on {curve}, {'wide' if wide else 'narrow'}"
            for making in [*MAKINGS, "behind a hidden item"]:
                if self.makings[curve, making] < OF_MAKING:
                    yield f"{self.makings[curve, making]} pairs on {curve}, {making}"
            for what in sorted({what for _, what in self.sentences}):
                if self.sentences[curve, what] < OF_SENTENCE:
                    yield f"{self.sentences[curve, what]} pairs on {curve} of which it is said that {what}"
            for planted in self.unseen[curve]:
                yield f"planted on {curve} and NOT found: {planted.what}"
            for planted in self.unsaid[curve]:
                yield f"planted on {curve} and NOT found by a sentence: {planted.what}"
        for number, least in OF_REFUSED.items():
            if self.refused[number] < least:
                yield f"{self.refused[number]} pairs whose second board is refused by {number}"
        if (self.most_items, self.most_ballots) != (MOST_ITEMS, MOST_BALLOTS):
            yield f"no second board has more than {self.most_items} items, or more than {self.most_ballots} counted ballots"
        for what in sorted({what for _, what in self.sentences} - self.broken):
            yield f"no planted mistake makes it untrue that {what}"


def main():
    parser = argparse.ArgumentParser(description=__doc__)
    parser.add_argument("--seed", type=int, default=0)
    parser.add_argument("--library")
    parser.add_argument("--reference", required=True)
    parser.add_argument("folders", nargs="*")
    options = parser.parse_args()
    entries = {}
    if options.library:
        entries["library"] = load(options.library, "tirfolma_audit")
    entries["reference"] = load(options.reference, "reference_audit")

    held, boards = Held(entries, options.seed), 0
    for source in stored(options.folders), made(options.reference, options.seed):
        for board in source:
            held.hold(board)
            boards += 1
    # Where something differs, what is missing may be missing for that.
    missing = list(held.missing()) if held.differ == 0 else []
    for what in missing:
        print(f"tests/growth: {what}")
    found = [planted - sum(map(len, left.values())) for planted, left in zip(held.planted, (held.unseen, held.unsaid))]
    print(
        f"tests/growth: {held.kinds.total()} pairs of {boards} boards by the {' and the '.join(entries)}, seed {options.seed}: "
        f"{held.differ} differ; {held.refused.total()} more are refused; {found[0]} of {held.planted[0]} planted mistakes found, "
        f"{found[1]} of {held.planted[1]} by a sentence alone"
    )
    sys.exit(0 if held.differ == 0 and not missing else 1)


main()
