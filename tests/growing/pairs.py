"""Pairs of boards: those that a board has in it, and items that are made."""
import hashlib

from boards import *


def pairs_of(board):
    """The items of first boards, and an item for each, as the board has them; with the making of the pair."""
    mains = [at for at, item in enumerate(board.items) if item.kind == MAIN]
    for at in mains[1:] if board.last is None else mains[-board.last :]:
        item, before = board.items[at], board.items[:at]
        yield "as it stands", before, item
        cut = before[:]
        while cut[-1].kind == HIDDEN:
            cut.pop()
        if len(cut) < at:
            yield "at the cut", cut, item
        mains = mains_of(before)
        tracks = tracks_of(board, mains)
        if mains + tracks not in (before, cut):
            yield "all hidden items last", mains + tracks, item


def tracks_of(board, mains):
    """All hidden items of a board that may stand behind some of its main items."""
    ballots = {item.address: item.address for item in mains}
    spoiled = {item.parent for item in mains if item.code == SPOIL}
    tracks, hidden = [], {}  # the ballot that each hidden item is of, by its address
    for item in board.items:
        if item.kind == HIDDEN:
            ballot = (ballots if item.code == TRACK else hidden).get(item.parent)
            if ballot is not None and (item.code != VOTER_OPENING or ballot in spoiled):
                hidden[item.address] = ballot
                tracks.append(item)
    return tracks


class Making:
    """Makes one more item for a board that is accepted, with what it takes from the board."""

    def __init__(self, board, items, told, source):
        self.board, self.items, self.told, self.source = board, items, told, source
        self.mains = mains_of(items)
        self.config = next(item for item in reversed(self.mains) if item.code in CONFIG)
        self.administrator = items[0].content[1:9]

    def words(self, count):
        return words_of(*(self.source.getrandbits(32) for _ in range(count)))

    def item(self, code, content, parent, key, time=None, previous=None, verdict=1, flipped=0):
        """An item, all right but for what is given."""
        curve, last = self.board.curve, self.mains[-1]
        hashed = words_of(MAIN << 28 | code << 16 | len(content)) + content
        hashed += parent.end + (previous or last).end + (last.time if time is None else time)
        digest = swapped(array.array("I", hashlib.new(curve.hash, swapped(hashed)).digest()))
        digest[-1] ^= flipped
        return Item(curve, hashed + self.words(curve.signature) + digest, words_of(VERDICT << 28 | verdict) + key)

    def text(self, **given):
        key = given.pop("key", self.administrator)
        return self.item(TEXT, self.words(self.source.randrange(3)), self.config, key, **given)

    def close(self, code, ballot, **given):
        """A cast or spoil of the ballot with an item number."""
        session = self.items[self.told.row(ballot)[ROW_SESSION] - 1]
        return self.item(code, words_of(), self.items[ballot - 1], session.content[2:10], **given)

    def session(self, voter, weight):
        latest = next(item for item in reversed(self.mains) if item.code == AUTHORIZER)
        some = self.source.choice([item for item in self.mains if item.code == SESSION])
        return self.item(SESSION, words_of(voter, weight) + self.words(16) + some.content[18:], self.config, latest.content[1:9])

    def right(self):
        """Items that may follow, at the right time."""
        yield self.text()
        yield self.item(INTENT, words_of(), self.config, self.administrator)
        ballots = [k for k, item in enumerate(self.items, 1) if item.code == BALLOT]
        opened = [k for k in ballots if self.told.row(k)[ROW_CLOSER] == NO_ITEM]
        for ballot in sorted(set(opened[:1] + opened[-2:])):
            yield self.close(CAST, ballot)
            yield self.close(SPOIL, ballot)
        sessions = [item for item in self.mains if item.code == SESSION]
        if sessions:
            yield self.session(*self.source.choice(sessions).content[:2])
            pairs = {(self.board.roll[k], self.board.roll[k + 1]) for k in range(0, len(self.board.roll), 2)}
            others = sorted(pair for pair in pairs - {tuple(item.content[:2]) for item in sessions} if pair[1] > 0)
            if others:
                yield self.session(*self.source.choice(others))

    def wrong(self):
        """Items that are to be refused."""
        yield self.text(flipped=1)
        if len(self.mains) > 1:
            yield self.text(previous=self.mains[-2])
        hour = self.mains[-1].time
        if hour[1] > 0:
            yield self.text(time=words_of(hour[0], hour[1] - 1))
        yield self.text(verdict=0)
        yield self.text(key=self.words(8))
        closed = [k for k, item in enumerate(self.items, 1) if item.code == BALLOT and self.told.row(k)[ROW_CLOSER] != NO_ITEM]
        if closed:
            yield self.close(self.source.choice((CAST, SPOIL)), closed[-1])
        sessions = [item for item in self.mains if item.code == SESSION]
        if sessions:
            voter, weight = self.source.choice(sessions).content[:2]
            yield self.session(voter, weight % (2**32 - 1) + 1)
