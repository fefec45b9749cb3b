"""Planted mistakes: wrong audits of a pair's second board."""
from typing import NamedTuple

from boards import *
from said import number_of, session_of


class Mistake(NamedTuple):
    what: str
    change: object  # changes the right audit of a pair's second board, where the mistake would
    in_sentence: bool  # a sentence says otherwise; else `follow` alone does
    curves: tuple  # on which it is one


MISTAKES = []


def mistake(what, *codes, in_sentence=True, curves=range(3)):
    """A mistake at items of these types; at all where none are given."""

    def add(change):
        def at(pair, told):
            if not codes or pair.item.code in codes:
                change(pair, told)

        MISTAKES.append(Mistake(what, at, in_sentence, tuple(CURVES[k].name for k in curves)))
        return change

    return add


def voter_of(pair):
    return session_of(pair.items, pair.item).content[0]


def row_of(pair):
    """The row that the voter of a cast or spoil has before, if there is one."""
    voter = voter_of(pair)
    return next((row for row in pair.first.rows if row[1] == voter), None)


def had_row(pair):
    return pair.item.code == CAST and row_of(pair) is not None


def put_in_new_row(pair, told, column, word):
    """Another word in the index row of the new item."""
    told.index[INDEX_ROW * len(pair.items) + column] = word


def put_closer(told, number, word):
    """Another fifth word in a ballot's index row."""
    told.index[INDEX_ROW * (number - 1) + ROW_CLOSER] = word


def parent_of(pair):
    return number_of(pair.items, pair.item.parent)


def ballots_of(pair):
    return [k for k, item in enumerate(pair.items, 1) if item.code == BALLOT]


@mistake("the row of a cast is put first", CAST)
def _(pair, told):
    told.put_rows(told.rows[-1:] + told.rows[:-1])


@mistake("at a cast again another voter's row goes, and the voter's stays", CAST)
def _(pair, told):
    others = told.rows[:-1]
    if had_row(pair) and others:
        told.put_rows([row for row in pair.first.rows if row != others[0]] + told.rows[-1:])


@mistake("at the cast of a new voter the last row goes", CAST)
def _(pair, told):
    if not had_row(pair) and len(told.rows) > 1:
        told.put_rows(told.rows[:-2] + told.rows[-1:])
        told.answer[BALLOTS] -= 1
        told.put_weight(told.weight - pair.first.rows[-1][2])


@mistake("at a cast again the row stays at its place", CAST)
def _(pair, told):
    if had_row(pair):
        told.put_rows([told.rows[-1] if row == row_of(pair) else row for row in pair.first.rows])


@mistake("at a cast again both rows stay", CAST)
def _(pair, told):
    if had_row(pair):
        told.put_rows(pair.first.rows + told.rows[-1:])
        told.answer[BALLOTS] += 1


@mistake("at a cast again the old row is put last", CAST)
def _(pair, told):
    if had_row(pair):
        told.put_rows(told.rows[:-1] + [row_of(pair)])


@mistake("at a cast again nothing changes in the ballot table", CAST)
def _(pair, told):
    if had_row(pair):
        told.put_rows(pair.first.rows)


@mistake("at a cast again the row that goes leaves zeros", CAST)
def _(pair, told):
    if had_row(pair):
        told.put_rows([(0, 0, 0) if row == row_of(pair) else row for row in pair.first.rows] + told.rows[-1:])


@mistake("at a cast again the last row stands twice, the second time behind the rows", CAST)
def _(pair, told):
    if had_row(pair):
        told.put_rows(told.rows + told.rows[-1:])


@mistake("at the cast of a new voter the zeros are not moved up: there is no row", CAST)
def _(pair, told):
    if not had_row(pair):
        told.put_rows(pair.first.rows)


@mistake("the row of a cast has the ballot's item number", CAST)
def _(pair, told):
    told.put_rows(told.rows[:-1] + [(parent_of(pair),) + told.rows[-1][1:]])


@mistake("the row of a cast has the cast's main number", CAST)
def _(pair, told):
    told.put_rows(told.rows[:-1] + [(told.answer[MAINS],) + told.rows[-1][1:]])


@mistake("the row of a cast has the voter and weight of the last session", CAST)
def _(pair, told):
    last = next(item for item in reversed(pair.items) if item.code == SESSION)
    told.put_rows(told.rows[:-1] + [told.rows[-1][:1] + tuple(last.content[:2])])


@mistake("at a cast again the number of ballots goes up", CAST)
def _(pair, told):
    told.answer[BALLOTS] = pair.first.answer[BALLOTS] + 1


@mistake("at the cast of a new voter the number of ballots stays", CAST)
def _(pair, told):
    told.answer[BALLOTS] = pair.first.answer[BALLOTS]


@mistake("at a cast again the weight is added", CAST)
def _(pair, told):
    if had_row(pair):
        told.put_weight(told.weight + told.rows[-1][2])


@mistake("at a cast again the weight is taken away", CAST)
def _(pair, told):
    if had_row(pair):
        told.put_weight(told.weight - told.rows[-1][2])


@mistake("at the cast of a new voter the weight is not added", CAST)
def _(pair, told):
    told.put_weight(pair.first.weight)


@mistake("the weight grows by one for each voter", CAST)
def _(pair, told):
    if not had_row(pair):
        told.put_weight(pair.first.weight + 1)


@mistake("the weight's high word takes nothing over from the low one", CAST)
def _(pair, told):
    told.answer[WEIGHT_HIGH] = pair.first.answer[WEIGHT_HIGH]


@mistake("a spoil counts the ballot", SPOIL)
def _(pair, told):
    voter, weight = session_of(pair.items, pair.item).content[:2]
    told.put_rows([row for row in told.rows if row[1] != voter] + [(told.row(parent_of(pair))[ROW_MAINS] + 1, voter, weight)])
    if row_of(pair) is None:
        told.answer[BALLOTS] += 1
        told.put_weight(told.weight + weight)


@mistake("a spoil takes the voter's row away", SPOIL)
def _(pair, told):
    take_row(told, voter_of(pair))


@mistake("a session takes its voter's row away", SESSION)
def _(pair, told):
    take_row(told, pair.item.content[0])


def take_row(told, voter):
    weight = sum(row[2] for row in told.rows if row[1] == voter)
    rows = [row for row in told.rows if row[1] != voter]
    told.put_rows(rows)
    told.put_weight(told.weight - weight)
    told.answer[BALLOTS] = len(rows)


@mistake("an intent empties the ballot table", INTENT)
def _(pair, told):
    told.put_rows([])


@mistake("a round takes the weight away", ROUND)
def _(pair, told):
    told.put_weight(0)


@mistake("the fifth word is put to the last ballot", CAST, SPOIL)
def _(pair, told):
    put_closer(told, parent_of(pair), NO_ITEM)
    put_closer(told, ballots_of(pair)[-1], told.answer[ITEMS])


@mistake("the fifth word is put to the first ballot that is open", CAST, SPOIL)
def _(pair, told):
    put_closer(told, parent_of(pair), NO_ITEM)
    opened = [k for k in ballots_of(pair) if pair.first.row(k)[ROW_CLOSER] == NO_ITEM]
    put_closer(told, opened[0], told.answer[ITEMS])


@mistake("the fifth word is put to every open ballot of the session", CAST, SPOIL)
def _(pair, told):
    session = told.row(parent_of(pair))[ROW_SESSION]
    for k in ballots_of(pair):
        if told.row(k)[ROW_CLOSER] == NO_ITEM and told.row(k)[ROW_SESSION] == session:
            put_closer(told, k, told.answer[ITEMS])


@mistake("the fifth word is the main number", CAST, SPOIL)
def _(pair, told):
    put_closer(told, parent_of(pair), told.answer[MAINS])


@mistake("a cast leaves the fifth word", CAST)
def _(pair, told):
    put_closer(told, parent_of(pair), NO_ITEM)


@mistake("a spoil leaves the fifth word", SPOIL)
def _(pair, told):
    put_closer(told, parent_of(pair), NO_ITEM)


@mistake("a cast again opens the ballot that was counted", CAST)
def _(pair, told):
    if had_row(pair):
        put_closer(told, next(k for k in ballots_of(pair) if told.row(k)[ROW_MAINS] + 1 == row_of(pair)[0]), NO_ITEM)


@mistake("the fifth word is put to the cast or spoil itself", CAST, SPOIL, in_sentence=False)
def _(pair, told):
    put_in_new_row(pair, told, ROW_CLOSER, told.answer[ITEMS])


@mistake("hidden items at the end have the new item before them")
def _(pair, told):
    number = len(pair.items)
    while pair.items[number - 1].kind == HIDDEN:
        told.index[INDEX_ROW * (number - 1) + ROW_MAINS] += 1
        number -= 1


@mistake("the new row's place is one off", in_sentence=False)
def _(pair, told):
    put_in_new_row(pair, told, ROW_PLACE, len(pair.words))


@mistake("the new row's place is that of the last head", in_sentence=False)
def _(pair, told):
    put_in_new_row(pair, told, ROW_PLACE, told.row(len(pair.items))[ROW_PLACE])


@mistake("the new row names the parent by its main number", in_sentence=False)
def _(pair, told):
    put_in_new_row(pair, told, ROW_PARENT, told.row(parent_of(pair))[ROW_MAINS] + 1)


@mistake("the new row names the item before as parent", in_sentence=False)
def _(pair, told):
    put_in_new_row(pair, told, ROW_PARENT, len(pair.items))


@mistake("a session has its parent's session, not itself", SESSION, in_sentence=False)
def _(pair, told):
    put_in_new_row(pair, told, ROW_SESSION, told.row(parent_of(pair))[ROW_SESSION])


@mistake("an item has the last session", *range(VOTER_COMMITMENT, SPOIL + 1), in_sentence=False)
def _(pair, told):
    put_in_new_row(pair, told, ROW_SESSION, max(k for k, item in enumerate(pair.items, 1) if item.code == SESSION))


@mistake("an item without a session has 0 there", in_sentence=False)
def _(pair, told):
    if told.row(told.answer[ITEMS])[ROW_SESSION] == NO_ITEM:
        put_in_new_row(pair, told, ROW_SESSION, 0)


@mistake("the new row counts the new item among those before", in_sentence=False)
def _(pair, told):
    put_in_new_row(pair, told, ROW_MAINS, told.answer[MAINS])


@mistake("the new row counts hidden items among the main ones before", in_sentence=False)
def _(pair, told):
    put_in_new_row(pair, told, ROW_MAINS, len(pair.items))


@mistake("there is no new row", in_sentence=False)
def _(pair, told):
    told.index[:] = pair.first.index


@mistake("the new row stands twice")
def _(pair, told):
    at = INDEX_ROW * len(pair.items)
    told.index[at + INDEX_ROW : at + 2 * INDEX_ROW] = told.index[at : at + INDEX_ROW]


@mistake("the index table's last word is not zero")
def _(pair, told):
    told.index[-1] = 0xA5A5A5A5


@mistake("the ballot table's last word is not zero")
def _(pair, told):
    told.ballots[-1] = 0xA5A5A5A5


@mistake("the end address stays")
def _(pair, told):
    told.answer[END:] = pair.first.answer[END:]


@mistake("the end address has eight words", curves=(1, 2))
def _(pair, told):
    told.answer[END + 8 :] = zeros(END_WORDS - 8)


@mistake("the number of items stays")
def _(pair, told):
    told.answer[ITEMS] -= 1


@mistake("the number of main items stays")
def _(pair, told):
    told.answer[MAINS] -= 1


@mistake("the number of main items goes up to that of all items")
def _(pair, told):
    told.answer[MAINS] = told.answer[ITEMS]


# Sentences about the first board alone are tried on pairs that can't be: each gives the pair as it would have to be.


def closed_before(pair):
    if pair.item.code in (CAST, SPOIL):
        first = pair.first.copy()
        put_closer(first, parent_of(pair), 1)
        return pair._replace(first=first)
    return None


def other_weight(pair):
    """A session more of the voter, in the place of another voter's."""
    if pair.item.code == CAST:
        session, items = session_of(pair.items, pair.item), pair.items[:]
        for k, item in enumerate(items):
            if item.code == SESSION and item.content[0] != session.content[0]:
                items[k] = Item(pair.board.curve, item.words[:1] + session.content[:1] + item.words[2:], item.verdict)
                return pair._replace(items=items)
    return None


IMPOSSIBLE = {
    "the ballot that a cast or spoil closes was open": closed_before,
    "all sessions of a voter have one weight": other_weight,
}
