"""What request (xiii) says of a pair of boards, by its sentences, and as the second audit from the first."""
from typing import NamedTuple

from boards import *


class Pair(NamedTuple):
    name: str
    board: Board  # that it is made of
    items: list  # of the first board
    item: Item  # one more
    words: array.array  # of the first board
    first: Told
    second: Told


def follow(words, told, item):
    """The audit of a board with one more main item just before its closing word: from the board's words, its audit and the item alone."""
    curve = curve_of(words)
    told = told.copy()
    answer, index = told.answer, told.index
    items, mains = answer[ITEMS], answer[MAINS]

    def address(place):
        end = place + (words[place] & 0xFFFF) + curve.frame
        return words[end - curve.address : end].tobytes()

    # The first main item with the address that the item names; a genesis, which names none, can't be one more.
    places = (index[INDEX_ROW * k + ROW_PLACE] for k in range(items))
    parent = next(k for k, place in enumerate(places, 1) if words[place] >> 28 == MAIN and address(place) == item.parent)
    of_parent = told.row(parent)
    session = items + 1 if item.code == SESSION else of_parent[ROW_SESSION]
    index[INDEX_ROW * items : INDEX_ROW * (items + 1)] = words_of(len(words) - 1, parent, session, mains, NO_ITEM)
    if item.code in (CAST, SPOIL):
        index[INDEX_ROW * (parent - 1) + ROW_CLOSER] = items + 1
    if item.code == CAST:
        content = told.row(session)[ROW_PLACE] + 1
        voter, weight = words[content : content + 2]
        rows = told.rows
        others = [row for row in rows if row[1] != voter]
        told.put_rows(others + [(of_parent[ROW_MAINS] + 1, voter, weight)])
        if len(others) == len(rows):
            answer[BALLOTS] += 1
            told.put_weight(told.weight + weight)
    answer[ITEMS] += 1
    answer[MAINS] += 1
    answer[END:] = item.end + zeros(END_WORDS - curve.address)
    return told


def session_of(items, item):
    """The session of a main item, by the parents that it and those above it name."""
    above = {before.address: before for before in reversed(mains_of(items))}
    while item.code != SESSION:
        item = above[item.parent]
    return item


def number_of(items, address):
    """The item number of the first main item with an address."""
    return next(k for k, item in enumerate(items, 1) if item.kind == MAIN and item.address == address)


def sentences(pair):
    """What is said of a pair, and whether it is so."""
    first, second, items, item = pair.first, pair.second, pair.items, pair.item
    count, mains = len(items), len(mains_of(items))
    yield "the number of items goes up by one", (first.answer[ITEMS], second.answer[ITEMS]) == (count, count + 1)
    yield "the number of main items goes up by one", (first.answer[MAINS], second.answer[MAINS]) == (mains, mains + 1)
    yield "the end address is the item's", second.answer[END:] == item.end + zeros(END_WORDS - len(item.end))
    yield "behind the ballot rows are zeros", all(ends_with_zeros(t.ballots, BALLOT_ROW * t.answer[BALLOTS]) for t in (first, second))
    yield "behind the index rows are zeros", all(ends_with_zeros(t.index, INDEX_ROW * t.answer[ITEMS]) for t in (first, second))

    matching = first.index[: INDEX_ROW * count]
    if item.code in (CAST, SPOIL):
        closed = INDEX_ROW * (number_of(items, item.parent) - 1) + ROW_CLOSER
        yield "the ballot that a cast or spoil closes was open", matching[closed] == NO_ITEM
        yield "the fifth word of the ballot that a cast or spoil closes is the item's number", second.index[closed] == count + 1
        matching[closed] = second.index[closed]
    yield "the matching index rows are unchanged, save that word", second.index[: INDEX_ROW * count] == matching

    if item.code != CAST:
        counted = [(told.answer[BALLOTS], told.ballots) for told in (first, second)]
        yield "unless the item is a cast, the counted ballots are the same", counted[0] == counted[1]
        yield "unless the item is a cast, the weight is the same", second.weight == first.weight
        return
    voter, weight = session_of(items, item).content[:2]
    weights = {before.content[1] for before in items if before.code == SESSION and before.content[0] == voter}
    yield "all sessions of a voter have one weight", weights == {weight}
    others = [row for row in first.rows if row[1] != voter]
    ballot = len(mains_of(items[: number_of(items, item.parent)]))
    yield "only the voter's row goes", second.rows[:-1] == others
    yield "a row for the voter is put last", second.rows[-1:] == [(ballot, voter, weight)]
    if len(others) < len(first.rows):
        yield "where the voter had a row, the weight is the same", second.weight == first.weight
    else:
        yield "where the voter had no row, the weight grows by the voter's", second.weight == first.weight + weight


def ends_with_zeros(table, start):
    return table[start:] == zeros(len(table) - start)
