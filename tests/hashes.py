"""Compares the hashes of shared libraries with hashlib's. tests/hashes builds the libraries and runs this.

Messages have each length from 0 to 300 words, and are of random words, of ones or of zeros. Message and digest stand between guard words;
a call may change nothing but the digest. The comparison is tried on entries with planted mistakes first.
"""
import argparse
import array
import ctypes
import hashlib
import random
import sys
from typing import NamedTuple

MOST_WORDS = 300
RANDOM_MESSAGES = 10  # of each length
GUARDS = 4, 5  # guard words on each side, in turn: a buffer stands at a multiple of 8 bytes, or between two
LONG = 2**27 + 1  # words; the length in bits takes more than one word
SHOWN = 10  # differences that are shown of a hash; all are counted

WORD = ctypes.c_uint32
WORDS = ctypes.POINTER(WORD)


class Hash(NamedTuple):
    name: str  # hashlib's
    digest_words: int
    result: type  # what the entry returns: true, or nothing


HASHES = [
    Hash("sha256", 8, ctypes.c_bool),
    Hash("sha384", 12, None),
    Hash("sha512", 16, None),
]


class Message(NamedTuple):
    what: str
    count: int
    words: bytes  # each as this machine stores it
    guard: bytes


def swapped(data):
    """The bytes of words, each from this machine's order to the standard's, or back."""
    words = array.array("I", data)
    assert words.itemsize == 4
    if sys.byteorder == "little":
        words.byteswap()
    return words.tobytes()


def messages(seed):
    for count in range(MOST_WORDS + 1):
        for k in range(RANDOM_MESSAGES):
            source = random.Random(f"{seed} {count} {k}")
            # A wrong call may read guard words, and then they must matter.
            yield Message(f"random words, number {k}", count, source.randbytes(4 * count), source.randbytes(4 * GUARDS[k % 2]))
        for guards, (what, byte) in zip(GUARDS, (("ones", b"\xff"), ("zeros", b"\x00"))):
            yield Message(what, count, byte * 4 * count, random.Random(f"{seed} {count} {what}").randbytes(4 * guards))


def guarded(words, guard):
    """A buffer with the words between guard words, and the address of the first."""
    data = guard + words + guard
    buffer = (WORD * (len(data) // 4)).from_buffer_copy(data)
    return buffer, ctypes.cast(ctypes.addressof(buffer) + len(guard), WORDS)


class Difference(NamedTuple):
    message: Message
    wrong: list
    got: bytes
    wanted: bytes


def differences(hash, entry, cases):
    """What an entry does wrong on messages with their digests, one by one."""
    for message, wanted in cases:
        words, words_at = guarded(message.words, message.guard)
        # Every bit of the digest's place is other than it must become.
        before = bytes(byte ^ 0xFF for byte in wanted)
        digest, digest_at = guarded(before, message.guard)
        result = entry(words_at, message.count, digest_at)

        data, guards = bytes(digest), len(message.guard)
        got, around = data[guards:-guards], data[:guards] + data[-guards:]
        wrong = []
        if got != wanted:
            wrong.append("the digest differs")
        if around != 2 * message.guard:
            wrong.append("words beside the digest are changed")
        if bytes(words) != message.guard + message.words + message.guard:
            wrong.append("the message or a word beside it is changed")
        if hash.result is not None and result is not True:
            wrong.append(f"the entry returns {result}")
        if wrong:
            yield Difference(message, wrong, got, wanted)


def planted(hash, right):
    """Entries that are right but for one mistake each, and what it is."""
    at, last = 77, hash.digest_words - 1

    def wrong(mistake, when=lambda words, count: count == at):
        def entry(words, count, digest):
            if when(words, count):
                return mistake(words, count, digest)
            return right(words, count, digest)

        return entry

    def flipped(place):
        def mistake(words, count, digest):
            result = right(words, count, digest)
            buffer, index = place(words, count, digest)
            buffer[index] ^= 1 << 31
            return result

        return mistake

    def exchanged(words, count, digest):
        result = right(words, count, digest)
        digest[0], digest[last] = digest[last], digest[0]
        return result

    def left_out(words, count, digest):
        before = digest[last]
        result = right(words, count, digest)
        digest[last] = before
        return result

    def refused(words, count, digest):
        right(words, count, digest)
        return False

    digest_word = flipped(lambda words, count, digest: (digest, count % hash.digest_words))
    yield "a bit of the digest of no words", wrong(digest_word, lambda words, count: count == 0)
    yield "a bit of the digest", wrong(digest_word)
    yield "a bit of the digest of 300 words", wrong(digest_word, lambda words, count: count == 300)
    for what, word in ("ones", 0xFFFFFFFF), ("zeros", 0):
        yield f"a bit of the digest of {what} alone", wrong(
            digest_word, lambda words, count, word=word: count == at and words[:count] == [word] * count
        )
    yield "a bit of the digest of random words alone", wrong(
        digest_word, lambda words, count: count == at and words[0] not in (0, 0xFFFFFFFF)
    )
    yield "two words of the digest exchanged", wrong(exchanged)
    yield "a word of the digest left as it was", wrong(left_out)
    yield "the word before the digest changed", wrong(flipped(lambda words, count, digest: (digest, -1)))
    yield "the word behind the digest changed", wrong(flipped(lambda words, count, digest: (digest, last + 1)))
    yield "the message's first word changed", wrong(flipped(lambda words, count, digest: (words, 0)))
    yield "the message's last word changed", wrong(flipped(lambda words, count, digest: (words, count - 1)))
    yield "the word before the message changed", wrong(flipped(lambda words, count, digest: (words, -1)))
    yield "the word behind the message changed", wrong(flipped(lambda words, count, digest: (words, count)))
    yield "one word too few hashed", wrong(lambda words, count, digest: right(words, count - 1, digest))
    yield "one word too many hashed", wrong(lambda words, count, digest: right(words, count + 1, digest))
    if hash.result is not None:
        yield "a message refused", wrong(refused)


def find_entry(hash, libraries):
    """The hash's function, from the first library that has it."""
    for library in libraries:
        try:
            entry = library[f"tirfolma_{hash.name}_words"]
        except AttributeError:
            continue
        entry.argtypes = [WORDS, ctypes.c_size_t, WORDS]
        entry.restype = hash.result
        return entry
    return None


def show(hash, seed, difference):
    message = difference.message
    print(f"{hash.name} of {message.count} words, {message.what}, seed {seed}: {'; '.join(difference.wrong)}")
    print(f"    the library  {swapped(difference.got).hex()}")
    print(f"    hashlib      {swapped(difference.wanted).hex()}")


def stop(why):
    print(f"tests/hashes: {why}", file=sys.stderr)
    sys.exit(2)


def main():
    parser = argparse.ArgumentParser(description=__doc__)
    parser.add_argument("--all-entries", action="store_true")
    parser.add_argument("--seed", type=int, default=0)
    parser.add_argument("--long", action="store_true")
    parser.add_argument("libraries", nargs="+")
    options = parser.parse_args()
    libraries = [ctypes.CDLL(path) for path in options.libraries]
    entries = [(hash, find_entry(hash, libraries)) for hash in HASHES]
    missing = [hash.name for hash, entry in entries if entry is None]
    if missing and (options.all_entries or len(missing) == len(HASHES)):
        stop(f"no library has the entry of {', '.join(missing)}")
    if missing:
        print(f"tests/hashes: no library has the entry of {', '.join(missing)}: not compared")

    every = list(messages(options.seed))
    if options.long:
        every.append(Message("zeros", LONG, bytes(4 * LONG), bytes(4 * GUARDS[0])))
    compared = differ = tried = found = 0
    for hash, entry in entries:
        if entry is None:
            continue
        try:
            digests = [hashlib.new(hash.name, swapped(message.words)).digest() for message in every]
        except ValueError:
            stop(f"the hashlib of this Python has no {hash.name}")
        cases = list(zip(every, map(swapped, digests)))

        for what, wrong in planted(hash, entry):
            tried += 1
            if next(differences(hash, wrong, cases), None) is not None:
                found += 1
            else:
                print(f"tests/hashes: planted in {hash.name} and NOT found: {what}")
        shown = 0
        for difference in differences(hash, entry, cases):
            differ += 1
            shown += 1
            if shown <= SHOWN:
                show(hash, options.seed, difference)
        compared += len(cases)
    print(
        f"tests/hashes: {compared} digests compared with hashlib's, seed {options.seed}: {differ} differ; "
        f"{found} of {tried} planted mistakes found"
    )
    sys.exit(0 if differ == 0 and found == tried else 1)


main()
