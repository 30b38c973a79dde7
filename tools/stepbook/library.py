"""The proved library, called from Python, and a desk as its own readers see it: no rule and no place of a word stands here."""

import ctypes
import os
from collections import namedtuple

HERE = os.path.dirname(os.path.realpath(__file__))
PLACES = ("../../target/shared/libqsense_book.so",)

Word = ctypes.c_uint32
Words = ctypes.POINTER(Word)
Size = ctypes.c_size_t

# the states and the paths in the order of their numbers
STATES = ("Free", "Allocated", "Reachable", "Removed", "Retired")
FREE, ALLOCATED, REACHABLE, REMOVED, RETIRED = range(len(STATES))
PATHS = ("fast", "fallback")

Head = namedtuple("Head", "workers slots cards T Q C E clock path epoch")
Worker = namedtuple("Worker", "epoch calls presence mail present")
Slot = namedtuple("Slot", "seen armed claim")
Entry = namedtuple("Entry", "slot card time")
Card = namedtuple("Card", "state owner guest stamp list")
Portion = namedtuple("Portion", "refusal freed examined next left")


class Answer(ctypes.Structure):
    _fields_ = [("refusal", Word), ("value", Word)]


class PortionAnswer(ctypes.Structure):
    _fields_ = [(name, Word) for name in Portion._fields]


class Missing(Exception):
    """What is not there: the library, or a program of it."""


def found(places, what, made_by):
    """The first of these places, seen from here, at which there is a file."""
    for place in places:
        path = os.path.normpath(os.path.join(HERE, place))
        if os.path.exists(path):
            return path
    raise Missing(f"{what} is not there: {made_by} makes it")


def loaded():
    """The library's calls and readers."""
    path = found(PLACES, "the library", "tools/build-shared")
    try:
        calls = ctypes.CDLL(path)
    except OSError as error:
        raise Missing(f"the library cannot be loaded: {error}") from None
    calls.qsense_length.argtypes, calls.qsense_length.restype = [Word] * 3, Word
    calls.qsense_make.argtypes, calls.qsense_make.restype = [Words, Size] + [Word] * 7, Answer
    calls.qsense_step.argtypes, calls.qsense_step.restype = [Words, Size] + [Word] * 5, Answer
    calls.qsense_portion.argtypes, calls.qsense_portion.restype = [Words, Size] + [Word] * 3, PortionAnswer
    calls.readers_head.argtypes, calls.readers_head.restype = [Words, Size, Words], None
    for reader in (calls.readers_processes, calls.readers_nodes):
        reader.argtypes, reader.restype = [Words, Size, Word, Words], None
    for reader in (calls.readers_hazards, calls.readers_stores):
        reader.argtypes, reader.restype = [Words, Size, Word, Word, Words], None
    return calls


def rows(kind, numbers):
    """Numbers cut into rows of a named kind."""
    width = len(kind._fields)
    return [kind(*numbers[at : at + width]) for at in range(0, len(numbers), width)]


class Desk:
    """A desk at one moment, as the library's readers see it. A card in a slot or in the mail is its number, or None."""

    def __init__(self, calls, words):
        self.calls, self.words = calls, words
        (self.head,) = self.read(Head, 1, calls.readers_head)
        self.cards = self.read(Card, self.head.cards, calls.readers_nodes, self.head.cards)
        self.workers = self.read(Worker, self.head.workers, calls.readers_processes, self.head.workers)
        self.slots = [self.slots_of(worker) for worker in range(self.head.workers)]

    def read(self, kind, count, reader, *arguments):
        out = (Word * (count * len(kind._fields)))()
        reader(self.words, len(self.words), *arguments, out)
        return rows(kind, out[:])

    def slots_of(self, worker):
        slots = self.read(Slot, self.head.slots, self.calls.readers_hazards, worker, self.head.slots)
        return [Slot(numbered(slot.seen), numbered(slot.armed), bool(slot.claim)) for slot in slots]

    def mail(self, worker):
        """The entries that wait in a worker's mailbox, the oldest first."""
        count = self.workers[worker].mail
        entries = self.read(Entry, count, self.calls.readers_stores, worker, count)
        return [Entry(entry.slot, numbered(entry.card), entry.time) for entry in entries]


def numbered(stored):
    """The card that a slot or the mail holds."""
    return stored - 1 if stored else None
