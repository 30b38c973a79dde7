"""A step book run by the proved library: what each step answered, and the desk before and after it."""

from collections import namedtuple

from . import library, schedule

PORTION = schedule.NUMBERS["portion"]

# a step by its number (from 0) and its line in what `book show` prints (the desk's line is 1, ticks in a row stand on one); its five
# numbers; what it answered, with all numbers of a portion; the desk before and after it
Event = namedtuple("Event", "number line step refusal value portion before after")


class Refused(Exception):
    """A book that the desk refuses, with the number."""

    def __init__(self, number):
        super().__init__(f"refused {number}")
        self.number = number


def made(calls, parameters):
    """The words of a fresh desk."""
    words = (library.Word * calls.qsense_length(*parameters[:3]))()
    answer = calls.qsense_make(words, len(words), *parameters)
    if answer.refusal:
        raise Refused(answer.refusal)
    return words


def taken(calls, words, step):
    """What a step answers; the words are changed in place."""
    kind, worker, _slot, card, guest = step
    if kind == PORTION:
        answer = calls.qsense_portion(words, len(words), worker, card, guest)
        portion = library.Portion(*(getattr(answer, name) for name in library.Portion._fields))
        return portion.refusal, portion.freed, portion
    answer = calls.qsense_step(words, len(words), *step)
    return answer.refusal, answer.value, None


def started(parameters, steps):
    """The fresh desk, and the run of the steps on it, an Event each."""
    calls = library.loaded()
    words = made(calls, parameters)
    fresh = library.Desk(calls, copied(words))
    return fresh, events(calls, words, fresh, steps)


def events(calls, words, desk, steps):
    line = 1
    for number, step in enumerate(steps):
        if not (number and step[0] == schedule.TICK == steps[number - 1][0]):
            line += 1
        refusal, value, portion = taken(calls, words, step)
        before, desk = desk, desk if refusal else library.Desk(calls, copied(words))
        yield Event(number, line, step, refusal, value, portion, before, desk)


def copied(words):
    return type(words).from_buffer_copy(words)
