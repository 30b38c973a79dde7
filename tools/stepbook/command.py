"""The command `book`: its words, its exit status, and what it says where it cannot work."""

import os
import sys

from . import library, programs, replay, schedule
from .schedule import Wrong

USAGE = """Step books: schedules in words, turned into bytes and back.

book make FILE.txt > FILE.book       the book of a schedule
book show FILE.book                  the schedule of a book
book upgrade OLD.book > NEW.book     a book from before the parameter E, with E = 0
book cut FILE.book STEPS > NEW.book  the book of its first STEPS steps, to ask `why` in the middle of a run
book run FILE.book                   what `desk` prints for it

The exit status is 0; 1 if the schedule is wrong or the book is refused, if something cannot be read or written, or is not there, and if
the command is called otherwise.

A schedule has a line for the desk and a line a step; '#' starts a comment. A line is one of these:
"""

FAILED = 1


class Misused(Exception):
    """A command that is called otherwise than USAGE says."""


def usage():
    forms = [schedule.DESK, *map(schedule.form, schedule.KINDS), schedule.ANY]
    return USAGE + "".join(f"\n    {line}" for line in forms) + "\n"


def run(content):
    shown, refused = programs.run(content)
    return shown, FAILED if refused else 0


# each with how many words follow it: a path and what else it takes
COMMANDS = {
    "make": (lambda content: (schedule.make(content), 0), 1),
    "show": (lambda content: (schedule.show(content), 0), 1),
    "upgrade": (lambda content: (schedule.upgrade(content), 0), 1),
    "cut": (lambda content, steps: (schedule.cut(content, steps), 0), 2),
    "run": (run, 1),
}


def parsed(words):
    """A command as a function of a file's content, and the file's path."""
    command, follow = COMMANDS.get(words[0], (None, 0)) if words else (None, 0)
    if command is None or len(words) != 1 + follow:
        raise Misused
    path, *others = words[1:]
    return (lambda content: command(content, *others)), path


def write(output):
    """Writes all bytes to standard output."""
    view = memoryview(output)
    while view:
        view = view[os.write(1, view) :]


def complain(text):
    try:
        sys.stderr.write(text if text.endswith("\n") else text + "\n")
    except OSError:
        pass
    return FAILED


def answered(command, path):
    """The output of a command and its exit status; what is wrong is said."""
    try:
        with open(path, "rb") as file:
            content = file.read()
        return command(content)
    except OSError as error:
        return None, complain(f"book: {path}: cannot read: {error.strerror}")
    except (library.Missing, programs.Failed) as error:
        return None, complain(f"book: {error}")
    except (Wrong, replay.Refused) as wrong:
        return None, complain(f"book: {path}: {wrong}")


def main(words):
    """Does what the words say, and answers the exit status."""
    output, status = usage().encode(), 0
    if words not in (["--help"], ["help"]):
        try:
            command, path = parsed(words)
        except Misused:
            return complain(usage())
        output, status = answered(command, path)
    try:
        write(output or b"")
    except OSError as error:
        return complain(f"book: cannot write standard output: {error.strerror}")
    return status
