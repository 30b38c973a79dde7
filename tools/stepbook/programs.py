"""The proved programs `desk` and `why`, run on a book."""

import os
import subprocess

from .library import found

PLACES = ("../../target/bin/",)


class Failed(Exception):
    """A program that could not read or write, with what it said."""


def printed(name, words, book):
    """What a program prints for a book. DESK and WHY name other programs than those of this tree."""
    path = os.environ.get(name.upper()) or found([place + name for place in PLACES], f"the program {name}", "'make run'")
    done = subprocess.run([path, *words], input=book, capture_output=True, check=False)
    if done.stderr or done.returncode:
        said = done.stderr.decode(errors="replace").strip()
        raise Failed(said or f"{name} ended with {done.returncode}")
    return done.stdout


def run(book):
    """The print of a book, and whether it is refused."""
    shown = printed("desk", [], book)
    return shown, shown.startswith(b"refused ")


def why(card, book):
    """The line of `why` for a card after the last step of a book."""
    return printed("why", [str(card)], book).decode().rstrip("\n")
