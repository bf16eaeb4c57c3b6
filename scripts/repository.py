"""What the scripts know of the repository: where it is, and its crates."""
from pathlib import Path

TOP = Path(__file__).resolve().parent.parent


class Failure(Exception):
    """Why a script could not do its work, told in one line."""


def stands_on():
    """By crate of crates.txt: the libraries that it stands on."""
    found = {}
    for line in (TOP / "crates.txt").read_text(encoding="utf-8").splitlines():
        head, colon, libraries = line.partition("#")[0].partition(":")
        if colon:
            found[head.split()[0]] = libraries.split()
    return found


def crates_in_order():
    """The crates of crates.txt, lowest first."""
    below, order = stands_on(), []
    while len(order) < len(below):
        ready = [crate for crate in below if crate not in order and all(it in order or it not in below for it in below[crate])]
        if not ready:
            raise Failure("crates.txt has a circle")
        order += ready
    return order
