"""Lists and tables that scripts write into other files. Paths are from the top."""
import sys
from typing import NamedTuple

from building import TOP, arguments, misused


class Place(NamedTuple):
    """A list in a file, between two texts, of which the first stands there once. Up to an empty line or the end where the second is one."""

    path: str
    before: str
    behind: str
    lines: str


def read(path):
    with open(f"{TOP}/{path}", encoding="utf-8") as file:
        return file.read()


def filled(text, place):
    """The text of a file with the list of a place."""
    if text.count(place.before) != 1:
        sys.exit(f"{place.path}: there has to be one {place.before!r}, behind which a list is written")
    begin = text.index(place.before) + len(place.before)
    end = text.find(place.behind, begin) if place.behind else (text + "\n").find("\n\n", begin) + 1
    if end < begin:
        sys.exit(f"{place.path}: there is no end of the list behind {place.before!r}")
    return text[:begin] + place.lines + text[end:]


def contents(places):
    """The files with their lists, by their paths."""
    texts = {}
    for place in places:
        texts[place.path] = filled(texts.get(place.path) or read(place.path), place)
    return texts


def write(texts):
    """Writes files, and prints their paths."""
    for path, text in texts.items():
        with open(f"{TOP}/{path}", "w", encoding="utf-8") as file:
            file.write(text)
        print(path)


def write_or_check(script, usage, places, faults=()):
    """Does what a script's words ask for, and ends it. Without any it writes lists, and prints the files that change. With `--check` it writes
    nothing, and prints the files that the script would change, and these faults besides; it ends with 1 where there is one."""
    words = arguments(usage, least=0)
    if words not in ([], ["--check"]):
        misused(usage)
    changed = {path: text for path, text in contents(places).items() if text != read(path)}
    if not words:
        write(changed)
        sys.exit(0)
    lines = [*(f"{path} isn't what {script} writes" for path in changed), *faults]
    print("\n".join(lines), end="\n" if lines else "")
    sys.exit(bool(lines))
