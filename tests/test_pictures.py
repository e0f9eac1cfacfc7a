"""The pictures that `wcpdraw` draws: whole ones, and what a reader sees of their colours."""
import pathlib
import re

import pytest
from drawn import FOUND, PICTURES, Drawn
from programs import ask

# What stands before the shapes beside what `head` says.
STYLE = re.compile(r"<desc>[^<]*</desc>\n<style>\n.*</style>\n<defs>\n.*</defs>\n", re.DOTALL)


@pytest.mark.parametrize("words, text, status, picture", [it[1:] for it in PICTURES], ids=[it[0] for it in PICTURES])
def test_picture(wcpdraw: pathlib.Path, words: list[str], text: str, status: int, picture: Drawn) -> None:
    given, output, errors = ask(wcpdraw, words, text)
    assert (given, errors) == (status, "")
    assert STYLE.sub("", output, count=1) == picture.picture()


def lightness(colour: str) -> float:
    """The relative luminance of a colour, as the guidelines for web content have it."""
    digits = colour if len(colour) == 6 else "".join(2 * digit for digit in colour)
    parts = [int(digits[at:at + 2], 16) / 255 for at in (0, 2, 4)]
    red, green, blue = (part / 12.92 if part <= 0.04045 else ((part + 0.055) / 1.055) ** 2.4 for part in parts)
    return float(0.2126 * red + 0.7152 * green + 0.0722 * blue)


def contrast(one: str, other: str) -> float:
    """The contrast of two colours, from 1 to 21."""
    dark, light = sorted([lightness(one), lightness(other)])
    return (light + 0.05) / (dark + 0.05)


def colours(style: str) -> dict[str, set[str]]:
    """The colours of each kind of shape: by fill, and by stroke where it has one."""
    found: dict[str, set[str]] = {}
    for kinds, looks in re.findall(r"([.\w,]+)\{([^{}]*)\}", style):
        for what in re.findall(r"(?:fill|stroke):#(\w+)", looks):
            for kind in kinds.split(","):
                found.setdefault(kind.lstrip("."), set()).add(what)
    return found


@pytest.mark.parametrize("mode", ["light", "dark"])
def test_all_eyes_can_read_it(wcpdraw: pathlib.Path, mode: str) -> None:
    """Marks have three times the light of the ground or a third of it, texts 4.5 times, and what was true at the moment
    has an outline besides its colour."""
    style = ask(wcpdraw, [], FOUND).output
    light, dark = style.split("@media (prefers-color-scheme:dark)")
    found = colours(light if mode == "light" else dark.split("</style>")[0])
    ground, = found.pop("ground")
    for kind, given in found.items():
        least = 4.5 if kind == "text" else 3
        assert all(contrast(ground, colour) >= least for colour in given - {ground}), (kind, given)
    assert len(found["member"]) == 2
