"""Texts as they are printed: none of them can make a line of its own, or steer a terminal."""


def printable(text: str) -> str:
    r"""The text with escapes, as Python spells them, for what isn't printable.

    >>> print(printable("grüße\tan\nalle"))
    grüße\tan\nalle
    """
    return "".join([it if it.isprintable() else it.encode("unicode_escape").decode() for it in text])


def shown(name: str) -> str:
    r"""A name as it is printed. A backslash of its own is doubled, so that two names never look the same.

    >>> print(shown("ada"), shown("a\nb"), shown(r"a\nb"))
    ada a\nb a\\nb
    """
    return printable(name.replace("\\", "\\\\"))
