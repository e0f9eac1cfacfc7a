"""JSON of others, looked at member by member: what isn't as it should be is told with its place."""

import json
from typing import Any, Dict, List, Optional

MOST_OF_A_TIME = 0xFFFF_FFFF_FFFF_FFFF


class Wrong(ValueError):
    """Something stands where something else belongs, or is missing."""


def spelled(value: Any) -> str:
    """A value as a fault shows it, cut where it is long."""
    text = json.dumps(value)
    return text if len(text) <= 60 else text[:57] + "..."


def text(of: Dict[str, Any], name: str) -> str:
    """A member that is a text; the empty one where it is missing."""
    value = of.get(name)
    if value is None:
        return ""
    if not isinstance(value, str):
        raise Wrong(f"{name} is {spelled(value)} and no text")
    return value


def an_object(of: Dict[str, Any], name: str) -> Dict[str, Any]:
    """A member that is an object; one without members where it is missing."""
    value = of.get(name)
    if value is None:
        return {}
    if not isinstance(value, dict):
        raise Wrong(f"{name} is {spelled(value)} and no object")
    return value


def objects(of: Dict[str, Any], name: str) -> List[Dict[str, Any]]:
    """A member that is a list of objects; none where it is missing."""
    value = of.get(name)
    if value is None:
        return []
    if not isinstance(value, list):
        raise Wrong(f"{name} is {spelled(value)} and no list")
    for at, one in enumerate(value):
        if not isinstance(one, dict):
            raise Wrong(f"{name}[{at}] is {spelled(one)} and no object")
    return value


def whole_number(of: Dict[str, Any], name: str) -> Optional[int]:
    """A member that is a whole number of 64 bits, or the text of one; None where it is missing."""
    value = of.get(name)
    if value is None:
        return None
    if isinstance(value, str) and value.isascii() and value.isdigit() and len(value) <= 20:
        value = int(value)
    if type(value) is not int or not 0 <= value <= MOST_OF_A_TIME:
        raise Wrong(f"{name} is {spelled(value)} and no whole number of 64 bits")
    return value


def identifier(of: Dict[str, Any], name: str, digits: int, is_whole: bool = True) -> int:
    """A member that is a number in hexadecimal digits, as many as these, or no more where it isn't whole; 0 where it is
    missing or empty."""
    value = text(of, name)
    if not value:
        return 0
    try:
        if not value.isalnum() or len(value) > digits or (is_whole and len(value) != digits):
            raise ValueError
        return int(value, 16)
    except ValueError:
        wanted = digits if is_whole else f"at most {digits}"
        raise Wrong(f"{name} is {spelled(value)} and not {wanted} hexadecimal digits") from None


def needed(number: int, name: str) -> int:
    """An identifier that must be there: 0 is none."""
    if not number:
        raise Wrong(f"{name} is missing or zero")
    return number
