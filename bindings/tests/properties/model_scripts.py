"""Scripts of EVAL in a model, by a real Lua."""

import hashlib
from typing import Any, Callable, List, Tuple

import lupa  # type: ignore[import]

from .model_values import NoArray, Refusal, Status

Run = Callable[[Tuple[bytes, ...]], Any]


def run_script(script: bytes, keys: Tuple[bytes, ...], words: Tuple[bytes, ...], run: Run) -> Any:
    """The reply to a script, whose commands `run` does. What it has done stays done where it fails."""
    lua = lupa.LuaRuntime(encoding=None)
    told = lua.globals()
    told[b"KEYS"], told[b"ARGV"] = lua.table(*keys), lua.table(*words)

    def call(*command: Any) -> Any:
        return to_lua(lua, run(tuple(map(word_of, command))))

    def pcall(*command: Any) -> Any:
        try:
            return call(*command)
        except Refusal as refusal:
            return to_lua(lua, refusal)

    told[b"redis"] = lua.table_from({b"call": call, b"pcall": pcall})
    try:
        return from_lua(lua.execute(script))
    except Refusal as refusal:
        place = f" script: {hashlib.sha1(script).hexdigest()}, on @user_script:"
        return Refusal(f"{refusal}{place}")


def word_of(value: Any) -> bytes:
    """A word of a command that a script makes."""
    return value if isinstance(value, bytes) else b"%d" % value


def to_lua(lua: Any, reply: Any) -> Any:
    """A reply as a script sees it."""
    if isinstance(reply, Refusal):
        return lua.table_from({b"err": str(reply).encode()})
    if isinstance(reply, Status):
        return lua.table_from({b"ok": bytes(reply)})
    if reply is None or reply is NoArray:
        return False
    if isinstance(reply, list):
        return lua.table(*(to_lua(lua, it) for it in reply))
    return reply


def from_lua(value: Any) -> Any:
    """What a script returns as a reply."""
    if value is None or value is False:
        return None
    if isinstance(value, (int, float)):
        return int(value)
    if isinstance(value, bytes):
        return value
    if value[b"err"] is not None:
        return Refusal(value[b"err"].decode())
    if value[b"ok"] is not None:
        return Status(value[b"ok"])
    listed: List[Any] = []
    while value[len(listed) + 1] is not None:
        listed.append(from_lua(value[len(listed) + 1]))
    return listed
