"""The commands that a station, a collector and the programs of the tests send, over the data of a model."""

from typing import Any, Callable, Dict, List, NamedTuple

from .model_values import (FIRST, OK, Data, Entry, Hash, NoArray, Refusal, Stream, Words, pairs_of, read_bound, read_id,
                           read_int, shown_id)


class Command(NamedTuple):
    """A command: how many words it has, or at least where that is negative; whether it writes; what it does."""

    size: int
    writes: bool
    call: Callable[..., Any]


COMMANDS: Dict[str, Command] = {}
SYNTAX = "ERR syntax error"


def command(name: str, size: int, writes: bool = False) -> Callable[[Callable[..., Any]], Callable[..., Any]]:
    """Enters what a command does, which is called with the data and the words behind its name."""
    def enter(call: Callable[..., Any]) -> Callable[..., Any]:
        COMMANDS[name] = Command(size, writes, call)
        return call
    return enter


@command("GET", 2)
def get(data: Data, key: bytes) -> Any:
    return data.text(key)


@command("SET", -3, writes=True)
def set_(data: Data, key: bytes, value: bytes, *options: bytes) -> Any:
    if [it.upper() for it in options] not in ([], [b"NX"]):
        raise Refusal(SYNTAX)
    if options and key in data.values:
        return None
    data.put(key, value)
    return OK


@command("APPEND", 3, writes=True)
def append(data: Data, key: bytes, more: bytes) -> Any:
    whole = (data.text(key) or b"") + more
    data.put(key, whole)
    return len(whole)


@command("INCR", 2, writes=True)
def incr(data: Data, key: bytes) -> Any:
    before = data.text(key)
    number = 1 if before is None else read_int(before) + 1
    data.put(key, b"%d" % number)
    return number


@command("MGET", -2)
def mget(data: Data, *keys: bytes) -> Any:
    values = [data.values.get(key) for key in keys]
    return [value if isinstance(value, bytes) else None for value in values]


@command("EXISTS", -2)
def exists(data: Data, *keys: bytes) -> Any:
    return sum(key in data.values for key in keys)


@command("DEL", -2, writes=True)
def delete(data: Data, *keys: bytes) -> Any:
    return sum([data.drop(key) for key in keys])


@command("HGET", 3)
def hget(data: Data, key: bytes, field: bytes) -> Any:
    return data.hash(key).get(field)


@command("HMGET", -3)
def hmget(data: Data, key: bytes, *fields: bytes) -> Any:
    held = data.hash(key)
    return [held.get(field) for field in fields]


@command("HGETALL", 2)
def hgetall(data: Data, key: bytes) -> Any:
    return [word for pair in data.hash(key).items() for word in pair]


@command("HSET", -4, writes=True)
def hset(data: Data, key: bytes, *words: bytes) -> Any:
    if len(words) % 2:
        raise Refusal("ERR wrong number of arguments for 'hset' command")
    held = data.hash(key)
    before = len(held)
    held.update(zip(words[::2], words[1::2]))
    data.put(key, held)
    return len(held) - before


@command("HSETNX", 4, writes=True)
def hsetnx(data: Data, key: bytes, field: bytes, value: bytes) -> Any:
    held = data.hash(key)
    if field in held:
        return 0
    data.put(key, Hash({**held, field: value}))
    return 1


@command("HDEL", -3, writes=True)
def hdel(data: Data, key: bytes, *fields: bytes) -> Any:
    held = data.hash(key)
    gone = [field for field in dict.fromkeys(fields) if held.pop(field, None) is not None]
    if gone and held:
        data.put(key, held)
    elif gone:
        data.drop(key)
    return len(gone)


@command("RPUSH", -3, writes=True)
def rpush(data: Data, key: bytes, *words: bytes) -> Any:
    whole = Words(data.words(key) + words)
    data.put(key, whole)
    return len(whole)


@command("LRANGE", 4)
def lrange(data: Data, key: bytes, first: bytes, last: bytes) -> Any:
    start, end = read_int(first), read_int(last)
    held = data.words(key)
    start = max(0, start + len(held) if start < 0 else start)
    end = end + len(held) if end < 0 else end
    return list(held[start:end + 1])


@command("XADD", -5, writes=True)
def xadd(data: Data, key: bytes, entry: bytes, *fields: bytes) -> Any:
    if len(fields) % 2:
        raise Refusal("ERR wrong number of arguments for 'xadd' command")
    number = read_id(entry)
    if number == FIRST:
        raise Refusal("ERR The ID specified in XADD must be greater than 0-0")
    stream = data.stream(key) or Stream()
    if number <= stream.last:
        raise Refusal("ERR The ID specified in XADD is equal or smaller than the target stream top item")
    data.put(key, stream._replace(entries=(*stream.entries, (number, fields)), last=number, added=stream.added + 1))
    return shown_id(number)


@command("XLEN", 2)
def xlen(data: Data, key: bytes) -> Any:
    return len((data.stream(key) or Stream()).entries)


@command("XDEL", -3, writes=True)
def xdel(data: Data, key: bytes, *entries: bytes) -> Any:
    stream = data.stream(key)
    if stream is None:
        return 0
    numbers = [read_id(it) for it in entries]
    gone = [it for it, _ in stream.entries if it in numbers]
    if gone:
        left = tuple(it for it in stream.entries if it[0] not in gone)
        data.put(key, stream._replace(entries=left, deleted=max(stream.deleted, *gone)))
    return len(gone)


@command("XTRIM", -4, writes=True)
def xtrim(data: Data, key: bytes, how: bytes, *words: bytes) -> Any:
    if how.upper() != b"MINID" or len(words) != 1:
        raise Refusal(SYNTAX)
    least = read_id(words[0])
    stream = data.stream(key)
    if stream is None:
        return 0
    left = tuple(it for it in stream.entries if it[0] >= least)
    if len(left) < len(stream.entries):
        data.put(key, stream._replace(entries=left))
    return len(stream.entries) - len(left)


def counted(entries: List[Entry], options: Any) -> Any:
    if not options:
        return pairs_of(tuple(entries))
    if options[0].upper() != b"COUNT" or len(options) != 2:
        raise Refusal(SYNTAX)
    return pairs_of(tuple(entries[:read_int(options[1])]))


def between(data: Data, key: bytes, first: bytes, last: bytes) -> List[Entry]:
    start, end = read_bound(first, 0), read_bound(last, 2 ** 64 - 1)
    return [it for it in (data.stream(key) or Stream()).entries if start <= it[0] <= end]


@command("XRANGE", -4)
def xrange_(data: Data, key: bytes, first: bytes, last: bytes, *options: bytes) -> Any:
    return counted(between(data, key, first, last), options)


@command("XREVRANGE", -4)
def xrevrange(data: Data, key: bytes, last: bytes, first: bytes, *options: bytes) -> Any:
    return counted(between(data, key, first, last)[::-1], options)


@command("XREAD", -4)
def xread(data: Data, *words: bytes) -> Any:
    """As if the time of BLOCK had passed: nobody else writes while a command of a model runs."""
    most, at = 2 ** 64, 0
    while words[at].upper() in (b"COUNT", b"BLOCK"):
        if words[at].upper() == b"COUNT":
            most = read_int(words[at + 1])
        at += 2
    names = words[at + 1:]
    if words[at].upper() != b"STREAMS" or len(names) % 2 or not names:
        raise Refusal(SYNTAX)
    found = []
    for key, after in zip(names[:len(names) // 2], names[len(names) // 2:]):
        held = (data.stream(key) or Stream()).entries
        start = read_id(after)
        entries = [it for it in held if it[0] > start][:most]
        if entries:
            found.append([key, pairs_of(tuple(entries))])
    return found or NoArray


@command("XINFO", -2)
def xinfo(data: Data, what: bytes, key: bytes) -> Any:
    """The counts of the server's own tree are those of a short stream."""
    if what.upper() != b"STREAM":
        raise Refusal(SYNTAX)
    stream = data.stream(key)
    if stream is None:
        raise Refusal("ERR no such key")
    entries = stream.entries
    ends = pairs_of(entries[:1]) + pairs_of(entries[-1:]) if entries else [None, None]
    first = shown_id(entries[0][0] if entries else FIRST)
    return [b"length", len(entries), b"radix-tree-keys", 1, b"radix-tree-nodes", 2, b"last-generated-id",
            shown_id(stream.last), b"max-deleted-entry-id", shown_id(stream.deleted), b"entries-added", stream.added,
            b"recorded-first-entry-id", first, b"groups", 0, b"first-entry", ends[0], b"last-entry", ends[1]]
