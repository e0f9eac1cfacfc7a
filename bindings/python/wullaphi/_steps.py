"""The steps of a station on the wire: one MULTI for its notes, its probe and what the program writes itself.

Redis takes nothing back: where a command in a MULTI fails, the others are done. So notes and probe are one command, a
script. It comes as a whole each time, since a server that takes over lacks what another one was given before.

Most steps have no writes of the program's own. Then it is known what the server answers where all is well, so that its
replies need only be compared.
"""

from typing import Any, Callable, Sequence, Tuple

from ._library import NOTE_SIZE
from ._line import LOOK, Keys
from ._note import Note
from ._wire import packed

# Adds the notes to the stream and saves the probe, or does neither. The ids of the entries rise, so only the first can
# be refused: the key is no stream, or has got entries from somebody else. What the program writes in the same step is
# done then, and may tell others of what no note tells, so the process gets the mark of that.
PUT = b"""\
for at = 3, #ARGV, 2 do
 local reply = redis.pcall('XADD', KEYS[1], ARGV[at], 'note', ARGV[at + 1])
 if type(reply) == 'table' then redis.call('HSET', KEYS[3], ARGV[2], 1) return reply end
end
return redis.call('SET', KEYS[2], ARGV[1])"""

# What stands in front of a note.
_SIZE = b"$%d\r\n" % NOTE_SIZE


class Steps:
    """The steps of a process whose newest station has this token. Behind each it looks whether it still is.

    From each look on the server watches what the station stands on: the word of the newest station, the saved probe
    and the names of the watch. Where any of it is changed or gone, as by a newer station, eviction, FLUSHALL or the
    data of another server, the next step is not done."""

    def __init__(self, keys: Keys, process: int, token: bytes, encode: Callable[[Any], bytes]) -> None:
        self.look: Tuple[Tuple[Any, ...], ...] = (
            ("WATCH", keys.owner(process), keys.probe(process), keys.names), ("GET", keys.owner(process)), LOOK)
        self._encode = encode
        self._multi = packed(("MULTI",), encode)
        probe, stream, conditions = (_word(key.encode()) for key in (
            keys.probe(process), keys.notes(process), keys.conditions))
        # The first words of commands, of which the others follow.
        self._save = b"*3\r\n$3\r\nSET\r\n" + probe
        # Does nothing, for the probe is there. But what a script calls is refused only in the middle of the step; this
        # stands for it, where memory is full, the server takes no writes, or the user has lost the right to them.
        self._test = b"*4\r\n$3\r\nSET\r\n" + probe + b"$0\r\n\r\n$2\r\nNX\r\n"
        self._put = b"$4\r\nEVAL\r\n%b$1\r\n3\r\n%b%b%b" % (_word(PUT), stream, probe, conditions)
        self._mark = _word(keys.untold(process).encode())
        self._end = b"".join(packed(words, encode) for words in (("EXEC",), *self.look))
        self._ended = b"+OK\r\n" + _word(token)

    def pack(self, notes: Sequence[Note], probe: bytes, is_saved: bool,
             writes: Sequence[Tuple[Any, ...]]) -> Tuple[bytes, int, bytes]:
        """The commands of a step; how many they are; and what the server replies where the step is done, up to the
        answer to `LOOK`, or nothing where that isn't known. `is_saved` says that the server has this probe already."""
        ours = [self._test, self._putting(notes, probe)] if notes else [] if is_saved else [self._save + _word(probe)]
        commands = [self._multi, *ours[:-1], *(packed(words, self._encode) for words in writes), *ours[-1:], self._end]
        count = len(ours) + len(writes)
        done = (b"", b"+OK\r\n", b"$-1\r\n+OK\r\n")[len(ours)]
        replies = b"" if writes else b"".join((
            b"+OK\r\n", b"+QUEUED\r\n" * count, b"*%d\r\n" % count, done, self._ended))
        return b"".join(commands), count + 5, replies

    def _putting(self, notes: Sequence[Note], probe: bytes) -> bytes:
        """The command for these notes and the probe that has given them."""
        words = [b"*%d\r\n" % (8 + 2 * len(notes)), self._put, _word(probe), self._mark]
        for note in notes:
            words += _word(b"%d-0" % (note.number + 1)), _SIZE, note, b"\r\n"
        return b"".join(words)


def _word(data: bytes) -> bytes:
    return b"$%d\r\n%b\r\n" % (len(data), data)
