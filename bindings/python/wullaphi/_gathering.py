"""A meeting of stations on many machines: who is there stands on the Redis server."""

import time
import uuid
from typing import Dict, Iterable, List, Mapping, Optional, Tuple, Union

from ._line import Keys, client_of, package
from ._places import GaveUp, Meetings, Place, Visit, Where
from ._watch import Watch

# The seconds after which an entry runs out that nobody has renewed: that of a process which was killed.
LASTS = 9.0

# One step of the server, for a process by its number among those of the meeting. Its entry has the token of its visit.
#
# Each that comes or leaves begins a round. Where all are there, each tells the server that it has seen that, by the
# number of the round: so it stood there as the last one came, and was alive. Once all have told, they have met.
STEP = b"""\
local op, me, token, lasts = ARGV[1], tonumber(ARGV[2]), ARGV[3], ARGV[4]
local state, log, count = KEYS[1], KEYS[2], (#KEYS - 2) / 2
local function entry(i) return KEYS[2 + i] end
local function is_there(i) return redis.call('EXISTS', entry(i)) == 1 end
local function get(name) return redis.call('HGET', state, name) end
local function set(name, value) return redis.call('HSET', state, name, value) end
local function is_mine() return redis.call('HGET', entry(me), 'token') == token end
local function others(fits)
 local found = {}
 for i = 1, count do if i ~= me and fits(i) then found[#found + 1] = i - 1 end end
 return table.concat(found, ',')
end
local function is_absent(i) return not is_there(i) end
local function has_gone(i) return get('came:' .. i) and not is_there(i) end
local function has_ended(i) return get('ended:' .. i) end
local function wake()
 for i = 1, count do
  redis.call('DEL', KEYS[2 + count + i])
  redis.call('RPUSH', KEYS[2 + count + i], 1)
  redis.call('PEXPIRE', KEYS[2 + count + i], lasts)
 end
end
local function leave()
 if is_mine() then redis.call('DEL', entry(me)) redis.call('HINCRBY', state, 'round', 1) end
 if get('visit:' .. me) == token then
  redis.call('HDEL', state, 'visit:' .. me)
  if not get('met') then
   redis.call('RPUSH', log, (me - 1) .. '|' .. others(is_absent) .. '|' .. get('gone:' .. me))
  end
 end
end
local function answer()
 if get('met') then return {'go', 0} end
 if not is_mine() or others(has_ended) ~= '' then return {'go', 0} end
 if others(is_absent) == '' then return {'all', tonumber(get('round'))} end
 return {'wait', 0}
end
if op == 'come' and not get('met') then
 redis.call('HINCRBY', state, 'came:' .. me, 1)
 redis.call('HSET', state, 'visit:' .. me, token, 'gone:' .. me, others(has_gone))
 redis.call('DEL', entry(me), KEYS[2 + count + me])
 redis.call('HSET', entry(me), 'token', token, 'place', ARGV[5])
 redis.call('PEXPIRE', entry(me), lasts)
 redis.call('HINCRBY', state, 'round', 1)
 if others(is_absent) == '' then wake() end
elseif op == 'stay' and is_mine() then
 redis.call('PEXPIRE', entry(me), lasts)
elseif op == 'see' and answer()[1] == 'all' and ARGV[5] == get('round') then
 set('seen:' .. me, ARGV[5])
 local has_seen = function(i) return get('seen:' .. i) == ARGV[5] end
 if others(function(i) return not has_seen(i) end) == '' then
  for i = 1, count do set('met:' .. i, redis.call('HGET', entry(i), 'place')) end
  set('met', 1)
  wake()
 end
 return {get('met') and 'go' or 'wait', 0}
elseif op == 'leave' then
 leave()
elseif op == 'end' then
 set('ended:' .. me, 1)
 wake()
end
return answer()"""


class Meeting(Meetings):
    """A meeting of the stations of a watch, as `wullaphi.Meeting` is one of threads: each process makes it with the
    same places, and gives it to `open_station(.., meeting=meeting)`. A watch has one meeting. A text as a place is a
    tag: "7" waits where the process has observed with `tag=7`.

    A process that is killed while it waits, or loses its server, is no longer there after some seconds; and they have
    met only where each has told the server that it saw all the others. `met`, `came`, `gave_up` and `never_came` ask
    the server; where it can't be reached, that is an error of the package `redis`.

    Places and patience are refused as by `wullaphi.Meeting`; places that aren't those which another process has given
    are a `ValueError`, and so is a name that the watch hasn't.
    """

    def __init__(self, url: str, watch: Watch, places: Mapping[str, Where], patience: float = 10.0) -> None:
        super().__init__(places, patience)
        self.check(watch.names or ())
        self._names = [name for name in watch.names or () if name in self.places]
        self._client = client_of(url)
        keys = Keys(watch.number)
        self._waking = [keys.waking(watch.number_of(name)) for name in self._names]
        self._keys = [keys.meeting, keys.gave_up, *(keys.standing(watch.number_of(name)) for name in self._names),
                      *self._waking]
        self._agree(watch.number)

    def _agree(self, watch: int) -> None:
        """All processes have the same places."""
        told = repr([(name, self.places[name]) for name in self._names])
        self._client.hsetnx(self._keys[0], "places", told)
        held = self._client.hget(self._keys[0], "places").decode()
        if held != told:
            raise ValueError(f"the meeting of watch {watch} has the places {held} on the server, and not {told}")

    @property
    def met(self) -> Optional[Dict[str, Place]]:
        """The moment that happened: the place of each. `None` where they haven't met."""
        state = self._state()
        return {name: _place(state[f"met:{it}"]) for it, name in self._numbered()} if "met" in state else None

    @property
    def came(self) -> Dict[str, int]:
        """How often each has come to its place."""
        state = self._state()
        return {name: int(state.get(f"came:{it}", 0)) for it, name in self._numbered()}

    @property
    def gave_up(self) -> List[GaveUp]:
        """Each time that one went on without the others."""
        return [self._told(entry.decode()) for entry in self._client.lrange(self._keys[1], 0, -1)]

    def meet(self, visit: Visit) -> None:
        """The process of the visit waits at its place for the others."""
        token = uuid.uuid4().hex
        visit.leave = lambda: self._try("leave", visit.name, token)
        try:
            if not visit.is_over:
                self._stand(visit, token)
        except package().RedisError:
            pass  # the entry runs out; the next step of the station says what is wrong
        finally:
            visit.go()

    def _stand(self, visit: Visit, token: str) -> None:
        """Stands there until all have met or some won't come, or until patience is over."""
        end = time.monotonic() + self.patience
        wakes = self._waking[self._names.index(visit.name)]
        answer, number = self._step("come", visit.name, token, f"{visit.place.interval}|{visit.place.at}")
        while answer != b"go" and not visit.is_over:
            if answer == b"all":
                answer, _ = self._step("see", visit.name, token, number)
            left = end - time.monotonic()
            if answer == b"go" or left <= 0:
                break
            self._client.blpop(wakes, timeout=max(0.001, min(left, LASTS / 3)))
            if not visit.is_over:
                answer, number = self._step("stay", visit.name, token)

    def end(self, name: str) -> None:
        """The process has ended, and won't come any more: nobody waits for it."""
        if name in self.places:
            self._try("end", name, "")

    def _try(self, what: str, name: str, token: str) -> None:
        """Makes a step that may fail: then the entry runs out, and the others wait as long as they have patience."""
        try:
            self._step(what, name, token)
        except package().RedisError:
            pass

    def _step(self, what: str, name: str, token: str, more: Union[str, int] = "") -> Tuple[bytes, int]:
        words = what, self._names.index(name) + 1, token, int(LASTS * 1000), more
        answer, number = self._client.eval(STEP, len(self._keys), *self._keys, *words)
        return answer, number

    def _numbered(self) -> Iterable[Tuple[int, str]]:
        return enumerate(self._names, 1)

    def _state(self) -> Dict[str, str]:
        return {name.decode(): value.decode() for name, value in self._client.hgetall(self._keys[0]).items()}

    def _told(self, entry: str) -> GaveUp:
        """What an entry of the log says: numbers of processes."""
        name, missing, gone = (tuple(self._names[int(it)] for it in part.split(",") if it) for part in entry.split("|"))
        return GaveUp(name[0], missing, gone)


def _place(text: str) -> Place:
    interval, _, at = text.partition("|")
    return Place(int(interval), at)
