"""A small model of the processor that a case follows, written from docs/PROCESSOR.md and from no other code of this
repository, to hold the programs against."""
from dataclasses import dataclass, field

from wire import read

STORE, STRONG, WEAK, STORE_FENCE, FULL_FENCE, DRAIN, LOAD, CUT = range(1, 9)
THREADS, ROOM, MOMENTS, LOADS, CUTS = 4, 8, 512, 256, 4
LAYERS = {1: ('message', 'byte'), 2: ('buffers', 'thread'), 3: ('case', 'run')}
REASONS = {
    11: "8 entries wait in its thread's buffer",
    12: "no entry waits in its thread's buffer",
    13: 'the moments do not suffice',
    14: '256 loads are kept',
    15: 'four cuts were made',
}


@dataclass(frozen=True)
class Entry:
    """What waits in a buffer. A flush has an address of its line, a store fence has none."""
    kind: int
    address: int = 0
    width: int = 0
    value: int = 0

    @property
    def line(self):
        return self.address // 64

    def covers(self, address):
        return self.kind == STORE and self.address <= address < self.address + self.width

    def byte(self, address):
        return self.value >> 8 * (address - self.address) & 255


@dataclass
class Run:
    count: int = 0
    stores: list = field(default_factory=list)  # (moment, entry), by moments
    floors: dict = field(default_factory=dict)  # by lines, those above 0

    def raise_floor(self, line, moment):
        if moment > self.floors.get(line, 0):
            self.floors[line] = moment


@dataclass
class Thread:
    """What is known of a thread in the present run."""
    waiting: list = field(default_factory=list)  # entries, oldest first
    flush_set: list = field(default_factory=list)  # (line, mark)
    last_fence: int = 0
    last_on_line: dict = field(default_factory=dict)  # the last cached store or strong flush, by lines


@dataclass(frozen=True)
class Load:
    """Each source is ('waiting', byte), ('cached', moment, byte) or None."""
    run: int
    thread: int
    address: int
    width: int
    value: int
    sources: tuple


@dataclass
class Machine:
    accepted: int = 0
    runs: list = field(default_factory=lambda: [Run()])
    threads: list = field(default_factory=lambda: [Thread() for _ in range(THREADS)])
    loads: list = field(default_factory=list)

    def present(self):
        """The number of the present run."""
        return len(self.runs) - 1

    def moments(self):
        return sum(run.count for run in self.runs)

    def log(self, message):
        """None, or the number, layer and place of the refusal, which changes nothing."""
        event = read(message)
        if isinstance(event, tuple):
            number, place = event
            return number, 1, place
        kind, thread, address, width, value = event
        number = self.refusal(kind, thread)
        if number in (11, 12):
            return number, 2, thread
        if number:
            return number, 3, self.present()
        if kind == STORE:
            self.threads[thread].waiting.append(Entry(STORE, address, width, value))
        elif kind in (STRONG, WEAK):
            self.threads[thread].waiting.append(Entry(kind, address))
        elif kind == STORE_FENCE:
            self.threads[thread].waiting.append(Entry(STORE_FENCE))
        elif kind == DRAIN:
            self.leave(self.threads[thread])
        elif kind == FULL_FENCE:
            while self.threads[thread].waiting:
                self.leave(self.threads[thread])
            self.fence(self.threads[thread], self.next_moment())
        elif kind == LOAD:
            sources = tuple(self.source(thread, address + i) for i in range(width))
            self.loads.append(Load(self.present(), thread, address, width, value, sources))
        else:
            self.runs.append(Run())
            self.threads = [Thread() for _ in range(THREADS)]
        self.accepted += 1
        return None

    def refusal(self, kind, thread):
        """The smallest number whose condition holds, or None."""
        waiting = len(self.threads[thread].waiting)
        if kind in (STORE, STRONG, WEAK, STORE_FENCE) and waiting == ROOM:
            return 11
        if kind == DRAIN and waiting == 0:
            return 12
        if kind == DRAIN and self.moments() == MOMENTS:
            return 13
        if kind == FULL_FENCE and self.moments() + waiting + 1 > MOMENTS:
            return 13
        if kind == LOAD and len(self.loads) == LOADS:
            return 14
        if kind == CUT and self.present() == CUTS:
            return 15
        return None

    def next_moment(self):
        self.runs[-1].count += 1
        return self.runs[-1].count

    def leave(self, thread):
        entry = thread.waiting.pop(0)
        moment = self.next_moment()
        if entry.kind == STORE:
            self.runs[-1].stores.append((moment, entry))
            thread.last_on_line[entry.line] = moment
        elif entry.kind == STRONG:
            self.runs[-1].raise_floor(entry.line, moment)
            thread.last_on_line[entry.line] = moment
        elif entry.kind == WEAK:
            mark = max(thread.last_fence, thread.last_on_line.get(entry.line, 0))
            thread.flush_set.append((entry.line, mark))
        else:
            self.fence(thread, moment)

    def fence(self, thread, moment):
        for line, mark in thread.flush_set:
            self.runs[-1].raise_floor(line, mark)
        thread.flush_set = []
        thread.last_fence = moment

    def source(self, thread, address):
        for entry in reversed(self.threads[thread].waiting):
            if entry.covers(address):
                return 'waiting', entry.byte(address)
        for moment, entry in reversed(self.runs[-1].stores):
            if entry.covers(address):
                return 'cached', moment, entry.byte(address)
        return None

    def play(self, recording):
        """How many messages of the recording were accepted, and the refusal of the next one, or None at the end."""
        accepted = 0
        for at in range(0, len(recording), 16):
            fault = self.log(recording[at:at + 16])
            if fault:
                return accepted, fault
            accepted += 1
        return accepted, None
