#!/usr/bin/env python3
"""Writes the table of examples and the answers that it should get: crates/examples/stdin and stdout.

The first rows are about messages, the others about the processor. What the processor should answer comes from the model in
tools/processor.py, and where a group below says what it shows, that is compared with the model."""
import copy
import random

from processor import CUT, DRAIN, FULL_FENCE, LOAD, MOMENTS, STORE, STORE_FENCE, STRONG, WEAK, Machine
from wire import read, write
from wire_examples import answers, lines, set_byte, table, write_table

# The messages of the processor's rows.


def store(thread, address, width, value):
    return write(STORE, thread, address, width, value)


def strong(thread, address):
    return write(STRONG, thread, address)


def weak(thread, address):
    return write(WEAK, thread, address)


def fence(thread):
    return write(STORE_FENCE, thread)


def full(thread):
    return write(FULL_FENCE, thread)


def drain(thread):
    return write(DRAIN, thread)


def load(thread, address, width, value=0):
    return write(LOAD, thread, address, width, value)


def cut():
    return write(CUT)


def entry(kind, thread, address):
    return {STORE: store(thread, address, 1, address % 256), STRONG: strong(thread, address),
            WEAK: weak(thread, address), STORE_FENCE: fence(thread)}[kind]


# The processor's rows.

BATCH = 64  # messages in a row that plays, but for one row
machine = Machine()


def ask_open():
    global machine
    machine = Machine()
    lines.append('open')
    answers.append('opened')


def ask_log(message):
    fault = machine.log(message)
    lines.append(f'log {message.hex()}')
    answers.append('ok' if fault is None else 'fault {} {} {}'.format(*fault))
    check_bounds()
    return fault


def ask_play(recording):
    got = accepted, fault = machine.play(recording)
    lines.append(f'play {recording.hex()}'.rstrip())
    answers.append(f'accepted {accepted}' + ('' if fault is None else ', fault {} {} {}'.format(*fault)))
    check_bounds()
    return got


def ask_state():
    """A row of the state, unless the last row is one."""
    if lines[-1] != 'state':
        lines.append('state')
        answers.append(state_line())


def entry_text(waiting):
    if waiting.kind == STORE:
        return f's{waiting.address}/{waiting.width}={waiting.value}'
    return {STRONG: f'f{waiting.line}', WEAK: f'w{waiting.line}', STORE_FENCE: 'x'}[waiting.kind]


def source_text(source):
    if source is None:
        return '-'
    if source[0] == 'waiting':
        return f'w{source[1]}'
    return f'c{source[1]}:{source[2]}'


def sources_text(kept):
    return ','.join(map(source_text, kept.sources))


def state_line():
    counts = [run.count for run in machine.runs] + [0] * (5 - len(machine.runs))
    words = ['run', machine.present(), 'accepted', machine.accepted, 'counts', *counts, 'waiting']
    words += [','.join(map(entry_text, thread.waiting)) or '-' for thread in machine.threads]
    words += ['floors'] + ([f'{r}/{line}={floor}' for r, run in enumerate(machine.runs)
                            for line, floor in sorted(run.floors.items())] or ['-'])
    words += ['stores'] + ([f'{r}/{moment}@{s.address}/{s.width}={s.value}' for r, run in enumerate(machine.runs)
                            for moment, s in run.stores] or ['-'])
    words += ['loads'] + ([f'{k.run}/{k.thread}@{k.address}/{k.width}={k.value}[{sources_text(k)}]'
                           for k in machine.loads] or ['-'])
    return ' '.join(map(str, words))


def expect(holds):
    if not holds:
        raise AssertionError('the model does not answer what this row should show')


def check_bounds():
    """What holds at all times."""
    waiting = sum(len(thread.waiting) for thread in machine.threads)
    expect(machine.moments() <= MOMENTS)
    expect(machine.accepted <= 2 * machine.moments() + waiting + len(machine.loads) + 33 * machine.present())
    expect(all(floor <= run.count for run in machine.runs for floor in run.floors.values()))
    expect(all(mark <= machine.runs[-1].count for thread in machine.threads for _, mark in thread.flush_set))


def steps(*messages):
    """Logs messages that are accepted."""
    for message in messages:
        expect(ask_log(message) is None)


def left(*messages):
    """Logs messages that are accepted. Each entry leaves at once, and the state follows."""
    for message in messages:
        steps(message)
        if message[1] in (STORE, STRONG, WEAK, STORE_FENCE):
            steps(drain(message[2]))
        ask_state()


def played(messages):
    """Plays messages that are accepted."""
    for at in range(0, len(messages), BATCH):
        batch = messages[at:at + BATCH]
        expect(ask_play(b''.join(batch)) == (len(batch), None))


def refused(message, *fault):
    """Logs a message that is refused, with the state before and after."""
    ask_state()
    before = copy.deepcopy(machine)
    expect(ask_log(message) == fault)
    expect(machine == before)
    ask_state()


def halted(messages, accepted, *fault):
    """Plays messages up to a refused one, with the state before and after."""
    ask_state()
    expect(ask_play(b''.join(messages)) == (accepted, fault))
    ask_state()


def floors(*expected):
    """The floors of each run."""
    expect([run.floors for run in machine.runs] == list(expected))
    ask_state()


def looks(thread, address, width, expected, value=0):
    """Loads, and the store of each byte is as expected."""
    steps(load(thread, address, width, value))
    expect(sources_text(machine.loads[-1]) == expected)
    ask_state()


# A message of each of the refusals of reading.
PLAIN = write(STORE, 3, 64, 1, 5)
BAD = {
    1: PLAIN[:15],
    2: set_byte(PLAIN, 0, 0x3F),
    3: set_byte(PLAIN, 1, 9),
    4: set_byte(PLAIN, 0, 0x07),
    5: set_byte(PLAIN, 15, 1),
    6: set_byte(PLAIN, 2, 4),
    7: set_byte(PLAIN, 4, 16),
    8: set_byte(PLAIN, 5, 3),
    9: store(3, 65, 2, 5),
    10: set_byte(PLAIN, 9, 1),
}
BAD_PLACES = {1: 0, 2: 0, 3: 1, 4: 0, 5: 15, 6: 2, 7: 3, 8: 5, 9: 3, 10: 9}


# A message that does not read is refused by the processor too, before anything else is looked at.
def unread_messages():
    ask_open()
    steps(store(3, 64, 1, 4), store(3, 64, 1, 5), drain(3), load(3, 64, 1))
    for number, message in BAD.items():
        refused(message, number, 1, BAD_PLACES[number])
    refused(PLAIN[:1], 1, 1, 0)
    refused(PLAIN + b'\0', 1, 1, 0)
    # the buffer is full as well, and then no cut is left as well
    steps(*[fence(3)] * 7)
    refused(BAD[10], 10, 1, 9)
    steps(*[cut()] * 4)
    refused(set_byte(cut(), 2, 1), 5, 1, 2)


# A ninth waiting entry, of each kind; the other threads have room, and a drain makes room.
def ninth_entries():
    for kind in (STORE, STRONG, WEAK, STORE_FENCE):
        thread = kind - STORE
        other = (thread + 1) % 4
        ask_open()
        for i in range(8):
            steps(entry(kind, thread, 64 * i))
        for ninth in (STORE, STRONG, WEAK, STORE_FENCE):
            refused(entry(ninth, thread, 8), 11, 2, thread)
        steps(entry(kind, other, 8), drain(thread), entry(kind, thread, 9))
        refused(entry(kind, thread, 10), 11, 2, thread)
        steps(load(thread, 8, 1), full(thread), entry(kind, thread, 11))
        ask_state()


# A drain of an empty buffer: in a new case, next to other buffers, after drains, after a full fence, after a cut.
def empty_drains():
    ask_open()
    for thread in range(4):
        refused(drain(thread), 12, 2, thread)
    steps(store(0, 0, 1, 1), strong(2, 0))
    refused(drain(1), 12, 2, 1)
    refused(drain(3), 12, 2, 3)
    steps(drain(0))
    refused(drain(0), 12, 2, 0)
    steps(full(2))
    refused(drain(2), 12, 2, 2)
    steps(fence(3), cut())
    refused(drain(3), 12, 2, 3)


# A full fence with 8 waiting, at 503 moments taken and at 504.
def full_fences_at_the_end():
    waiting = [store(1, 0, 8, 1), weak(1, 0), fence(1), store(1, 8, 8, 2), weak(1, 8), strong(1, 64), store(1, 64, 4, 3),
               weak(1, 64)]
    ask_open()
    played([full(0)] * 503)
    steps(*waiting)
    ask_state()
    steps(full(1))
    # the fence at 506 raises line 0 to 504; the full fence at 512 raises it to 507, and line 1 from 509 to 510
    floors({0: 507, 1: 510})
    refused(full(1), 13, 3, 0)

    ask_open()
    played([full(0)] * 504)
    steps(*waiting)
    refused(full(1), 13, 3, 0)
    steps(drain(1))
    refused(full(1), 13, 3, 0)
    steps(full(2))
    refused(full(1), 13, 3, 0)
    steps(*[drain(1)] * 6)
    refused(drain(1), 13, 3, 0)
    floors({0: 505, 1: 511})

    # at 511 moments a full fence passes with nothing waiting, and not with one entry
    ask_open()
    played([full(0)] * 511)
    steps(store(1, 0, 1, 1))
    refused(full(1), 13, 3, 0)
    steps(full(2))
    refused(full(2), 13, 3, 0)


# A drain at 511 and at 512 moments taken, and of an empty buffer at 512; what takes no moment is still accepted.
def drains_at_the_end():
    ask_open()
    played([full(3)] * 511)
    steps(store(0, 0, 1, 1), store(0, 0, 1, 2))
    ask_state()
    steps(drain(0))
    refused(drain(0), 13, 3, 0)
    refused(drain(1), 12, 2, 1)
    refused(full(1), 13, 3, 0)
    steps(store(1, 0, 1, 3), strong(1, 0), weak(2, 0), fence(2), load(0, 0, 1), load(2, 0, 1))
    refused(drain(1), 13, 3, 0)
    steps(*[fence(3)] * 8)
    refused(fence(3), 11, 2, 3)
    steps(cut())
    refused(drain(1), 12, 2, 1)
    refused(full(1), 13, 3, 1)


# The moments of all runs count together, and the place is the present run.
def moments_of_later_runs():
    ask_open()
    for run, taken in enumerate((100, 212, 0, 199)):
        played([full(run)] * taken)
        steps(store(run, 8 * run, 8, run), cut())
        ask_state()
    steps(store(2, 0, 1, 1), store(2, 0, 1, 2))
    refused(full(2), 13, 3, 4)
    steps(drain(2))
    refused(drain(2), 13, 3, 4)
    refused(full(0), 13, 3, 4)

    ask_open()
    steps(cut())
    played([store(0, 0, 2, 258), drain(0)] * 10 + [full(0)] * 502)
    for run in (1, 2, 3, 4):
        steps(weak(run % 4, 0))
        refused(drain(run % 4), 13, 3, run)
        refused(full(0), 13, 3, run)
        refused(drain((run + 1) % 4), 12, 2, (run + 1) % 4)
        if run < 4:
            steps(cut())


# The 257th load, and one in a later run: the loads of all runs count together.
def too_many_loads():
    ask_open()
    played([load(i % 4, i % 64, 1, i % 256) for i in range(255)])
    ask_state()
    steps(load(3, 0, 8, 7))
    refused(load(0, 0, 1), 14, 3, 0)
    refused(load(3, 4095, 1, 9), 14, 3, 0)
    steps(store(0, 0, 1, 1), full(0), cut())
    refused(load(2, 0, 1), 14, 3, 1)


# The fifth cut; the last run goes on.
def too_many_cuts():
    ask_open()
    for run in range(4):
        left(store(run, 64 * run, 1, run), strong(run, 64 * run))
        steps(store(0, 0, 1, 9), cut())
        ask_state()
    refused(cut(), 15, 3, 4)
    left(store(0, 0, 1, 1), strong(0, 0))
    steps(load(1, 0, 1))
    refused(cut(), 15, 3, 4)
    floors({0: 2}, {1: 2}, {2: 2}, {3: 2}, {0: 2})


# What leaves, one after the other from moment 1 on, and the floors then, for each run.
MARKS = [
    # nothing before the weak flush: the mark is 0, and not its own moment
    ([weak(0, 0), fence(0)], {}),
    # the last store of the thread on the line
    ([store(0, 0, 8, 1), weak(0, 0), fence(0)], {0: 1}),
    ([store(0, 0, 8, 1), store(0, 8, 8, 2), store(0, 64, 8, 3), weak(0, 32), fence(0)], {0: 2}),
    ([store(0, 64, 8, 1), weak(0, 0), fence(0)], {}),
    # the last strong flush of the thread on the line
    ([store(0, 0, 8, 1), strong(0, 63), weak(0, 0), fence(0)], {0: 2}),
    ([strong(0, 0), store(0, 0, 8, 1), weak(0, 0), fence(0)], {0: 2}),
    # the last store fence, with a store before it or none; the line does not matter
    ([store(0, 0, 8, 1), fence(0), weak(0, 0), fence(0)], {0: 2}),
    ([fence(0), weak(0, 320), fence(0)], {5: 1}),
    ([fence(0), fence(0), weak(0, 320), weak(0, 4095), fence(0)], {5: 2, 63: 2}),
    ([strong(0, 0), fence(0), weak(0, 0), fence(0)], {0: 2}),
    # the last full fence
    ([store(0, 0, 8, 1), full(0), weak(0, 0), fence(0)], {0: 2}),
    ([fence(0), full(0), weak(0, 0), fence(0)], {0: 2}),
    ([full(0), fence(0), weak(0, 0), fence(0)], {0: 2}),
    ([full(0), weak(0, 0), full(0)], {0: 1}),
    # the larger of the fence and the line's moment
    ([fence(0), store(0, 0, 8, 1), weak(0, 0), fence(0)], {0: 2}),
    ([full(0), store(0, 0, 8, 1), weak(0, 0), full(0)], {0: 2}),
    ([fence(0), strong(0, 0), weak(0, 0), fence(0)], {0: 2}),
    ([store(0, 0, 8, 1), fence(0), store(0, 64, 8, 2), weak(0, 0), weak(0, 64), fence(0)], {0: 2, 1: 3}),
    # a weak flush is no store or strong flush of the line: it adds nothing to the next mark
    ([store(0, 0, 8, 1), weak(0, 0), weak(0, 0), fence(0)], {0: 1}),
    # stores, strong flushes and fences of others do not count
    ([store(1, 0, 8, 1), weak(0, 0), fence(0)], {}),
    ([store(1, 0, 8, 1), weak(0, 0), fence(0), weak(1, 0), fence(1)], {0: 1}),
    ([store(0, 0, 8, 1), store(1, 0, 8, 2), weak(0, 0), fence(0)], {0: 1}),
    ([store(1, 0, 8, 1), store(0, 8, 8, 2), store(2, 0, 8, 3), weak(0, 0), fence(0)], {0: 2}),
    ([store(0, 0, 8, 1), strong(1, 64), weak(0, 0), weak(0, 64), fence(0)], {0: 1, 1: 2}),
    ([fence(1), full(2), weak(0, 0), fence(0)], {}),
    # a store after the weak flush is not covered
    ([store(0, 0, 8, 1), weak(0, 0), store(0, 0, 8, 2), fence(0)], {0: 1}),
    ([weak(0, 0), store(0, 0, 8, 2), fence(0)], {}),
    # a fence raises and empties the set: a second one raises nothing
    ([store(0, 0, 8, 1), weak(0, 0), fence(0), store(0, 0, 8, 2), fence(0)], {0: 1}),
    ([store(0, 0, 8, 1), weak(0, 0), fence(0), store(0, 0, 8, 2), full(0)], {0: 1}),
    ([store(0, 0, 8, 1), weak(0, 0), full(0), store(0, 0, 8, 2), fence(0)], {0: 1}),
    ([store(0, 0, 8, 1), weak(0, 0), fence(0), store(0, 0, 8, 2), weak(0, 0), fence(0)], {0: 4}),
    # a smaller mark does not lower a floor
    ([store(0, 0, 8, 1), weak(0, 0), strong(1, 0), fence(0)], {0: 3}),
    ([store(0, 0, 8, 1), weak(0, 0), strong(0, 0), fence(0)], {0: 3}),
    ([store(0, 0, 8, 1), weak(0, 0), store(1, 0, 8, 2), weak(1, 0), fence(1), fence(0)], {0: 3}),
    # of two weak flushes of a line the larger mark acts
    ([store(0, 0, 8, 1), weak(0, 0), store(0, 0, 8, 2), weak(0, 0), fence(0)], {0: 3}),
    ([store(0, 0, 8, 1), weak(0, 0), weak(0, 64), store(0, 8, 8, 2), weak(0, 63), weak(0, 0), fence(0)], {0: 4}),
    # fences of others raise nothing of mine
    ([store(0, 0, 8, 1), weak(0, 0), fence(1), full(2), full(3)], {}),
    ([store(0, 0, 8, 1), weak(0, 0), fence(1), full(2), fence(0)], {0: 1}),
    # each thread has its own set
    ([store(0, 0, 8, 1), store(1, 64, 8, 2), store(2, 0, 8, 3), store(3, 64, 8, 4), weak(0, 0), weak(1, 64), weak(2, 0),
      weak(3, 64), fence(0), fence(3), fence(1)], {0: 1, 1: 4}),
    # strong flushes raise to their own moment, each time
    ([strong(0, 0), strong(1, 0), strong(2, 64), strong(0, 0)], {0: 4, 1: 3}),
    # a cut loses the flush sets
    ([store(0, 0, 8, 1), weak(0, 0), cut(), fence(0), full(0)], {}, {}),
    ([full(0), full(0), weak(0, 0), cut(), full(1), full(1), full(1), full(0)], {}, {}),
    # and the last store, strong flush and fence on which a mark would stand, and the floors; the closed run keeps its own
    ([store(0, 0, 8, 1), cut(), full(1), full(1), weak(0, 0), fence(0)], {}, {}),
    ([strong(0, 0), cut(), full(1), full(1), weak(0, 0), fence(0)], {0: 1}, {}),
    ([fence(0), cut(), full(1), full(1), weak(0, 0), fence(0)], {}, {}),
    ([full(0), cut(), full(1), full(1), weak(0, 0), fence(0)], {}, {}),
    ([store(0, 0, 8, 1), fence(0), strong(0, 0), cut(), store(0, 0, 8, 2), weak(0, 0), fence(0)], {0: 3}, {0: 1}),
    ([store(0, 0, 8, 1), strong(1, 0), cut(), cut(), strong(1, 0)], {0: 2}, {}, {0: 1}),
]


# The marks of weak flushes: each entry leaves as soon as it waits; and where all are entries of one thread, once more, with
# all waiting before the first leaves, since a mark is taken when the flush leaves.
def marks():
    for messages, *expected in MARKS:
        ask_open()
        left(*messages)
        floors(*expected)
        if len(messages) <= 8 and all(m[1] < FULL_FENCE and m[2] == messages[0][2] for m in messages):
            ask_open()
            steps(*messages)
            ask_state()
            steps(*[drain(messages[0][2])] * len(messages))
            floors(*expected)


# Full fences with entries waiting: all of them leave first, in order.
def full_fences():
    ask_open()
    steps(store(0, 0, 8, 1), weak(0, 0), store(0, 0, 8, 2))
    ask_state()
    steps(full(0))
    floors({0: 1})
    steps(store(0, 0, 8, 1), weak(0, 0), fence(0), store(0, 0, 8, 2), weak(0, 0), strong(0, 64), weak(0, 64), weak(0, 128))
    steps(store(1, 0, 8, 3), weak(1, 0))
    ask_state()
    # from moment 5 on: the last mark is that of the store fence at 7
    steps(full(0))
    floors({0: 8, 1: 10, 2: 7})
    steps(full(1))
    floors({0: 14, 1: 10, 2: 7})


# A cut loses what waits, of every thread, and what waited takes no moment.
def lost_entries():
    ask_open()
    for thread in range(4):
        steps(store(thread, 0, 8, thread), weak(thread, 0), fence(thread), strong(thread, 64))
    steps(drain(2), drain(1), drain(2))
    ask_state()
    steps(cut())
    floors({}, {})
    steps(full(2), full(1))
    floors({}, {})
    left(store(3, 0, 8, 7), strong(3, 0))
    steps(cut(), cut())
    floors({}, {0: 4}, {}, {})


# A set with all lines, one with many weak flushes of two lines, and one with all lines that is lost at a cut.
def large_flush_sets():
    ask_open()
    played([m for n in range(64) for m in (store(0, 64 * n, 1, n), weak(0, 64 * n + n), drain(0), drain(0))])
    ask_state()
    steps(fence(0), drain(0))
    floors({n: 2 * n + 1 for n in range(64)})
    played([m for n in range(64) for m in (weak(1, 64 * n), drain(1), weak(2, 64 * n), drain(2))])
    steps(full(1))
    floors({n: 2 * n + 1 for n in range(64)})

    ask_open()
    steps(full(3))
    played([m for _ in range(250) for m in (weak(3, 4095), drain(3), weak(3, 0), drain(3))])
    ask_state()
    steps(store(3, 0, 1, 1), weak(3, 0), weak(3, 64), full(3))
    floors({0: 502, 1: 1, 63: 1})

    ask_open()
    played([m for n in range(64) for m in (store(0, 64 * n, 1, n), weak(0, 64 * n + n), drain(0), drain(0))])
    steps(cut())
    played([full(3)] * 100)
    played([m for n in range(64) for m in (weak(0, 64 * n), drain(0))])
    steps(full(0))
    floors({}, {})


# A byte of a wide store seen by narrow loads, and wide loads over narrow stores, waiting and cached.
def wide_and_narrow():
    ask_open()
    steps(store(0, 0, 8, 0x0807060504030201))
    looks(0, 3, 1, 'w4')
    looks(0, 6, 2, 'w7,w8', 0xFFFF)
    looks(0, 0, 8, 'w1,w2,w3,w4,w5,w6,w7,w8')
    looks(0, 8, 8, '-,-,-,-,-,-,-,-')
    steps(drain(0))
    looks(0, 3, 1, 'c1:4')
    looks(1, 4, 4, 'c1:5,c1:6,c1:7,c1:8')
    steps(store(1, 2, 2, 0x0B0A), store(1, 7, 1, 0x0C))
    looks(1, 0, 8, 'c1:1,c1:2,w10,w11,c1:5,c1:6,c1:7,w12')
    looks(0, 0, 8, 'c1:1,c1:2,c1:3,c1:4,c1:5,c1:6,c1:7,c1:8')
    steps(drain(1))
    looks(1, 0, 8, 'c1:1,c1:2,c2:10,c2:11,c1:5,c1:6,c1:7,w12')
    looks(2, 0, 8, 'c1:1,c1:2,c2:10,c2:11,c1:5,c1:6,c1:7,c1:8')

    ask_open()
    steps(store(0, 17, 1, 1), store(0, 18, 2, 0x0302), full(0), store(0, 20, 1, 4), store(0, 23, 1, 0), store(1, 16, 8, 9))
    looks(0, 16, 8, '-,c1:1,c2:2,c2:3,w4,-,-,w0')
    looks(1, 16, 4, 'w9,w0,w0,w0')
    looks(2, 16, 4, '-,c1:1,c2:2,c2:3')
    looks(2, 20, 4, '-,-,-,-')


# Each aligned store within eight bytes, waiting or cached, against each aligned load.
def all_pairs():
    ask_open()
    places = [(at, width) for width in (1, 2, 4, 8) for at in range(0, 8, width)]
    for i, (at, width) in enumerate(places):
        base = 256 * i + 8 * i
        steps(store(i % 4, base + at, width, int.from_bytes(bytes(range(11, 11 + width)), 'little')))
        if i % 2:
            steps(drain(i % 4))
        played([load(i % 4, base + a, w) for a, w in places])
        if i % 5 == 4:
            ask_state()
    for i, (at, width) in enumerate(places):
        for j, (a, w) in enumerate(places):
            sources = machine.loads[15 * i + j].sources
            expect([s is not None for s in sources] == [at <= b < at + width for b in range(a, a + w)])


# Which store gives a byte.
def which_store():
    # the youngest waiting one; flushes and fences in between hide nothing
    ask_open()
    steps(store(0, 0, 1, 1), store(0, 0, 1, 2), strong(0, 0), store(0, 0, 2, 0x0403), weak(0, 0), store(0, 1, 1, 5))
    steps(fence(0))
    looks(0, 0, 2, 'w3,w5')
    looks(0, 0, 4, 'w3,w5,-,-')
    steps(drain(0))
    looks(0, 0, 1, 'w3')
    steps(*[drain(0)] * 3)
    looks(0, 0, 2, 'c4:3,w5')
    steps(full(0))
    looks(0, 0, 2, 'c4:3,c6:5')

    # another thread does not see a waiting store
    ask_open()
    steps(store(0, 0, 1, 1))
    for thread in (1, 2, 3):
        looks(thread, 0, 1, '-')
    looks(0, 0, 1, 'w1')
    steps(drain(0))
    for thread in range(4):
        looks(thread, 0, 1, 'c1:1')

    # a waiting one goes before a cached one, be that of the same thread or younger and of another
    ask_open()
    steps(store(0, 0, 1, 1), store(0, 0, 1, 2), drain(0))
    looks(0, 0, 1, 'w2')
    looks(1, 0, 1, 'c1:1')
    steps(store(1, 0, 1, 3), drain(1))
    looks(0, 0, 1, 'w2')
    looks(1, 0, 1, 'c2:3')
    steps(drain(0))
    looks(1, 0, 1, 'c3:2')

    # the last cached one, by moments and not by threads or by the order in which they began to wait
    ask_open()
    steps(store(3, 8, 4, 1), store(0, 8, 4, 2), store(1, 8, 2, 3), drain(0), drain(3), drain(1))
    for thread in range(4):
        looks(thread, 8, 4, 'c3:3,c3:0,c2:0,c2:0')
    looks(0, 8, 8, 'c3:3,c3:0,c2:0,c2:0,-,-,-,-')

    # an equal value makes no difference
    ask_open()
    steps(store(0, 0, 1, 7), store(0, 0, 1, 7), store(0, 0, 1, 7), drain(0), drain(0))
    looks(1, 0, 1, 'c2:7', 7)
    looks(0, 0, 1, 'w7', 7)

    # a store of a closed run gives nothing, nor does what was lost
    ask_open()
    steps(store(0, 0, 8, 1), drain(0), strong(0, 0), drain(0), store(0, 0, 8, 2))
    looks(0, 0, 1, 'w2')
    looks(1, 0, 1, 'c1:1')
    steps(cut())
    looks(0, 0, 1, '-')
    looks(1, 0, 8, '-,-,-,-,-,-,-,-', 1)
    steps(store(1, 1, 1, 3))
    looks(1, 0, 4, '-,w3,-,-')
    steps(drain(1))
    looks(0, 0, 4, '-,c1:3,-,-')


# A kept load stays as it is when its store leaves, is covered by another, or is lost.
def kept_loads():
    ask_open()
    steps(store(0, 0, 1, 1))
    looks(0, 0, 2, 'w1,-', 0x1234)
    kept = list(machine.loads)
    for message in (drain(0), store(1, 0, 2, 2), drain(1), store(0, 0, 2, 3), cut(), store(0, 0, 2, 4), full(0)):
        steps(message)
        ask_state()
        expect(machine.loads == kept)
    ask_open()
    steps(store(2, 40, 8, 2 ** 64 - 1))
    looks(2, 40, 8, ','.join(['w255'] * 8), 2 ** 64 - 1)
    steps(cut(), load(2, 40, 8, 0))
    ask_state()


# The ends of lines and of the memory.
def ends_of_lines():
    ask_open()
    left(store(0, 56, 8, 2 ** 64 - 1), store(1, 64, 8, 0x0807060504030201), store(2, 4088, 8, 0x1817161514131211))
    looks(0, 56, 8, ','.join(['c1:255'] * 8))
    looks(0, 63, 1, 'c1:255')
    looks(0, 64, 1, 'c2:1')
    looks(0, 48, 8, '-,-,-,-,-,-,-,-')
    looks(0, 72, 8, '-,-,-,-,-,-,-,-')
    looks(3, 4095, 1, 'c3:24')
    looks(3, 4080, 8, '-,-,-,-,-,-,-,-')
    steps(store(3, 4095, 1, 9), store(3, 0, 1, 8))
    looks(3, 4088, 8, 'c3:17,c3:18,c3:19,c3:20,c3:21,c3:22,c3:23,w9')
    looks(3, 4094, 2, 'c3:23,w9')
    looks(2, 4094, 2, 'c3:23,c3:24')
    looks(3, 0, 2, 'w8,-')
    steps(drain(3), drain(3))
    looks(0, 4092, 4, 'c3:21,c3:22,c3:23,c4:9')
    left(strong(0, 63))
    floors({0: 6})
    left(strong(0, 64))
    floors({0: 6, 1: 7})
    left(strong(1, 127), strong(2, 4031), strong(3, 4032))
    floors({0: 6, 1: 8, 62: 9, 63: 10})
    left(strong(0, 4095), strong(0, 0))
    floors({0: 12, 1: 8, 62: 9, 63: 11})
    left(store(1, 4088, 8, 0), weak(1, 4095), fence(1))
    floors({0: 12, 1: 8, 62: 9, 63: 13})
    left(store(2, 4095, 1, 0), weak(2, 4032), fence(2))
    floors({0: 12, 1: 8, 62: 9, 63: 16})
    # any address of its line
    ask_open()
    for address in list(range(128, 192)) + [127, 192]:
        steps(strong(0, address), drain(0))
    floors({1: 65, 2: 64, 3: 66})
    for address in list(range(128, 192, 7)) + [127, 192]:
        steps(store(1, address, 1, 1), weak(1, address ^ 63), full(1))
    ask_state()


# Recordings: empty, with a short last part, and with a fault in the middle, after which nothing is looked at.
def recordings():
    good = [store(1, 8, 8, 1), strong(1, 8), drain(1), drain(1), load(1, 8, 4, 1)]
    ask_open()
    ask_state()
    expect(ask_play(b'') == (0, None))
    ask_state()
    played(good)
    ask_state()
    expect(ask_play(b'') == (0, None))
    ask_state()
    for length in (1, 8, 15):
        halted([good[0][:length]], 0, 1, 1, 0)
        halted(good + [good[0][:length]], 5, 1, 1, 0)
    halted(good + [b'\0'], 5, 1, 1, 0)
    # a short last part does not matter before it is reached, nor does what is behind a fault
    halted(good + [drain(1), good[0], cut(), b'\0'], 5, 12, 2, 1)
    halted([drain(0)] + good, 0, 12, 2, 0)
    halted([drain(0)] * 5, 0, 12, 2, 0)
    # a case goes on after a fault
    played(good)
    ask_state()
    # the refusals of reading
    for number in range(2, 11):
        ask_open()
        halted([PLAIN, drain(3), BAD[number], cut(), BAD[2]], 2, number, 1, BAD_PLACES[number])
    # those of the buffers
    for kind in (STORE, STRONG, WEAK, STORE_FENCE):
        ask_open()
        halted([entry(kind, kind - 1, 64 * i) for i in range(9)] + [cut()], 8, 11, 2, kind - 1)
    ask_open()
    halted([store(2, 0, 1, 1), drain(2), drain(2), cut()], 2, 12, 2, 2)
    # those of the case
    ask_open()
    played([full(0)] * 300 + [cut()] + [full(1)] * 200)
    halted([full(2)] * 14 + [cut()], 12, 13, 3, 1)
    halted([store(0, 0, 1, 1), drain(0), cut()], 1, 13, 3, 1)
    ask_open()
    played([load(1, 0, 1, 0)] * 200)
    halted([load(2, 64, 2, 0)] * 60, 56, 14, 3, 0)
    halted([cut(), load(2, 64, 2, 0), cut()], 1, 14, 3, 1)
    ask_open()
    halted([cut()] * 6, 4, 15, 3, 4)


# As many messages as a case takes: 512 entries that drain, 32 that wait at each of four cuts and at the end, and 256 loads.
def most_messages():
    def one_entry(i, thread):
        kind = (STORE, STORE, STRONG, STORE, WEAK, STORE_FENCE, STORE, WEAK)[(i + i // 8) % 8]
        return entry(kind, thread, 37 * i % 4096)

    ask_open()
    everything, made = [], 0
    for run, drains in enumerate((100, 100, 100, 100, 112)):
        messages = [one_entry(i, i % 4) for i in range(made, made + 32)]
        for i in range(drains):
            messages += [drain(i % 4), one_entry(made + 32 + i, i % 4)]
        made += 32 + drains
        messages += [load(i % 4, 37 * (made - 2 * i) % 4096, 1, i) for i in range(52 if run == 4 else 51)]
        played(messages)
        ask_state()
        everything += messages
        if run < 4:
            steps(cut())
            everything.append(cut())
            expect(machine.accepted == len(everything))
    expect(machine.accepted == len(everything) == 1444)
    for kind in (STORE, STRONG, WEAK, STORE_FENCE):
        refused(entry(kind, kind - 1, 0), 11, 2, kind - 1)
    refused(drain(1), 13, 3, 4)
    refused(full(2), 13, 3, 4)
    refused(load(3, 0, 1), 14, 3, 4)
    refused(cut(), 15, 3, 4)
    # the same in one recording
    last = state_line()
    ask_open()
    halted(everything + [cut()], 1444, 15, 3, 4)
    expect(state_line() == last)


# Cases of random messages. Only `random()` is asked, whose numbers do not change from one Python to the next.
def random_cases():
    chance = random.Random(20260).random

    def below(n):
        return int(chance() * n)

    def random_message(weights, some_lines):
        at, kind = chance() * sum(weights), 1
        while at >= weights[kind - 1] and kind < 8:
            at -= weights[kind - 1]
            kind += 1
        thread = below(4)
        width = 1 << below(4)
        line = some_lines[below(len(some_lines))] if chance() < 0.9 else below(64)
        offset = below(16) if chance() < 0.8 else below(64)
        if kind in (STORE, LOAD):
            message = write(kind, thread, 64 * line + offset // width * width, width, below(256 ** min(width, 4)))
            if width == 8 and chance() < 0.8:
                message = message[:10] + bytes(below(256) for _ in range(4)) + message[14:]
        else:
            message = write(kind, thread, 64 * line + offset)
        if chance() < 0.02:
            message = set_byte(message, below(16), below(256))
        elif chance() < 0.005:
            message = message[:1 + below(15)]
        return message

    # store, strong flush, weak flush, store fence, full fence, drain, load, power cut
    mixes = [
        [24, 6, 10, 6, 3, 38, 12, 0.7],
        [30, 8, 12, 6, 1, 30, 10, 0.5],
        [20, 4, 16, 10, 6, 36, 6, 1],
        [14, 10, 10, 10, 10, 30, 12, 4],
        [26, 1, 6, 2, 1, 24, 40, 1],
    ]
    for case in range(40):
        some_lines = [below(64) for _ in range(1 + below(4))]
        ask_open()
        for i in range(60 + below(141)):
            ask_log(random_message(mixes[case % len(mixes)], some_lines))
            if i % 20 == 19:
                ask_state()
        ask_state()


def processor_rows():
    unread_messages()
    ninth_entries()
    empty_drains()
    full_fences_at_the_end()
    drains_at_the_end()
    moments_of_later_runs()
    too_many_loads()
    too_many_cuts()
    marks()
    full_fences()
    lost_entries()
    large_flush_sets()
    wide_and_narrow()
    all_pairs()
    which_store()
    kept_loads()
    ends_of_lines()
    recordings()
    most_messages()
    random_cases()


table()
of_messages = len(lines)
processor_rows()
write_table('examples')
print(of_messages, 'examples of messages,', len(lines) - of_messages, 'of the processor')
