"""Trials and their answers as docs/TRIAL.md lays them out, a leg in them, and document 01's times.

A time counts units of 2^-32 s; recording and output are planar.
"""

import math
import re
import struct
import sys
from array import array
from collections import namedtuple

from tool import TOP, Fault, read_whole

KINDS = {1: "Start", 2: "StartImmediate", 3: "Stop", 4: "EnableLoop", 5: "CancelLoop", 6: "CancelAll"}
START, START_IMMEDIATE, STOP, ENABLE_LOOP, CANCEL_LOOP, CANCEL_ALL = KINDS
PHASES = ("Stopped", "FadingIn", "Playing", "FadingOut")

Trial = namedtuple("Trial", "rate frames fade_frames channels out_channels recording table steps")

# The four steps. `held` is what the output holds before a block.
Command = namedtuple("Command", "record")
Block = namedtuple("Block", "start frames held")
TakeLeg = namedtuple("TakeLeg", "leg")
Blocks = namedtuple("Blocks", "start frames count")

# What a step is answered with. `output` is there for a Block alone, `blocks` for Blocks alone.
Answer = namedtuple("Answer", "number pieces output blocks leg")

Leg = namedtuple("Leg", "rate channels frames fade_frames voices active loop position start_position completed events")
Voice = namedtuple("Voice", "phase fade_position position")
Event = namedtuple("Event", "kind time first second")

MARK = b"TRL1"
HEAD = struct.Struct("<IIIBBIII")
RECORD = struct.Struct("<Hqqq")
LEG = struct.Struct("<IBII" + "BQQ" * 2 + "B" + "Bqq" + "qqQ" + "B" + "Bqqq" * 16)


# Times, as document 01 has them. Python's float is its f64.

def time_of(frames, rate):
    """T: one division, then the nearest unit, ties to even. The product with 2^32 is exact."""
    return round(frames / rate * 2.0**32)


def frames_of(time, rate):
    """S: the time to f64, times the rate, rounded once."""
    return float(time) / 2.0**32 * rate


def whole_frames_of(time, rate):
    """S rounded half away from zero; a negative count becomes 0."""
    exact = max(frames_of(time, rate), 0.0)
    floor = math.floor(exact)
    return floor + (exact - floor >= 0.5)


# Writing a trial.

def command(kind, time=0, first=0, second=0):
    return Command(RECORD.pack(kind, time, first, second))


def block_over_zeros(start, frames, out_channels):
    return Block(start, frames, array("f", bytes(4 * frames * out_channels)))


def trial_bytes(trial):
    head = HEAD.pack(trial.rate, trial.frames, trial.fade_frames, trial.channels, trial.out_channels,
                     len(trial.recording), len(trial.table), len(trial.steps))
    parts = [MARK, head, f32_bytes(trial.recording), f32_bytes(trial.table)]
    parts += [step_bytes(step) for step in trial.steps]
    return b"".join(parts)


def step_bytes(step):
    if isinstance(step, Command):
        return struct.pack("<BH", 1, len(step.record)) + step.record
    if isinstance(step, Block):
        return struct.pack("<BqHH", 2, step.start, step.frames, len(step.held)) + f32_bytes(step.held)
    if isinstance(step, TakeLeg):
        return b"\x03" + step.leg
    return struct.pack("<BqHI", 4, *step)


def f32_bytes(entries):
    entries = array("f", entries)
    if sys.byteorder == "big":
        entries.byteswap()
    return entries.tobytes()


# Reading a trial and its answers.

class Bytes:
    """Bytes read in order. Where they end too early, the fault names the part that is cut."""

    def __init__(self, data, name):
        self.data, self.name, self.at, self.part = data, name, 0, ""

    def take(self, count):
        if self.at + count > len(self.data):
            raise Fault(f"{self.name} ends at byte {len(self.data)}, in {self.part}")
        self.at += count
        return self.data[self.at - count:self.at]

    def numbers(self, layout):
        return struct.unpack(layout, self.take(struct.calcsize(layout)))

    def entries(self, count):
        entries = array("f", self.take(4 * count))
        if sys.byteorder == "big":
            entries.byteswap()
        return entries


def read_trial(data, name):
    """The first trial of a file."""
    source = Bytes(data, name)
    source.part = "the head of the first trial"
    if source.take(4) != MARK:
        raise Fault(f"{name} does not begin with TRL1")
    rate, frames, fade_frames, channels, out_channels, a, b, steps = source.numbers(HEAD.format)
    source.part = "the recording"
    recording = source.entries(a)
    source.part = "the fade table"
    table = source.entries(b)
    return Trial(rate, frames, fade_frames, channels, out_channels, recording, table,
                 [read_step(source, f"step {i + 1} of {steps}") for i in range(steps)])


def read_step(source, part):
    source.part = part
    kind, = source.numbers("<B")
    if kind == 1:
        return Command(source.take(*source.numbers("<H")))
    if kind == 2:
        start, frames, held = source.numbers("<qHH")
        return Block(start, frames, source.entries(held))
    if kind == 3:
        return TakeLeg(source.take(LEG.size))
    if kind == 4:
        return Blocks(*source.numbers("<qHI"))
    raise Fault(f"{source.name} has {kind} at byte {source.at - 1}, for {part}: a step is 1, 2, 3 or 4")


def read_answers(trial, data, name):
    """The number of making the leg, and an answer a step."""
    source = Bytes(data, name)
    source.part = "the answer to making the leg"
    made, = source.numbers("<B")
    setup = (trial.rate, trial.channels, trial.frames, trial.fade_frames) if made == 0 else None
    answers = []
    for i, step in enumerate(trial.steps):
        source.part = f"the answer to step {i + 1} of {len(trial.steps)}"
        answer = read_answer(step, source)
        setup = None if isinstance(step, TakeLeg) else setup
        if setup not in (None, answer.leg[:4]):
            raise Fault(f"{name} answers another trial: its leg before byte {source.at} is not this trial's")
        if isinstance(step, Block) and answer.number == 0 and len(step.held) != step.frames * trial.out_channels:
            raise Fault(f"{name} answers another trial: step {i + 1} of this one is to be refused")
        answers.append(answer)
    return made, answers


def read_answer(step, source):
    number, = source.numbers("<B")
    pieces, output, blocks = 0, None, 0
    if isinstance(step, Block):
        pieces, = source.numbers("<Q")
        output = source.entries(len(step.held))
        if number == 0 and not all(map(math.isfinite, output)):
            raise Fault(f"{source.name} has a sample before byte {source.at}, in {source.part}, that is no number")
    elif isinstance(step, Blocks):
        blocks, pieces, _ = source.numbers("<QQQ")
    return Answer(number, pieces, output, blocks, read_leg(source))


def read_leg(source):
    fields = LEG.unpack(source.take(LEG.size))
    rate, channels, frames, fade_frames = fields[:4]
    voices = (Voice(*fields[4:7]), Voice(*fields[7:10]))
    active, looped, loop_start, loop_end, position, start_position, completed, count = fields[10:18]
    events = [Event(*fields[18 + 4 * i:22 + 4 * i]) for i in range(min(count, 16))]  # a damaged leg may count more
    if any(voice.phase >= len(PHASES) for voice in voices) or any(event.kind not in KINDS for event in events):
        raise Fault(f"{source.name} has no leg at byte {source.at - LEG.size}, in {source.part}")
    loop = (loop_start, loop_end) if looped else None
    return Leg(rate, channels, frames, fade_frames, voices, active, loop, position, start_position, completed, events)


def fresh_leg(trial):
    stopped = Voice(0, 0, 0)
    return Leg(trial.rate, trial.channels, trial.frames, trial.fade_frames, (stopped, stopped), 0, None, 0, 0, 0, [])


def fade_table(rate):
    """The table of this rate as the crate `sampler_fade` has it, bit for bit."""
    path = TOP / "crates/sampler_fade/src/tables.rt"
    found = re.search(rf"BITS_{rate}: \[u32; (\d+)\] = \[(.*?)\]", read_whole(path).decode(errors="replace"), re.S)
    bits = [int(word.replace("_", ""), 16) for word in re.findall(r"0x[0-9a-f_]+", found[2])] if found else []
    if not found or len(bits) != int(found[1]):
        raise Fault(f"{path} has no whole table BITS_{rate}")
    return array("f", (struct.unpack("<f", struct.pack("<I", word))[0] for word in bits))


# Where in a block its commands and its loop turns fall.

class Timeline:
    """The times of one block by document 01's rules, without voices and samples.

    `agrees` holds it against the leg that the program answered: only then are the turns' frames to be believed.
    """

    TOO_MANY = 10_000  # passes that only catch up may be millions: then the block is marked, not a frame

    def __init__(self, leg, start, frames):
        self.leg, self.rate = leg, leg.rate
        self.loop, self.completed = leg.loop, leg.completed
        self.position, self.start_position = leg.position, leg.start_position
        self.applied, self.turns = [], []
        now, done = start, 0
        due = [event for event in leg.events if event.time < start + time_of(frames, self.rate)]
        for event in due if frames else []:
            frame = math.floor(frames_of(max(event.time, now) - start, self.rate))
            self.play(done, frame)
            now, done = now + time_of(frame - done, self.rate), frame
            self.apply(event, now - event.time)
            self.applied.append((frame, event))
        self.play(done, frames)

    def end(self):
        """E: where this pass ends."""
        if self.loop is None:
            return time_of(self.leg.frames, self.rate)
        loop_start, loop_end = self.loop
        first = frames_of(loop_end - self.start_position, self.rate)
        again = frames_of(loop_end - loop_start, self.rate)
        return time_of(first + again * self.completed, self.rate)

    def play(self, frame, to):
        while frame < to and len(self.turns) < self.TOO_MANY:
            until = min(self.position + time_of(to - frame, self.rate), self.end())
            piece = min(whole_frames_of(until - self.position, self.rate), to - frame)
            if piece == 0 and self.loop is None:
                return
            if piece == 0:
                self.completed += 1
                self.turns.append(frame)
            self.position += time_of(piece, self.rate)
            frame += piece

    def apply(self, event, delay):
        if event.kind in (START, START_IMMEDIATE):
            self.completed = 0
            self.position = delay if event.kind == START else 0
            self.start_position = event.first
        elif event.kind == ENABLE_LOOP:
            self.loop = (event.first, event.second)
        elif event.kind in (CANCEL_LOOP, CANCEL_ALL):
            self.loop = None

    def agrees(self, after):
        mine = (self.loop, self.completed, self.position, self.start_position)
        return mine == (after.loop, after.completed, after.position, after.start_position)
