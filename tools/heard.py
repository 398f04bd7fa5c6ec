"""What a picture and a WAV have to show, for tools/test: read from a trial and its answers by docs/TRIAL.md and document
01's rule of one block, by itself: nothing here goes through the code that draws.
"""

import re
import struct
import xml.etree.ElementTree as xml
from array import array
from collections import Counter, namedtuple
from fractions import Fraction

NAMES = {1: "Start", 2: "StartImmediate", 3: "Stop", 4: "EnableLoop", 5: "CancelLoop", 6: "CancelAll"}
LEG, EVENT = 490, struct.Struct("<Bqqq")
Leg = namedtuple("Leg", "rate queue completed")  # the queue has a kind and a time an event

# `samples` is planar, a list a channel; `applied` and `refused` are (frame of the output, words); `turns` is, for each
# block, its first frame, its end, and the least and the most loop turns in it; `waiting` is how many events are left.
Heard = namedtuple("Heard", "rate samples applied refused turns waiting")


class Reader:
    def __init__(self, data, at):
        self.data, self.at = data, at

    def take(self, count):
        self.at += count
        assert self.at <= len(self.data), "cut short"
        return self.data[self.at - count:self.at]

    def numbers(self, layout):
        return struct.unpack("<" + layout, self.take(struct.calcsize("<" + layout)))


def time_of(frames, rate):
    """T, exact: frames·2^32/rate to the nearest, ties to even."""
    return round(Fraction(frames << 32, rate))


def hear(trials, answers, at=0, to=0):
    """The trial at byte `at`, answered from byte `to` on: what is heard, and where both end."""
    trial, answer = Reader(trials, at), Reader(answers, to)
    assert trial.take(4) == b"TRL1"
    rate, _, _, _, channels, a, b, steps = trial.numbers("IIIBBIII")
    trial.take(4 * (a + b))
    made, = answer.numbers("B")
    heard = Heard([], [[] for _ in range(channels)], [], [(0, f"making refused: {made}")] if made else [], [], 0)
    leg = Leg(rate, [], 0)
    for _ in range(steps):
        leg = hear_step(heard, trial, answer, leg)
    return heard._replace(rate=(heard.rate or [leg.rate])[0], waiting=len(leg.queue)), trial.at, answer.at


def hear_step(heard, trial, answer, leg):
    """One step: the leg afterwards, whose queue the rule and the answer have alike."""
    rate, queue, completed = leg
    (kind,), (number,) = trial.numbers("B"), answer.numbers("B")
    frame, word = len(heard.samples[0]) if heard.samples else 0, "leg"
    if kind == 1:
        record = trial.take(*trial.numbers("H"))
        word = NAMES.get(int.from_bytes(record[:2], "little"), "command") if len(record) == 26 else "command"
        queue = entered(queue, record) if number == 0 else queue
    elif kind == 2:
        word = "block"
        start, frames, m = trial.numbers("qHH")
        trial.take(4 * m)
        answer.take(8)
        output = answer.numbers(f"{m}f")
        if number == 0 and frames > 0:
            for c, channel in enumerate(heard.samples):
                channel.extend(output[c * frames:(c + 1) * frames])
            due, queue = split(queue, start + time_of(frames, rate))
            heard.applied.extend((frame + max(0, (time - start) * rate >> 32), NAMES[kind]) for kind, time in due)
            heard.rate.append(rate)
    elif kind == 3:
        trial.take(LEG)
    elif kind == 4:
        word = "block"
        start, frames, _ = trial.numbers("qHI")
        blocks, _, _ = answer.numbers("QQQ")
        if blocks > 0 and frames > 0:
            _, queue = split(queue, start + blocks * time_of(frames, rate))
    after = leg_of(answer.take(LEG))
    assert kind == 3 or queue == after.queue, "the answers are not this trial's"
    if number != 0:
        heard.refused.append((frame, f"{word} refused: {number}"))
    elif kind == 2 and frames > 0:
        begun = any(kind in (1, 2) for kind, _ in due)  # they count from 0 again
        turns = after.completed - (0 if begun else completed)
        heard.turns.append((frame, frame + frames, turns, None if begun else turns))
    return after


def leg_of(data):
    events = [EVENT.unpack_from(data, 90 + EVENT.size * i)[:2] for i in range(min(data[89], 16))]
    return Leg(*struct.unpack_from("<I", data), events, *struct.unpack_from("<Q", data, 81))


def entered(queue, record):
    """By time, equal times by submission; CancelAll empties the queue first."""
    kind, time = struct.unpack_from("<Hq", record)
    return sorted(([] if kind == 6 else queue) + [(kind, time)], key=lambda event: event[1])


def split(queue, end):
    return [event for event in queue if event[1] < end], [event for event in queue if event[1] >= end]


# What is wrong with what was made; None where nothing is.

def wav_fault(heard, wav):
    channels, frames = len(heard.samples), len(heard.samples[0])
    size = 2 * channels * frames
    head = struct.pack("<4sI4s4sIHHIIHH4sI", b"RIFF", 36 + size, b"WAVE", b"fmt ", 16, 1, channels, heard.rate,
                       2 * channels * heard.rate, 2 * channels, 16, b"data", size)
    if wav[:44] != head:
        return f"the head is {wav[:44].hex()}, not {head.hex()}"
    if len(wav) != 44 + size:
        return f"{len(wav)} bytes, not {44 + size}"
    for c, samples in enumerate(heard.samples):
        expected = array("h", (round(32767 * min(max(sample, -1.0), 1.0)) for sample in samples))
        found = array("h", struct.unpack(f"<{channels * frames}h", wav[44:])[c::channels])
        if found != expected:
            at = next(i for i in range(frames) if found[i] != expected[i])
            return f"frame {at} of channel {c} is {found[at]}, not {expected[at]}"
    return None


def clipped(heard):
    return sum(abs(sample) > 1.0 for samples in heard.samples for sample in samples)


def svg_fault(heard, svg):
    page, space = xml.fromstring(svg), "{http://www.w3.org/2000/svg}"
    frames, lane = len(heard.samples[0]), next(rect for rect in page.iter(space + "rect") if rect.get("x"))
    left, width = float(lane.get("x")), float(lane.get("width"))
    marks = []
    for path in page.iter(space + "path"):
        for words in path.findtext(space + "title", default="").splitlines():
            words, _, frame = words.rpartition(", frame ")
            marks.append((int(frame.replace(",", "")), words))
            x = left + width * marks[-1][0] / frames
            if abs(float(path.get("d")[1:].split()[0]) - x) > 0.51:
                return f"{words}, frame {frame} is not drawn at {x:.1f}: {path.get('d')}"
    for what, expected, found in (
            ("applied", heard.applied, [mark for mark in marks if mark[1] in NAMES.values()]),
            ("refused", heard.refused, [mark for mark in marks if " refused: " in mark[1]])):
        if Counter(found) != Counter(expected):
            lost, new = Counter(expected) - Counter(found), Counter(found) - Counter(expected)
            return f"{what}: not marked {sorted(lost.elements())}, marked and not so {sorted(new.elements())}"
    turns = [frame for frame, words in marks if words == "loop turn"]
    for begin, end, least, most in heard.turns:
        found = sum(begin <= frame < end for frame in turns)
        if found < least or most is not None and found > most:
            return f"{found} loop turns are marked in the block at frame {begin}, not {least}"
    return None


def turns_marked(svg):
    return [int(frame.replace(",", "")) for frame in re.findall(r"\bloop turn, frame ([\d,]+)", titles(svg))]


def titles(svg):
    return "\n".join(title.text for title in xml.fromstring(svg).iter("{http://www.w3.org/2000/svg}title"))
