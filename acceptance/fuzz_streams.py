"""The kinds `json` and `pack` of fuzz.py: streams of mutated frames for `sr check` and `sr convert`. frames_model.py decides all.

Each of these ends at its first refusal, and a run costs more than all else. So inputs that are read go in front of the next one that isn't, in one
run, and of those that aren't most are drawn anew."""
import frames_messages
import frames_model
import frames_values
from fuzz_kit import Difference, compared, mutated

LONG = 600  # bytes of a frame that is seldom drawn
SELDOM = 0.01
TAKEN_ANYHOW = 0.08
DRAWS = 12
OTHER = {"json": "pack", "pack": "json"}
MODELS = {"check": frames_model.checked_stream, "convert": frames_model.converted_stream}


def framed(codec, frame):
    return frame + frames_model.RECORD if codec == "json" else length_of(frame) + frame


def length_of(frame):
    size, length = len(frame), []
    while size > 127:
        length.append(size % 128 + 128)
        size //= 128
    return bytes([*length, size])


def frames_of(codec):
    """The frames of the tables of frames.py, whatever is told of them."""
    for tables in frames_values, frames_messages:
        for cases in tables.FRAMES.values():
            yield from (frame for of, frame, _ in cases if of == codec)


def is_whole(codec, data):
    """Whether the bytes are whole frames and nothing else, of which none is refused."""
    lines = [line for _, line, *_ in frames_model.read(codec, data)]
    return not lines or not frames_model.is_fault(lines[-1])


class Streams:
    def __init__(self, codec, runs):
        self.codec, self.runs, self.name = codec, runs, codec
        frames = [framed(codec, frame) for frame in frames_of(codec)]
        self.short = [frame for frame in frames if len(frame) < LONG]
        self.fine = [frame for frame in self.short if is_whole(codec, frame)]
        self.long = [frame for frame in frames if len(frame) >= LONG] + [data for of, data, _ in frames_messages.BROKEN if of == codec]

    def input(self, draw):
        """An input, and whether all of it is read."""
        frames = self.long if draw.random() < SELDOM else self.fine if draw.random() < 0.9 else self.short
        for _ in range(1 if draw.random() < TAKEN_ANYHOW else DRAWS):
            data = mutated(draw, draw.choice(frames), self.short)
            if is_whole(self.codec, data):
                return data, True
        return data, False

    def differences(self, draw, count):
        front = []
        for left in reversed(range(count)):
            data, is_read = self.input(draw)
            front.append(data)
            if left == 0 or not is_read:
                yield from self.judged(draw.choice(["check", "check", "convert"]), front)
                front = []

    def judged(self, command, inputs):
        words = [command, self.codec] + [OTHER[self.codec]] * (command == "convert")

        def again(data):
            written, status = MODELS[command](self.codec, data)
            return compared((status, written), self.runs(words, data))

        data = b"".join(inputs)
        if again(data):
            yield Difference(f"sr {' '.join(words)}", data, again)
