"""Reads what a run wrote, frame by frame: bodies, pairs, the end row, and whether the text was cut.

A frame is whole where the head of the next one, or the end row, has begun behind it; the last one of a text that was cut isn't.
"""
import collections

from command import Fault, note, open_bytes

FIELDS = {b"frame": 1, b"clump": 14, b"pair": 5}
ENDS = (b"done", b"speed", b"spin", b"domain", b"swing")

# p, v, q, w of a clump, as its row has them
Body = collections.namedtuple("Body", "p v q w")
# the state's number, its bodies, the displacement of each pair, whether the frame is whole, and where its rows begin and end in bytes
Frame = collections.namedtuple("Frame", "step bodies held is_whole begin end")


class Rows:
    """The rows of an output, with what is known after the last: its end row, or None where it was cut."""

    def __init__(self, stream, name="frames"):
        self.stream, self.name, self.ended = stream, name, None
        self.row, self.at = 0, 0

    def fault(self, why):
        return Fault("%s: row %d %s" % (self.name, self.row, why))

    def lines(self):
        """Each whole row with the place of its first byte; a last one without a newline is given as it is."""
        for line in self.stream:
            self.row += 1
            yield self.at, line
            self.at += len(line)


def numbers_of(rows, line, count):
    fields = line.rstrip(b"\r\n").split(b",")[1:]
    if len(fields) != count:
        raise rows.fault("has %d fields, and %d are right" % (len(fields), count))
    try:
        return [int(it) for it in fields]
    except ValueError:
        raise rows.fault("has a field that is no whole number") from None


class Parts:
    """A frame while its rows are read."""

    def __init__(self, step, begin):
        self.step, self.begin, self.bodies, self.held = step, begin, [], {}

    def frame(self, is_whole, end):
        return Frame(self.step, self.bodies, self.held, is_whole, self.begin, end)

    def add(self, rows, kind, numbers):
        if kind == b"pair":
            self.held[numbers[0], numbers[1]] = numbers[2:]
        elif numbers[0] != len(self.bodies):
            raise rows.fault("is clump %d, and %d is due" % (numbers[0], len(self.bodies)))
        else:
            self.bodies.append(Body(numbers[1:4], numbers[4:7], numbers[7:11], numbers[11:14]))


def end_of(rows, line):
    """The end row, where it is one and whole."""
    fields = line.rstrip(b"\r\n").split(b",")
    if len(fields) < 3 or fields[1] not in ENDS:
        raise rows.fault("is no end row")
    return line.rstrip(b"\r\n").decode()


def frames_of(rows):
    """Each frame of an output in order; `rows.ended` is set behind the last."""
    parts = None
    for at, line in rows.lines():
        kind = line.split(b",", 1)[0]
        if not line.endswith(b"\n"):
            break  # the text was cut here: what its last row was to be can't be told
        if kind in (b"frame", b"end") and parts:
            yield parts.frame(True, at)
            parts = None
        if kind == b"end":
            rows.ended = end_of(rows, line)
        elif kind not in FIELDS or rows.ended:
            raise rows.fault("is none of a frame: %s" % line[:40].decode("utf-8", "replace").rstrip())
        elif kind == b"frame":
            parts = Parts(numbers_of(rows, line, 1)[0], at)
        elif parts is None:
            raise rows.fault("stands before the head of a frame")
        else:
            parts.add(rows, kind, numbers_of(rows, line, FIELDS[kind]))
    else:
        at, line = rows.at, b""
    if parts:
        yield parts.frame(line[:1] in (b"f", b"e"), at)


def is_usable(rows, frame, scene):
    """Whether a frame has all clumps of the scene; one that the text was cut in may have fewer, another one may not."""
    if scene is None or len(frame.bodies) == len(scene["clumps"]):
        if not frame.is_whole:
            note("%s: the text was cut in frame %d: pairs of it may be missing" % (rows.name, frame.step))
        return True
    if frame.is_whole:
        raise Fault("%s: frame %d has %d clumps, and the scene %d" % (rows.name, frame.step, len(frame.bodies), len(scene["clumps"])))
    note("%s: frame %d was cut: it is left out" % (rows.name, frame.step))
    return False


def read_frames(name, scene=None):
    """The frames of a file or of standard input. Of a text that was cut the last one comes, too, where it has all clumps, with a note."""
    with open_bytes(name) as stream:
        rows, count = Rows(stream, name or "standard input"), 0
        for frame in frames_of(rows):
            if is_usable(rows, frame, scene):
                count += 1
                yield frame
    if not count:
        raise Fault("%s: no whole frame" % rows.name)


def chosen(frames, step):
    """The frame of a number, or the last one where none is asked for."""
    last = None
    for frame in frames:
        last = frame
        if frame.step == step:
            return frame
    if step is not None:
        raise Fault("no frame %d" % step)
    return last
