"""A picture of a device's time line: who played what and when, and what was heard. As an SVG, and in letters for a terminal."""

import dataclasses

FULL = 32767
# what a column of the terminal says of the greatest sample in it
LEVELS = " ▁▂▃▄▅▆▇█"


@dataclasses.dataclass
class Lane:
    """A row: samples of 16 bits, the first of them at a frame of the picture. Those of `hidden`, two frames, were replaced. A
    mark is a frame, and what happened there."""

    name: str
    note: str
    colour: str
    start: int
    samples: list
    hidden: tuple = (0, 0)
    mark: tuple = ()

    def peak(self, first, last):
        """The least and the greatest sample between two frames of the picture, None where the lane has nothing there."""
        part = self.samples[max(0, first - self.start):max(0, last - self.start)]
        return (min(part), max(part)) if part else None

    def is_hidden(self, frame):
        return self.hidden[0] <= frame < self.hidden[1]


@dataclasses.dataclass
class TimeLine:
    """Lanes of so many frames, the first of them at a device time, and what was heard in each part of it: first frame, last
    frame, and who."""

    title: str
    note: str
    rate: int
    origin: int
    frames: int
    lanes: list
    parts: list

    # for a terminal

    def text(self, columns=64, margin=16):
        """The picture in letters: each column is as high as the greatest sample in it, and dots stand for what was replaced."""
        step = self.frames / columns
        lines = [" " * margin + self.scale(columns, lambda frame: "%g s" % (frame / self.rate))]
        for lane in self.lanes:
            row = "".join(self.letter(lane, int(at * step), int((at + 1) * step)) for at in range(columns))
            lines.append("%-*s%s" % (margin, "  " + lane.name, row.rstrip()))
        lines.append(" " * margin + self.scale(columns, lambda frame: str(self.origin + frame)) + "  device time")
        return "\n".join(lines)

    def scale(self, columns, label):
        row = ""
        for frame in range(0, self.frames + 1, self.rate):
            row = row.ljust(frame * columns // self.frames) + label(frame)
        return row

    @staticmethod
    def letter(lane, first, last):
        peak = lane.peak(first, last)
        if not peak or peak == (0, 0):
            return " "
        if lane.is_hidden((first + last) // 2):
            return "·"
        loudest = max(-peak[0], peak[1])
        return "X" if loudest >= FULL else LEVELS[max(1, min(8, round(8 * loudest / FULL)))]

    # as an SVG

    LEFT, RIGHT, TOP, HEIGHT, GAP, WIDTH = 168, 36, 116, 74, 18, 1000

    def svg(self):
        bottom = self.TOP + len(self.lanes) * (self.HEIGHT + self.GAP)
        parts = [
            '<svg xmlns="http://www.w3.org/2000/svg" viewBox="0 0 %d %d" font-family="DejaVu Sans, Verdana, sans-serif" font-size="13">'
            % (self.WIDTH, bottom + 62),
            '<rect width="100%" height="100%" fill="#ffffff"/>',
            '<text x="24" y="36" font-size="19" font-weight="bold" fill="#1d2733">%s</text>' % self.title,
            '<text x="24" y="60" fill="#5b6876">%s</text>' % self.note,
        ]
        parts += self.grid(bottom)
        for number, lane in enumerate(self.lanes):
            parts += self.row(lane, self.TOP + number * (self.HEIGHT + self.GAP))
        parts += self.legend(bottom)
        return "\n".join(parts + ["</svg>", ""])

    @property
    def across(self):
        """How far a frame is from the next."""
        return (self.WIDTH - self.LEFT - self.RIGHT) / self.frames

    def x(self, frame):
        return self.LEFT + frame * self.across

    def grid(self, bottom):
        """A line each half second, with the seconds above and the device time below, and where what is heard changes."""
        for frame in range(0, self.frames + 1, self.rate // 2):
            x = self.x(frame)
            yield '<path d="M%.1f %d V%d" stroke="#e3e8ee"/>' % (x, self.TOP - 8, bottom - 4)
            whole = frame % self.rate == 0
            yield '<text x="%.1f" y="%d" text-anchor="middle" fill="#5b6876">%g s</text>' % (x, self.TOP - 16, frame / self.rate)
            if whole:
                yield '<text x="%.1f" y="%d" text-anchor="middle" fill="#5b6876">%d</text>' % (x, bottom + 16, self.origin + frame)
        yield '<text x="24" y="%d" fill="#5b6876">device time</text>' % (bottom + 16)
        for first, _, _ in self.parts[1:]:
            yield '<path d="M%.1f %d V%d" stroke="#aab4c0" stroke-dasharray="3 4"/>' % (self.x(first), self.TOP - 8, bottom - 4)

    def row(self, lane, top):
        middle = top + self.HEIGHT / 2
        yield '<text x="24" y="%.1f" font-weight="bold" fill="%s">%s</text>' % (middle - 3, lane.colour, lane.name)
        yield '<text x="24" y="%.1f" font-size="12" fill="#5b6876">%s</text>' % (middle + 14, lane.note)
        yield '<path d="M%.1f %.1f H%.1f" stroke="#cfd6de"/>' % (self.LEFT, middle, self.WIDTH - self.RIGHT)
        end = lane.start + len(lane.samples)
        first, last = lane.hidden
        for one, other, hides in ((lane.start, first, False), (first, last, True), (last, end, False)) if last else ((lane.start, end, False),):
            yield '<path d="%s" fill="%s"%s/>' % (self.outline(lane, one, other, middle), lane.colour, ' opacity="0.22"' if hides else "")
        yield from self.saturated(lane, top)
        if lane.mark:
            x, below = self.x(min(lane.mark[0], self.frames)), top + self.HEIGHT + 4
            yield '<path d="M%.1f %d l-6 11 h12 z" fill="%s"/>' % (x, below, lane.colour)
            yield '<text x="%.1f" y="%d" font-size="12" text-anchor="end" fill="%s">%s</text>' % (x - 10, below + 10, lane.colour, lane.mark[1])

    def columns(self, lane, first, last):
        """Three points of the picture to a column: its middle, and the lane's peaks in it."""
        step = 3 / self.across
        count = max(1, int((last - first) / step))
        for at in range(count):
            one, other = first + int(at * step), first + int((at + 1) * step) if at < count - 1 else last
            peak = lane.peak(one, other)
            if peak:
                yield self.x((one + other) / 2), peak

    def outline(self, lane, first, last, middle):
        """The outline of a lane's samples between two frames."""
        scale = self.HEIGHT / 2 / 32768
        columns = list(self.columns(lane, first, last))
        ends = ["%.1f %.1f" % (self.x(frame), middle) for frame in (first, last)]
        above = ["%.1f %.1f" % (x, middle - peak[1] * scale) for x, peak in columns]
        below = ["%.1f %.1f" % (x, middle - peak[0] * scale) for x, peak in reversed(columns)]
        return "M%s L%s Z" % (ends[0], " ".join(above + [ends[1]] + below))

    def saturated(self, lane, top):
        """A red edge where a sample is as great as one can be."""
        for x, (least, greatest) in self.columns(lane, lane.start, lane.start + len(lane.samples)):
            for y, is_full in ((top, greatest >= FULL), (top + self.HEIGHT, least <= -FULL)):
                if is_full:
                    yield '<path d="M%.1f %.1f h3.4" stroke="#d92d20" stroke-width="3"/>' % (x - 1.5, y)

    def legend(self, bottom):
        """Who is heard, part by part."""
        yield '<text x="24" y="%d" fill="#5b6876">heard is</text>' % (bottom + 42)
        for first, last, who in self.parts:
            yield '<path d="M%.1f %d H%.1f" stroke="#1d2733" stroke-width="2"/>' % (self.x(first) + 2, bottom + 26, self.x(last) - 2)
            yield '<text x="%.1f" y="%d" text-anchor="middle" fill="#1d2733">%s</text>' % (self.x((first + last) / 2), bottom + 42, who)
