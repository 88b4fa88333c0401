#!/usr/bin/env python3
"""Draws a day: reads a listing as the program `day` prints it, writes a picture of it as SVG.

    picture/picture.py [--sheet SHEET] < LISTING > SVG

With the day's sheet the picture also has the jobs' windows and the harvest. What is no listing, and
a sheet of another day, give a message on standard error and exit status 1, and no picture.
"""

import argparse
import html
import itertools
import re
import struct
import sys
from collections import namedtuple

# The limits of document 01.
MOST_JOBS = 64
MOST_SLOTS = 1440
MOST_CAPACITY = 65535
RECORD_BYTES = 8
TRAILER_BYTES = 12
MARK = b"\x45\x48"
MOST_SHEET_BYTES = 4096  # above it `day` prints `too long`

# No listing comes near this many bytes; more is not even looked at.
MOST_LISTING_BYTES = 200000

# The refusals that `day` can print, in words.
REFUSALS = {
    1: "the sheet has fewer than 12 bytes",
    2: "the sheet's last two bytes are not its mark (hex 45 48)",
    3: "it has more than 64 jobs, no slots, or more than 1440 slots",
    4: "the sheet's length or its back distances do not fit its jobs and slots",
    5: "a job's release is not before its deadline, or its deadline is past the end of the day",
    6: "a job wants 0 slots or more than 1440, has energy 0, or its last byte is not zero",
}


class Unusable(Exception):
    """What was given cannot be drawn; the text says why."""


# ---------------------------------------------------------------------------------- the listing

# A listing. `refusal` is a number, `too_long` says that the sheet was; else the rest is the day.
Listing = namedtuple("Listing", "refusal too_long slots jobs capacity lines verdict")
# A slot's line: the job, or None in an idle slot; the ground; the level after the slot.
Line = namedtuple("Line", "job ground level")
# kind is met, undecided (with the job), time or energy (with the interval, demand and supply).
Verdict = namedtuple("Verdict", "kind job start end demand supply")

NUMBER = "(0|[1-9][0-9]{0,9})"
HEADER_LINE = re.compile("day slots %s jobs %s capacity %s" % (NUMBER, NUMBER, NUMBER))
SLOT_LINE = re.compile(
    "slot %s (?:idle (none|empty|saving)|job %s (full|noslack|free)) level %s"
    % (NUMBER, NUMBER, NUMBER)
)
VERDICT_LINE = re.compile(
    "verdict (?:(met)|(undecided) job %s|(time|energy) %s %s demand %s supply %s)"
    % (NUMBER, NUMBER, NUMBER, NUMBER, NUMBER)
)
REFUSED_LINE = re.compile("refused %s" % NUMBER)


def read_listing(data):
    """The listing in these bytes."""
    if len(data) > MOST_LISTING_BYTES:
        raise Unusable("this is no listing of a day: it is far too long")
    try:
        rows = data.decode("ascii").replace("\r\n", "\n").split("\n")
    except UnicodeDecodeError:
        raise Unusable("this is no listing of a day: it is not plain text")
    if rows[-1] == "":
        rows.pop()
    if not rows:
        raise Unusable("this is no listing of a day: it is empty")
    if len(rows) == 1:
        refused = REFUSED_LINE.fullmatch(rows[0])
        if refused and int(refused.group(1)) in REFUSALS:
            return Listing(int(refused.group(1)), False, 0, 0, 0, [], None)
        if rows[0] == "too long":
            return Listing(None, True, 0, 0, 0, [], None)
    return read_day(rows)


def wrong_line(number, wanted):
    return Unusable("this is no listing of a day: line %d is not %s" % (number, wanted))


def read_day(rows):
    """The listing of a day: its header, a line a slot unless it is overloaded, its verdict."""
    header = HEADER_LINE.fullmatch(rows[0])
    if not header:
        raise wrong_line(1, "a day's header, as 'day slots 4 jobs 2 capacity 1'")
    slots, jobs, capacity = (int(group) for group in header.groups())
    if not 1 <= slots <= MOST_SLOTS or jobs > MOST_JOBS or capacity > MOST_CAPACITY:
        raise wrong_line(1, "the header of a day that a sheet can hold")
    lines = []
    for row in rows[1:-1]:
        lines.append(read_line(row, len(lines), slots, jobs, capacity))
    verdict = read_verdict(rows[-1], len(rows), slots, jobs)
    if len(lines) != (0 if verdict.demand is not None else slots):
        raise Unusable(
            "this is no listing of a day: %s with verdict %s, and the day has %s"
            % (count(len(lines), "slot line"), verdict.kind, count(slots, "slot"))
        )
    return Listing(None, False, slots, jobs, capacity, lines, verdict)


def read_line(row, slot, slots, jobs, capacity):
    found = SLOT_LINE.fullmatch(row)
    if not found or slot >= slots or int(found.group(1)) != slot:
        raise wrong_line(slot + 2, "the line of slot %d" % slot if slot < slots else "a verdict")
    job = None if found.group(3) is None else int(found.group(3))
    level = int(found.group(5))
    if (job is not None and job >= jobs) or level > capacity:
        raise wrong_line(slot + 2, "possible: the header has no such job, or no such level")
    return Line(job, found.group(2) or found.group(4), level)


def read_verdict(row, number, slots, jobs):
    found = VERDICT_LINE.fullmatch(row)
    if not found:
        raise wrong_line(number, "a verdict")
    met, undecided, job, overloaded = found.groups()[:4]
    if met:
        return Verdict(met, None, None, None, None, None)
    if undecided:
        if int(job) >= jobs:
            raise wrong_line(number, "possible: the header has no such job")
        return Verdict(undecided, int(job), None, None, None, None)
    start, end, demand, supply = (int(group) for group in found.groups()[4:])
    if not start < end <= slots or demand <= supply:
        raise wrong_line(number, "an overloaded interval of this day")
    return Verdict(overloaded, None, start, end, demand, supply)


# ------------------------------------------------------------------------------------ the sheet

# A sheet. Where `refusal` is a number, `record` is the job it is about, or None, and no more is known.
Sheet = namedtuple("Sheet", "refusal record slots capacity jobs harvest")
Job = namedtuple("Job", "release deadline wanted energy")


def refused_sheet(refusal, record=None):
    return Sheet(refusal, record, 0, 0, [], b"")


def read_sheet(data):
    """The sheet in these bytes, checked in document 01's order."""
    if len(data) < TRAILER_BYTES:
        return refused_sheet(1)
    if data[-2:] != MARK:
        return refused_sheet(2)
    trailer = data[-TRAILER_BYTES:]
    to_harvest, to_jobs, count_of_jobs, slots, capacity = struct.unpack_from("<5H", trailer)
    if count_of_jobs > MOST_JOBS or not 1 <= slots <= MOST_SLOTS:
        return refused_sheet(3)
    records = RECORD_BYTES * count_of_jobs
    body = records + slots
    if (to_harvest, to_jobs, len(data)) != (slots, body, body + TRAILER_BYTES):
        return refused_sheet(4)
    jobs = []
    for release, deadline, wanted, energy, last in struct.iter_unpack("<HHHBB", data[:records]):
        if release >= deadline or deadline > slots:
            return refused_sheet(5, len(jobs))
        if not 1 <= wanted <= MOST_SLOTS or energy == 0 or last != 0:
            return refused_sheet(6, len(jobs))
        jobs.append(Job(release, deadline, wanted, energy))
    return Sheet(None, None, slots, capacity, jobs, data[records:body])


def other_day(how):
    return Unusable("the sheet is of another day: " + how)


def check_same_day(listing, data):
    """The sheet in these bytes, which must be one that the listing can have been made from."""
    if listing.too_long != (len(data) > MOST_SHEET_BYTES):
        raise other_day("only one of the two is too long")
    if listing.too_long:
        return None
    sheet = read_sheet(data)
    if sheet.refusal != listing.refusal:
        said = "is refused %d" % sheet.refusal if sheet.refusal else "is not refused"
        raise other_day("it %s" % said)
    if sheet.refusal:
        return sheet
    of_sheet = (sheet.slots, len(sheet.jobs), sheet.capacity)
    if of_sheet != (listing.slots, listing.jobs, listing.capacity):
        raise other_day("it has slots %d jobs %d capacity %d" % of_sheet)
    if listing.lines:
        check_lines(listing, sheet)
    else:
        check_interval(listing.verdict, sheet)
    return sheet


def check_lines(listing, sheet):
    """Every run is in its window, every level follows from the harvest, and the verdict is so."""
    level = sheet.capacity
    for slot, line in enumerate(listing.lines):
        spent = 0
        if line.job is not None:
            job = sheet.jobs[line.job]
            spent = job.energy
            if not job.release <= slot < job.deadline:
                raise other_day("there job %d may not run in slot %d" % (line.job, slot))
        level = min(sheet.capacity, level + sheet.harvest[slot] - spent)
        if level < 0:
            raise other_day("there job %d cannot be paid in slot %d" % (line.job, slot))
        if level != line.level:
            raise other_day("by it the level after slot %d is %d, not %d" % (slot, level, line.level))
    lacks = [job.wanted - got for job, got in zip(sheet.jobs, slots_got(listing))]
    named = listing.verdict.job
    if min(lacks, default=0) < 0 or (any(lacks) if named is None else lacks[named] == 0):
        raise other_day("there the jobs want other numbers of slots")


def check_interval(verdict, sheet):
    """The named interval has the demand and the supply that the verdict says."""
    inside = [job for job in sheet.jobs if is_inside(job, verdict)]
    if verdict.kind == "time":
        demand = sum(job.wanted for job in inside)
        supply = verdict.end - verdict.start
    else:
        demand = sum(job.wanted * job.energy for job in inside)
        supply = sheet.capacity + sum(sheet.harvest[verdict.start : verdict.end])
    if (demand, supply) != (verdict.demand, verdict.supply):
        raise other_day("by it that interval has demand %d, supply %d" % (demand, supply))


def is_inside(job, verdict):
    """Whether the job's window lies inside the interval that the verdict names."""
    return verdict.start <= job.release and job.deadline <= verdict.end


def slots_got(listing):
    """For each job, how many slots it got."""
    got = [0] * listing.jobs
    for line in listing.lines:
        if line.job is not None:
            got[line.job] += 1
    return got


# ------------------------------------------------------------------------------------ the words

BUSY_GROUNDS = [
    ("free", "nothing speaks against it"),
    ("noslack", "some job's time is short"),
    ("full", "the reservoir would spill"),
]
IDLE_GROUNDS = [
    ("none", "no job is ready"),
    ("saving", "coming jobs need the charge"),
    ("empty", "the job's energy is not there"),
]
WORDS = dict(BUSY_GROUNDS + IDLE_GROUNDS)


def count(number, thing):
    return "%d %s%s" % (number, thing, "" if number == 1 else "s")


def span(start, end):
    """The slots from start up to, not including, end, in words."""
    return "slot %d" % start if end == start + 1 else "slots %d to %d" % (start, end - 1)


def headline(listing, sheet):
    """The lines of text at the top: what day it is, the verdict, and what explains it."""
    if listing.too_long:
        return ["too long", "The sheet has more than %d bytes. No day is planned." % MOST_SHEET_BYTES]
    if listing.refusal:
        why = "The sheet is refused: %s." % REFUSALS[listing.refusal]
        which = "It is job %d. " % sheet.record if sheet and sheet.record is not None else ""
        return ["refused %d" % listing.refusal, why, which + "No day is planned."]
    slots, jobs = count(listing.slots, "slot"), count(listing.jobs, "job")
    title = "A day of %s and %s, capacity %d" % (slots, jobs, listing.capacity)
    return [title] + verdict_words(listing, sheet)


def verdict_words(listing, sheet):
    verdict = listing.verdict
    if verdict.kind == "met" and not listing.jobs:
        return ["Verdict met: there are no jobs."]
    if verdict.kind == "met":
        return ["Verdict met: every job gets its slots."]
    if verdict.kind == "undecided":
        short = ""
        if sheet:
            got, wanted = slots_got(listing)[verdict.job], sheet.jobs[verdict.job].wanted
            short = " (%d of %s)" % (got, count(wanted, "slot"))
        return [
            "Verdict undecided: this plan leaves job %d short%s." % (verdict.job, short),
            "No overloaded slots were found, so another plan may or may not exist.",
        ]
    where = span(verdict.start, verdict.end)
    first = "Verdict %s: too much work for any plan in %s." % (verdict.kind, where)
    if verdict.kind == "time":
        second = "Demand: the jobs that must run there want %d slots. Supply: only %d."
    else:
        second = (
            "Demand: the jobs that must run there need energy %d. "
            "Supply: capacity and harvest give at most %d."
        )
    return [first, second % (verdict.demand, verdict.supply)]


# ---------------------------------------------------------------------------------- the drawing

# Told apart by lightness as well as by hue, so in grey print too.
COLOURS = {
    "free": "#56b4e9",
    "noslack": "#d55e00",
    "full": "#0b3c5d",
    "none": "#cfcfcf",
    "saving": "#cc79a7",
    "empty": "#1a1a1a",
}
WINDOW, WINDOW_EDGE = "#ececec", "#a6a6a6"
COUNTED, COUNTED_EDGE = "#c4c4c4", "#404040"
SHADE, ALARM = "#fbe3d6", "#a32a00"
LEVEL, LEVEL_AREA = "#0b3c5d", "#d6eaf6"
HARVEST = "#e69f00"
INK, QUIET, GRID, FRAME = "#000000", "#404040", "#dcdcdc", "#808080"

MARGIN = 12
PLOT_LEFT = 144  # the rows' heads stand left of it, their numbers in two columns that end here:
WORK_COLUMN, LAST_COLUMN = 98, 138
LEAST_WIDTH = 860  # room for the words
LEVEL_HEIGHT = 110
HARVEST_HEIGHT = 40
MANY_ROWS = 20  # above it the slots' numbers stand over the rows too
LEGEND_COLUMN = 280
LEGEND_ROW = 18

# A slot's width is the first of these that fits: first into the width that reads well on a page,
# if a slot is not thinner than FINE there, else into the widest that a picture may be.
SLOT_WIDTHS = [160, 120, 100, 80, 60, 50, 40, 32, 24, 20, 16, 12, 10, 8, 6, 5, 4, 3, 2.5, 2, 1.5, 1.25, 1]
PAGE_WIDTH, FINE = 960, 2
WIDE = 5  # from here on, neighbours are set apart
MOST_WIDTH = 1440
TICK_STEPS = [1, 2, 4, 6, 12, 24, 60, 120]
TICK_ROOM = 34


def slot_width(slots):
    for width in SLOT_WIDTHS:
        if width >= FINE and slots * width <= PAGE_WIDTH:
            return width
    return next(width for width in SLOT_WIDTHS if slots * width <= MOST_WIDTH)


def row_height(jobs):
    return 22 if jobs <= 16 else 18 if jobs <= 32 else 14


def number(value):
    """A coordinate, to the hundredth."""
    return ("%.2f" % value).rstrip("0").rstrip(".")


def equal_runs(values):
    """The runs of equal values, each with its first place and the place behind its last."""
    start = 0
    for value, same in itertools.groupby(values):
        end = start + len(list(same))
        yield value, start, end
        start = end


def level_marks(capacity):
    """A few round levels below the capacity, well apart from it and from each other."""
    step = next(
        factor * 10 ** power
        for power in range(6)
        for factor in (1, 2, 5)
        if factor * 10 ** power * 4 >= capacity
    )
    return [level for level in range(0, capacity, step) if level == 0 or capacity - level > step // 2]


class Drawing:
    """The picture of a listing, and of its sheet if there is one; made from the top down."""

    def __init__(self, listing, sheet):
        self.listing = listing
        self.sheet = sheet
        self.parts = []
        self.y = MARGIN
        self.width = LEAST_WIDTH
        if self.has_plot():
            self.slot = slot_width(listing.slots)
            self.right = PLOT_LEFT + listing.slots * self.slot
            self.width = max(LEAST_WIDTH, int(self.right) + MARGIN)

    def has_plot(self):
        """There are slots to show: the listing has their lines, or the sheet the windows."""
        return bool(self.listing.lines or (self.sheet and not self.sheet.refusal))

    def x(self, slot):
        return PLOT_LEFT + slot * self.slot

    # The shapes.

    def add(self, text):
        self.parts.append(text)

    def rect(self, left, top, width, height, fill, more="", title=""):
        inner = "><title>%s</title></rect>" % html.escape(title, quote=False) if title else "/>"
        self.add(
            '<rect x="%s" y="%s" width="%s" height="%s" fill="%s"%s%s'
            % (number(left), number(top), number(width), number(height), fill, more, inner)
        )

    def line(self, x1, y1, x2, y2, colour, more=""):
        self.add(
            '<line x1="%s" y1="%s" x2="%s" y2="%s" stroke="%s"%s/>'
            % (number(x1), number(y1), number(x2), number(y2), colour, more)
        )

    def text(self, x, y, words, size=11, anchor="start", bold=False, colour=INK):
        weight = ' font-weight="bold"' if bold else ""
        self.add(
            '<text x="%s" y="%s" font-size="%d" text-anchor="%s"%s fill="%s">%s</text>'
            % (number(x), number(y), size, anchor, weight, colour, html.escape(words, quote=False))
        )

    # The parts of the picture.

    def draw(self):
        words = headline(self.listing, self.sheet)
        self.headline(words)
        if self.has_plot():
            if self.listing.lines:
                self.level_panel()
            if self.sheet:
                self.harvest_panel()
            self.rows()
            self.legend()
        self.y += MARGIN
        size = (self.width, self.y)
        opening = [
            '<svg xmlns="http://www.w3.org/2000/svg" width="%d" height="%d" ' % size
            + 'viewBox="0 0 %d %d" font-family="sans-serif" role="img">' % size,
            "<title>%s</title>" % html.escape(". ".join(words[:2]), quote=False),
            '<rect width="%d" height="%d" fill="#ffffff"/>' % size,
        ]
        return "\n".join(opening + self.parts + ["</svg>", ""])

    def headline(self, words):
        self.text(MARGIN, self.y + 16, words[0], size=17, bold=True)
        self.y += 22
        for place, sentence in enumerate(words[1:]):
            self.text(MARGIN, self.y + 16, sentence, size=13, bold=place == 0)
            self.y += 19

    def panel(self, name, height):
        """The ground of a panel over the slots: the overloaded interval and the ticks' lines."""
        width = self.right - PLOT_LEFT
        self.rect(PLOT_LEFT, self.y, width, height, "#ffffff", ' id="%s"' % name)
        verdict = self.listing.verdict
        if verdict.demand is not None:
            left, right = self.x(verdict.start), self.x(verdict.end)
            self.rect(left, self.y, right - left, height, SHADE, ' class="overloaded"')
        for slot in self.ticks():
            if slot:
                self.line(self.x(slot), self.y, self.x(slot), self.y + height, GRID)

    def frame(self, height):
        """The panel's edges and those of the overloaded interval, over what stands in it."""
        width = self.right - PLOT_LEFT
        self.rect(PLOT_LEFT, self.y, width, height, "none", ' stroke="%s"' % FRAME)
        verdict = self.listing.verdict
        if verdict.demand is not None:
            dashes = ' stroke-width="2" stroke-dasharray="6 3"'
            for edge in (self.x(verdict.start), self.x(verdict.end)):
                self.line(edge, self.y, edge, self.y + height, ALARM, dashes)

    def panel_title(self, words):
        self.y += 10
        self.text(PLOT_LEFT, self.y + 12, words, size=12, bold=True)
        self.y += 20

    def level_panel(self):
        capacity = self.listing.capacity
        levels = [line.level for line in self.listing.lines]
        self.panel_title("Charge level after each slot")
        self.y += 4
        bottom = self.y + LEVEL_HEIGHT
        self.panel("level-panel", LEVEL_HEIGHT)

        def height_of(level):
            return bottom - LEVEL_HEIGHT * level / max(capacity, 1)

        steps = "".join(
            "V%sH%s" % (number(height_of(level)), number(self.x(end)))
            for level, _, end in equal_runs(levels)
        )
        left = number(PLOT_LEFT)
        self.add('<path d="M%s %s%sV%sZ" fill="%s"/>' % (left, bottom, steps, bottom, LEVEL_AREA))
        for level in level_marks(capacity):
            y = height_of(level)
            self.line(PLOT_LEFT - 4, y, PLOT_LEFT, y, FRAME)
            self.text(PLOT_LEFT - 7, y + 4, str(level), anchor="end", colour=QUIET)
        self.frame(LEVEL_HEIGHT)
        full = height_of(capacity)
        dashes = ' id="capacity" stroke-width="2" stroke-dasharray="8 4"'
        self.line(PLOT_LEFT - 4, full, self.right, full, ALARM, dashes)
        label = "capacity %d" % capacity
        self.text(PLOT_LEFT - 7, full + 4, label, anchor="end", bold=True, colour=ALARM)
        # The reservoir starts full.
        self.add(
            '<path id="level" d="M%s %s%s" fill="none" stroke="%s" stroke-width="%s"/>'
            % (left, number(full), steps, LEVEL, "2" if self.slot >= FINE else "1.2")
        )
        self.y = bottom

    def harvest_panel(self):
        most = max(self.sheet.harvest)
        self.panel_title("Harvest in each slot" if most else "Harvest in each slot: none all day")
        bottom = self.y + HARVEST_HEIGHT
        self.panel("harvest-panel", HARVEST_HEIGHT)
        # Where slots are wide each has a bar of its own, else a run of equal slots has one.
        gap, bars = 0, equal_runs(self.sheet.harvest)
        if self.slot >= WIDE:
            gap, bars = 1, ((value, slot, slot + 1) for slot, value in enumerate(self.sheet.harvest))
        path = ""
        for value, start, end in bars:
            if value:
                left, right = number(self.x(start) + gap), number(self.x(end) - gap)
                top = number(bottom - HARVEST_HEIGHT * value / most)
                path += "M%s %dV%sH%sV%dZ" % (left, bottom, top, right, bottom)
        if most:
            self.add('<path id="harvest" d="%s" fill="%s"/>' % (path, HARVEST))
            self.text(PLOT_LEFT - 7, self.y + 8, "most %d" % most, anchor="end", colour=QUIET)
        self.text(PLOT_LEFT - 7, bottom + 2, "0", anchor="end", colour=QUIET)
        self.frame(HARVEST_HEIGHT)
        self.y = bottom

    def rows(self):
        """The idle row and a row for each job, under their headings and over the slots' numbers."""
        lines = self.listing.lines
        tall = row_height(self.listing.jobs)
        rows = self.listing.jobs + (1 if lines else 0)
        self.panel_title("What runs in each slot" if lines else "The jobs' windows")
        if rows > MANY_ROWS:
            self.y += 14
            self.tick_numbers(self.y - 4)
        self.row_headings()
        if rows:
            self.panel("rows-panel", rows * tall)
        top = self.y
        if lines:
            self.idle_row(tall)
        for job in range(self.listing.jobs):
            self.job_row(job, tall)
        self.y = top
        self.frame(rows * tall)
        if self.listing.verdict.job is not None:
            above = top + (self.listing.verdict.job + 1) * tall
            mark = ' id="short" stroke="%s" stroke-width="2"' % ALARM
            self.rect(MARGIN - 6, above, self.right - MARGIN + 6, tall, "none", mark)
        self.y = top + rows * tall
        self.axis()

    def row_headings(self):
        if not self.listing.jobs:
            return
        if not self.sheet:
            self.text(LAST_COLUMN, self.y - 2, "slots got", size=10, anchor="end", colour=QUIET)
            return
        over, under = ("slots got", "of wanted") if self.listing.lines else ("slots", "wanted")
        for x, first, second in ((WORK_COLUMN, over, under), (LAST_COLUMN, "energy", "a slot")):
            self.text(x, self.y - 13, first, size=10, anchor="end", colour=QUIET)
            self.text(x, self.y - 2, second, size=10, anchor="end", colour=QUIET)

    def row(self, tall):
        """The line under a row, and the height at which its words stand."""
        self.line(PLOT_LEFT, self.y + tall, self.right, self.y + tall, GRID)
        return self.y + tall / 2 + 4

    def bar(self, start, end, tall, gap, fill, more, title):
        """A bar over slots of the row, the gap away from the rows above and below."""
        width = self.x(end) - self.x(start)
        self.rect(self.x(start), self.y + gap, width, tall - 2 * gap, fill, more, title)

    def runs(self, job, tall, name, who):
        """The slots of a job, or the idle ones: a bar for each run of equal ground."""
        edge = ' stroke="#ffffff" stroke-width="0.8"' if self.slot >= WIDE else ""
        self.add('<g id="%s">' % name)
        grounds = [line.ground if line.job == job else None for line in self.listing.lines]
        for ground, start, end in equal_runs(grounds):
            if ground:
                more = ' class="%s"%s' % (ground, edge)
                title = "%s, %s: %s" % (who, span(start, end), WORDS[ground])
                self.bar(start, end, tall, 2 if tall < 18 else 3, COLOURS[ground], more, title)
        self.add("</g>")

    def idle_row(self, tall):
        self.text(MARGIN, self.row(tall), "idle")
        self.runs(None, tall, "idle", "idle")
        self.y += tall

    def job_row(self, job, tall):
        words = self.row(tall)
        named = job == self.listing.verdict.job
        self.text(MARGIN, words, "job %d" % job, bold=named)
        got = sum(line.job == job for line in self.listing.lines)
        if self.sheet:
            wanted = self.sheet.jobs[job].wanted
            work = "%d / %d" % (got, wanted) if self.listing.lines else str(wanted)
            short = bool(self.listing.lines) and got < wanted
            self.text(WORK_COLUMN, words, work, anchor="end", bold=short, colour=ALARM if short else INK)
            self.text(LAST_COLUMN, words, str(self.sheet.jobs[job].energy), anchor="end")
            self.window(job, tall)
        else:
            self.text(LAST_COLUMN, words, str(got), anchor="end", bold=named)
        self.runs(job, tall, "job-%d" % job, "job %d" % job)
        self.y += tall

    def window(self, number_of_job, tall):
        job = self.sheet.jobs[number_of_job]
        verdict = self.listing.verdict
        fill, edge = WINDOW, WINDOW_EDGE
        if verdict.demand is not None and is_inside(job, verdict):
            fill, edge = COUNTED, COUNTED_EDGE
        more = ' class="window" stroke="%s" stroke-width="0.8"' % edge
        title = "job %d may run in %s" % (number_of_job, span(job.release, job.deadline))
        self.bar(job.release, job.deadline, tall, 1.5, fill, more, title)

    def ticks(self):
        """The slots whose numbers are written."""
        step = next(step for step in TICK_STEPS if step * self.slot >= TICK_ROOM)
        return range(0, self.listing.slots, step)

    def tick_numbers(self, y):
        """The numbers: in the middle of slots that are wide enough, else where the slot begins."""
        aside = self.slot / 2 if self.slot >= 12 else 0
        for slot in self.ticks():
            self.text(self.x(slot) + aside, y, str(slot), anchor="middle", colour=QUIET)

    def axis(self):
        for slot in self.ticks():
            self.line(self.x(slot), self.y, self.x(slot), self.y + 5, FRAME)
        self.tick_numbers(self.y + 17)
        self.text(PLOT_LEFT - 14, self.y + 17, "slot", anchor="end", colour=QUIET)
        self.y += 22

    def legend(self):
        columns = []
        if self.listing.lines:
            for title, grounds in (("Busy, because", BUSY_GROUNDS), ("Idle, because", IDLE_GROUNDS)):
                entries = [(COLOURS[name], FRAME, "%s: %s" % (name, words)) for name, words in grounds]
                columns.append((title, entries))
        marks = []
        if self.sheet and self.listing.jobs:
            marks.append((WINDOW, WINDOW_EDGE, "window: the job may run here"))
        if self.listing.verdict.job is not None:
            marks.append(("none", ALARM, "the job that is left short"))
        if self.listing.verdict.demand is not None:
            marks.append((COUNTED, COUNTED_EDGE, "window counted in the demand"))
            marks.append((SHADE, ALARM, "the slots with too much work"))
        if marks:
            columns.append(("Marks", marks))
        self.y += 10
        for place, (title, entries) in enumerate(columns):
            left = MARGIN + place * LEGEND_COLUMN
            self.text(left, self.y + 12, title, size=12, bold=True)
            for down, (fill, edge, words) in enumerate(entries, 1):
                top = self.y + down * LEGEND_ROW
                self.rect(left, top + 3, 20, 11, fill, ' stroke="%s"' % edge)
                self.text(left + 27, top + 13, words, size=12)
        self.y += LEGEND_ROW * (1 + max(len(entries) for _, entries in columns))


# ---------------------------------------------------------------------------------- the program


def read_file(name):
    try:
        with open(name, "rb") as file:
            return file.read(MOST_SHEET_BYTES + 1)
    except OSError as error:
        raise Unusable("cannot read %s: %s" % (name, error.strerror))


def picture(listing_bytes, sheet_bytes=None):
    """The picture of these bytes, as the text of an SVG file."""
    listing = read_listing(listing_bytes)
    sheet = None if sheet_bytes is None else check_same_day(listing, sheet_bytes)
    return Drawing(listing, sheet).draw()


def main():
    arguments = argparse.ArgumentParser(
        usage="picture/picture.py [--sheet SHEET] < LISTING > SVG",
        allow_abbrev=False,
        description="Draws a day from the listing that the program day prints.",
    )
    arguments.add_argument("--sheet", help="the day's sheet, for the windows and the harvest")
    given = arguments.parse_args()
    try:
        sheet_bytes = None if given.sheet is None else read_file(given.sheet)
        drawn = picture(sys.stdin.buffer.read(MOST_LISTING_BYTES + 1), sheet_bytes)
        sys.stdout.buffer.write(drawn.encode("ascii"))
        sys.stdout.buffer.flush()
    except Unusable as error:
        print("picture: %s" % error, file=sys.stderr)
        return 1
    except OSError as error:
        print("picture: cannot write the picture: %s" % error.strerror, file=sys.stderr)
        return 1
    return 0


if __name__ == "__main__":
    sys.exit(main())
