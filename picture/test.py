#!/usr/bin/env python3
"""Tests of picture.py, from the repository's root: python3 picture/test.py

Every listing of examples/ is drawn, alone and with its sheet, and the picture is measured: what it
shows must be what the listing and the sheet say. Both are read here a second time.
"""

import bisect
import io
import os
import re
import struct
import subprocess
import sys
import unittest
import unittest.mock
import xml.dom.minidom

HERE = os.path.dirname(os.path.abspath(__file__))
EXAMPLES = os.path.join(HERE, os.pardir, "examples")
PROGRAM = os.path.join(HERE, "picture.py")

sys.dont_write_bytecode = True
sys.path.insert(0, HERE)
import picture  # noqa: E402

NEAR = 0.006  # coordinates are written to the hundredth


def contents(*names):
    with open(os.path.join(*names), "rb") as file:
        return file.read()


def days():
    """Each day's name, its listing and its sheet: the examples, and the day of the README."""
    for name in sorted(os.listdir(EXAMPLES)):
        if name.endswith(".sheet"):
            stem = name[: -len(".sheet")]
            yield stem, contents(EXAMPLES, stem + ".txt"), contents(EXAMPLES, name)
    yield "day", contents(HERE, "day.txt"), contents(HERE, "day.sheet")


def slot_words(listing):
    """The words of each slot's line."""
    rows = [row.split() for row in listing.decode().splitlines()]
    return [words for words in rows if words[0] == "slot"]


def jobs_of(sheet):
    """Release, deadline, wanted and energy of each job of a good sheet."""
    count = struct.unpack_from("<H", sheet, len(sheet) - 8)[0]
    return [struct.unpack_from("<HHHB", sheet, 8 * job) for job in range(count)]


class Svg:
    """A picture, parsed, with what can be measured on it."""

    def __init__(self, text):
        self.text = text
        self.root = xml.dom.minidom.parseString(text).documentElement
        self.by_id = {}
        for element in self.root.getElementsByTagName("*"):
            if element.hasAttribute("id"):
                assert element.getAttribute("id") not in self.by_id
                self.by_id[element.getAttribute("id")] = element

    def words(self):
        texts = self.root.getElementsByTagName("text")
        return "\n".join(text.firstChild.data for text in texts)

    def rects(self, name):
        """The rectangles of this class."""
        rects = self.root.getElementsByTagName("rect")
        return [rect for rect in rects if rect.getAttribute("class") == name]

    def box(self, element):
        """Left, top, right and bottom of a rectangle."""
        left, top, width, height = (
            float(element.getAttribute(name)) for name in ("x", "y", "width", "height")
        )
        return left, top, left + width, top + height

    def slots(self, element, slots):
        """The slots that a rectangle covers, from its first up to, not including, the second."""
        left, _, right, _ = self.box(self.by_id["rows-panel"])
        wide = (right - left) / slots
        edges = [(edge - left) / wide for edge in self.box(element)[::2]]
        for edge in edges:
            assert abs(edge - round(edge)) < 0.02, "a bar begins or ends inside a slot"
        return range(round(edges[0]), round(edges[1]))

    def height_at(self, path, panel, slots):
        """How high above the panel's bottom the path stands in the middle of each slot."""
        left, _, right, bottom = self.box(self.by_id[panel])
        middles = [left + (slot + 0.5) * (right - left) / slots for slot in range(slots)]
        heights = [None] * slots
        x = y = 0.0
        steps = re.findall("([MVHZ])([-0-9. ]*)", self.by_id[path].getAttribute("d"))
        for kind, numbers in steps:
            if kind == "M":
                x, y = (float(number) for number in numbers.split())
            elif kind == "V":
                y = float(numbers)
            elif kind == "H":
                end = float(numbers)
                for slot in range(bisect.bisect(middles, x), bisect.bisect(middles, end)):
                    assert heights[slot] is None, "the line passes a slot twice"
                    heights[slot] = bottom - y
                x = end
        return heights

    def panel_height(self, panel):
        _, top, _, bottom = self.box(self.by_id[panel])
        return bottom - top


def of_each_day(check):
    """A test that makes this check of every day's two pictures."""

    def test(self):
        for name, listing, sheet, svg in self.drawn:
            with self.subTest(name):
                check(self, listing, sheet, svg)

    return test


class Pictures(unittest.TestCase):
    @classmethod
    def setUpClass(cls):
        """Each day's listing, its sheet or None, and the picture."""
        cls.drawn = []
        for name, listing, sheet in days():
            for given, words in ((None, " alone"), (sheet, " with its sheet")):
                svg = Svg(picture.picture(listing, given))
                cls.drawn.append((name + words, listing, given, svg))

    @of_each_day
    def test_runs_are_those_of_the_listing(self, listing, sheet, svg):
        lines = slot_words(listing)
        shown = []
        for name, group in svg.by_id.items():
            if name == "idle" or name.startswith("job-"):
                for run in group.getElementsByTagName("rect"):
                    ground = run.getAttribute("class")
                    slots = svg.slots(run, len(lines))
                    shown += [(slot, name, ground) for slot in slots]
        listed = [
            (slot, "idle", words[3]) if words[2] == "idle" else (slot, "job-" + words[3], words[4])
            for slot, words in enumerate(lines)
        ]
        self.assertEqual(sorted(shown), listed)

    @of_each_day
    def test_each_job_has_its_row(self, listing, sheet, svg):
        rows = [name for name in svg.by_id if name.startswith("job-")]
        if not rows:
            return
        tops = []
        texts = svg.root.getElementsByTagName("text")
        for job in range(len(rows)):
            label = [text for text in texts if text.firstChild.data == "job %d" % job]
            self.assertEqual(len(label), 1)
            words = float(label[0].getAttribute("y"))
            tops.append(words)
            for run in svg.by_id["job-%d" % job].getElementsByTagName("rect"):
                _, top, _, bottom = svg.box(run)
                self.assertTrue(top < words < bottom + 2)
        self.assertEqual(tops, sorted(set(tops)))

    @of_each_day
    def test_level_line_passes_every_level(self, listing, sheet, svg):
        lines = slot_words(listing)
        if not lines:
            self.assertNotIn("level", svg.by_id)
            return
        capacity = int(listing.split()[6])
        unit = svg.panel_height("level-panel") / max(capacity, 1)
        heights = svg.height_at("level", "level-panel", len(lines))
        for words, height in zip(lines, heights):
            self.assertAlmostEqual(height, unit * int(words[-1]), delta=NEAR)
        full = float(svg.by_id["capacity"].getAttribute("y1"))
        bottom = svg.box(svg.by_id["level-panel"])[3]
        self.assertAlmostEqual(bottom - full, unit * capacity, delta=NEAR)

    @of_each_day
    def test_windows_and_harvest_are_those_of_the_sheet(self, listing, sheet, svg):
        windows = svg.rects("window")
        if sheet is None or listing.startswith(b"refused"):
            self.assertEqual(windows, [])
            self.assertNotIn("harvest-panel", svg.by_id)
            return
        slots = int(listing.split()[2])
        jobs = jobs_of(sheet)
        self.assertEqual(
            [svg.slots(window, slots) for window in windows],
            [range(release, deadline) for release, deadline, _, _ in jobs],
        )
        harvest = sheet[8 * len(jobs) : 8 * len(jobs) + slots]
        if not any(harvest):
            self.assertNotIn("harvest", svg.by_id)
            return
        unit = svg.panel_height("harvest-panel") / max(harvest)
        heights = svg.height_at("harvest", "harvest-panel", slots)
        for value, height in zip(harvest, heights):
            self.assertAlmostEqual(height or 0, unit * value, delta=NEAR)

    @of_each_day
    def test_verdict_stands_in_words(self, listing, sheet, svg):
        verdict = listing.decode().splitlines()[-1].split()
        words = svg.words()
        if verdict[0] == "refused":
            self.assertEqual(words.splitlines()[0], " ".join(verdict))
            return
        self.assertIn("Verdict %s: " % verdict[1], words)
        self.assertEqual("short" in svg.by_id, verdict[1] == "undecided")
        if verdict[1] == "undecided":
            self.assertIn("leaves job %s short" % verdict[3], words)
            _, top, _, bottom = svg.box(svg.by_id["short"])
            for run in svg.by_id["job-" + verdict[3]].getElementsByTagName("rect"):
                _, run_top, _, run_bottom = svg.box(run)
                self.assertTrue(top < run_top < run_bottom < bottom)
        if verdict[1] in ("time", "energy"):
            start, end, demand, supply = (int(verdict[place]) for place in (2, 3, 5, 7))
            self.assertRegex(words, r"Demand: .*\b%d\b.* Supply: .*\b%d\b" % (demand, supply))
            shaded = svg.rects("overloaded")
            self.assertEqual(len(shaded), 2 if sheet else 0)
            for rect in shaded:
                covered = svg.slots(rect, int(listing.split()[2]))
                self.assertEqual(covered, range(start, end))

    @of_each_day
    def test_everything_stands_on_the_page(self, listing, sheet, svg):
        self.assert_on_page(svg)
        for forbidden in ("<script", "href", "url(", "@import", "<image", "<foreignObject"):
            self.assertNotIn(forbidden, svg.text)
        self.assertEqual(re.findall("https?://[^\"]*", svg.text), ["http://www.w3.org/2000/svg"])

    def assert_on_page(self, svg):
        wide, high = (float(svg.root.getAttribute(name)) for name in ("width", "height"))
        self.assertLessEqual(wide, 1600)
        self.assertLess(len(svg.text), 400000)
        for rect in svg.root.getElementsByTagName("rect"):
            if rect.hasAttribute("x"):
                left, top, right, bottom = svg.box(rect)
                self.assertTrue(0 <= left < right <= wide and 0 <= top < bottom <= high)

    def test_the_most_restless_day_is_small_enough(self):
        # Every slot differs from its neighbours, and so does its harvest.
        jobs = b"".join(struct.pack("<HHHBB", 0, 1440, 23, 1 + job % 2, 0) for job in range(64))
        harvest = bytes(2 + slot % 2 for slot in range(1440))
        sheet = jobs + harvest + struct.pack("<5H", 1440, 1952, 64, 1440, 60000) + b"EH"
        lines, level, spilt = [], 60000, ("full", "free")
        for slot in range(1440):
            job = slot * 7 % 64
            level = min(60000, level + harvest[slot] - 1 - job % 2)
            lines.append("slot %d job %d %s level %d\n" % (slot, job, spilt[slot // 64 % 2], level))
        # 1,440 slots are 22.5 for each job: every other job, 32 among them, is short of its 23.
        listing = "day slots 1440 jobs 64 capacity 60000\n" + "".join(lines) + "verdict undecided job 32\n"
        self.assert_on_page(Svg(picture.picture(listing.encode(), sheet)))

    def test_every_number_of_slots_and_jobs_has_room(self):
        for slots in (1, 2, 3, 5, 6, 7, 12, 13, 16, 17, 48, 49, 96, 192, 193, 480, 481, 960, 1153):
            lines = "".join("slot %d idle none level 65535\n" % slot for slot in range(slots))
            jobs = slots % 65
            listing = "day slots %d jobs %d capacity 65535\n%sverdict met\n" % (slots, jobs, lines)
            self.assert_on_page(Svg(picture.picture(listing.encode())))

    def test_too_long(self):
        for sheet in (None, bytes(5000)):
            self.assertIn("too long", Svg(picture.picture(b"too long\n", sheet)).words())

    def test_refused_sheets(self):
        day = contents(EXAMPLES, "day-1.sheet")  # two records, four slots, the trailer at 20
        changes = [
            (2, 30, 0x46, None),  # the mark
            (3, 24, 65, None),  # jobs
            (3, 26, 0, None),  # slots
            (4, 20, 5, None),  # back to the harvest
            (4, 22, 21, None),  # back to the jobs
            (5, 8, 2, 1),  # job 1's release is its deadline
            (5, 2, 5, 0),  # job 0's deadline is past the end
            (6, 4, 0, 0),  # job 0 wants nothing
            (6, 14, 0, 1),  # job 1's energy
            (6, 15, 1, 1),  # job 1's last byte
        ]
        for refusal, place, value, job in changes:
            with self.subTest("refused %d, byte %d" % (refusal, place)):
                sheet = day[:place] + bytes([value]) + day[place + 1 :]
                words = Svg(picture.picture(b"refused %d\n" % refusal, sheet)).words()
                self.assertEqual(re.findall("It is job ([0-9]+)", words), [] if job is None else [str(job)])
        for refusal, sheet in ((1, b""), (1, day[-11:]), (4, b"\0" + day)):
            self.assertIn("refused", picture.picture(b"refused %d\n" % refusal, sheet))

    def test_the_sheet_of_another_day_is_not_drawn(self):
        for name, listing, sheet in days():
            for other, _, wrong in days():
                if sheet != wrong:
                    with self.subTest(name + " with the sheet of " + other):
                        self.assertRaises(picture.Unusable, picture.picture, listing, wrong)

    def test_a_changed_forecast_is_noticed(self):
        listing, sheet = contents(HERE, "day.txt"), bytearray(contents(HERE, "day.sheet"))
        sheet[8 * 12 + 20] += 1
        with self.assertRaisesRegex(picture.Unusable, "level after slot 20"):
            picture.picture(listing, bytes(sheet))


IDLE = b"slot %d idle none level 0\n"
BAD = [
    ("empty", b""),
    ("an empty line", b"\n"),
    ("a sheet", contents(EXAMPLES, "day-1.sheet")),
    ("a table of evidence", contents(EXAMPLES, "evidence.txt")),
    ("a picture", contents(HERE, "day.svg")),
    ("no verdict", b"day slots 1 jobs 0 capacity 0\n" + IDLE % 0),
    ("no slot lines", b"day slots 1 jobs 0 capacity 0\nverdict met\n"),
    ("header alone", b"day slots 1 jobs 0 capacity 0\n"),
    ("a slot twice", b"day slots 2 jobs 0 capacity 0\n" + IDLE % 0 + IDLE % 0 + b"verdict met\n"),
    ("a slot too many", b"day slots 1 jobs 0 capacity 0\n" + IDLE % 0 + IDLE % 1 + b"verdict met\n"),
    ("a slot left out", b"day slots 2 jobs 0 capacity 0\n" + IDLE % 1 + b"verdict met\n"),
    ("the end left out", b"day slots 2 jobs 0 capacity 0\n" + IDLE % 0 + b"verdict met\n"),
    ("a job too many", b"day slots 1 jobs 1 capacity 0\nslot 0 job 1 free level 0\nverdict met\n"),
    ("above capacity", b"day slots 1 jobs 0 capacity 0\nslot 0 idle none level 1\nverdict met\n"),
    ("idle and free", b"day slots 1 jobs 0 capacity 0\nslot 0 idle free level 0\nverdict met\n"),
    ("no slots", b"day slots 0 jobs 0 capacity 0\nverdict met\n"),
    ("too many slots", b"day slots 1441 jobs 1 capacity 0\nverdict time 0 1 demand 2 supply 1\n"),
    ("an interval past the end", b"day slots 1 jobs 2 capacity 2\nverdict time 0 2 demand 3 supply 2\n"),
    ("no overload", b"day slots 1 jobs 2 capacity 2\nverdict time 0 1 demand 1 supply 1\n"),
    ("no such refusal", b"refused 99\n"),
    ("two refusals", b"refused 5\nrefused 5\n"),
    ("much too long", b"slot\n" * 100000),
]


class Program(unittest.TestCase):
    def call(self, given, *arguments):
        """What the program does with this input: its exit status, its output, its messages."""
        out, errors = io.BytesIO(), io.StringIO()
        with unittest.mock.patch.multiple(
            sys,
            argv=[PROGRAM] + list(arguments),
            stdin=io.TextIOWrapper(io.BytesIO(given)),
            stdout=io.TextIOWrapper(out),
            stderr=errors,
        ):
            status = picture.main()
            return status, out.getvalue(), errors.getvalue()

    def assert_refused(self, done):
        status, out, message = done
        self.assertEqual((status, out), (1, b""))
        self.assertRegex(message, r"\Apicture: [^\n]+\n\Z")

    def test_day_svg_is_as_made(self):
        done = self.call(contents(HERE, "day.txt"), "--sheet", os.path.join(HERE, "day.sheet"))
        self.assertEqual(done, (0, contents(HERE, "day.svg"), ""))

    def test_bad_input_exits_with_1(self):
        for name, given in BAD:
            with self.subTest(name):
                self.assert_refused(self.call(given))

    def test_bad_sheet_exits_with_1(self):
        day = contents(EXAMPLES, "day-1.txt")
        for sheet in (os.path.join(EXAMPLES, "day-2.sheet"), PROGRAM, HERE, HERE + "/no-such-file"):
            with self.subTest(sheet):
                self.assert_refused(self.call(day, "--sheet", sheet))

    def test_as_a_process(self):
        for given, status in ((contents(EXAMPLES, "day-1.txt"), 0), (b"no listing\n", 1)):
            pipe = subprocess.PIPE
            done = subprocess.run([sys.executable, PROGRAM], input=given, stdout=pipe, stderr=pipe)
            self.assertEqual(done.returncode, status)
            self.assertEqual((done.stdout == b"", done.stderr == b""), (status == 1, status == 0))


if __name__ == "__main__":
    unittest.main()
