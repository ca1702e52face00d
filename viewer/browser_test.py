"""Drives viewer/index.html in a headless Chromium: what a person does to it, and what must then be seen.

Run by viewer/test. `viewer/test NAME..` runs the named tests only. It writes to a temporary folder alone, which it removes.
`viewer/test --screenshots FOLDER` saves the window as it is seen with the dart, the bag, 2,048 parts, a sum and others, to look at.
"""
import base64
import itertools
import os
import pathlib
import random
import re
import shutil
import struct
import subprocess
import sys
import tempfile
import time
import unittest
import xml.etree.ElementTree as ElementTree

from selenium import webdriver
from selenium.webdriver.chrome.options import Options
from selenium.webdriver.chrome.service import Service
from selenium.webdriver.common.action_chains import ActionChains
from selenium.webdriver.common.by import By
from selenium.webdriver.common.keys import Keys

HERE = pathlib.Path(__file__).resolve().parent
ROOT = HERE.parent
PAGE = (HERE / "index.html").as_uri()
SVG = "{http://www.w3.org/2000/svg}"
NONE = 2**32 - 1
FAR = 2**30 - 1
TEMP = pathlib.Path(tempfile.mkdtemp(prefix="viewer-test-"))

DART = (ROOT / "examples/dart.out").read_text()
DART_LINES = DART.splitlines()
BAG = (ROOT / "examples/bag.out").read_text()
DART_MESH = (ROOT / "crates/areas/stdin").read_bytes()
JOB = (ROOT / "examples/pocket.job").read_bytes()
CONTOURS = (ROOT / "examples/pocket.contours").read_text()
VAMP_JOB = (ROOT / "examples/vamp.job").read_bytes()
VAMP_CONTOURS = (ROOT / "examples/vamp.contours").read_text()


def listing(parts):
    """A listing of parts, each a list of corners, as the area program prints it."""
    def area(p):
        return abs(sum(a[0] * b[1] - a[1] * b[0] for a, b in zip(p, p[1:] + p[:1])))
    total = sum(map(area, parts))
    lines = [f"parts {len(parts)} corners {sum(map(len, parts))} area2 {total}"]
    for k, p in enumerate(parts):
        lines.append(f"{k} {len(p)} {area(p)} {area(p) * 10000 // total} " + " ".join(f"({x},{y})" for x, y in p))
    return "\n".join(lines) + "\n"


def quilt(columns, rows, size):
    """Squares of four triangles about their middle: 4 · columns · rows parts."""
    parts = []
    for j, i in itertools.product(range(rows), range(columns)):
        x, y = i * size, j * size
        ring = [(x, y), (x + size, y), (x + size, y + size), (x, y + size)]
        parts += [[(x + size // 2, y + size // 2), ring[k], ring[(k + 1) % 4]] for k in range(4)]
    return parts


def table(parts):
    """A stored part table of document 01."""
    starts = [0, *itertools.accumulate(len(p) for p in parts)]
    corners = [n for p in parts for c in p for n in c]
    return struct.pack(f"<2I{len(starts)}I{len(corners)}i", len(parts), len(corners) // 2, *starts, *corners)


def difference(lefts, rights, contours):
    """The pair job of a difference, and contours as the pair program prints them, in bounds that agree."""
    def bounds(parts):
        xs, ys = zip(*[c for p in parts for c in p] or [(0, 0)])
        return min(xs), max(xs), min(ys), max(ys)
    a, b = bounds(lefts), bounds(rights)
    job = struct.pack("<I4i", 1, *a) + table(lefts) + struct.pack("<4i", *b) + table(rights)
    lines = [f"contours {len(contours)} corners {sum(map(len, contours))} bounds {a[0] - b[1]} {a[1] - b[0]} {a[2] - b[3]} {a[3] - b[2]}"]
    for k, contour in enumerate(contours):
        lines.append(" ".join([f"{k // len(rights)} {k % len(rights)} {len(contour)}", *(f"({x},{y})" for x, y in contour)]))
    return {"job": job, "contours": "\n".join(lines) + "\n"}


def minkowski(a, b, sign):
    """The contour of two convex parts, added (1) or subtracted (-1): the hull of all sums of corners, from its lowest, then leftmost corner."""
    def half(points):
        out = []
        for x, y in points:
            while len(out) > 1 and (out[-1][0] - out[-2][0]) * (y - out[-2][1]) <= (out[-1][1] - out[-2][1]) * (x - out[-2][0]):
                out.pop()
            out.append((x, y))
        return out[:-1]
    points = sorted({(p[0] + sign * q[0], p[1] + sign * q[1]) for p in a for q in b})
    ring = half(points) + half(points[::-1])
    first = ring.index(min(ring, key=lambda c: (c[1], c[0])))
    return ring[first:] + ring[:first]


def contours_of(lefts, rights, sign):
    """What `contours` prints for two meshes of these parts, added (1) or subtracted (-1)."""
    made = [minkowski(a, b, sign) for a in lefts for b in rights]
    xs, ys = zip(*(c for contour in made for c in contour))
    lines = [f"contours {len(made)} corners {sum(map(len, made))} bounds {min(xs)} {max(xs)} {min(ys)} {max(ys)}"]
    for k, contour in enumerate(made):
        lines.append(" ".join([f"{k // len(rights)} {k % len(rights)} {len(contour)}", *(f"({x},{y})" for x, y in contour)]))
    return "\n".join(lines) + "\n"


def triangles_of(parts):
    """A mesh file of parts, each as a fan of triangles without neighbours."""
    return mesh([(*p[0], *p[k], *p[k + 1], NONE, NONE, NONE) for p in parts for k in range(1, len(p) - 1)])


# a strap of two parts and a buckle of three
STRAP = [[(0, 0), (40, 0), (40, 10), (0, 10)], [(40, 0), (70, 5), (40, 10)]]
BUCKLE = [[(2, 1), (8, 1), (8, 4), (2, 4)], [(2, 4), (4, 4), (4, 9), (2, 9)], [(4, 9), (4, 4), (11, 8)]]


def word_of(contours, x, y):
    """What contours say of a place, by the sides of their edges."""
    found = "apart"
    for contour in filter(None, contours):
        edges = [(a, b) for a, b in zip(contour, contour[1:] + contour[:1]) if a != b]
        areas = [(b[0] - a[0]) * (y - a[1]) - (b[1] - a[1]) * (x - a[0]) for a, b in edges]
        if edges and min(areas) > 0:
            return "overlapping"
        xs, ys = zip(*contour)
        if min(areas, default=0) >= 0 and min(xs) <= x <= max(xs) and min(ys) <= y <= max(ys):
            found = "touching"
    return found


def mesh(rows, limit=0, split=0):
    """A mesh file of document 01; a row has six coordinates and three neighbours."""
    body = b"".join(struct.pack("<6i3I", *row) for row in rows)
    return struct.pack("<5I", 20 + len(body), len(rows), 20, limit, split) + body


def start():
    # Chromium leaves a few files in its home and among temporary ones; a socket is among these,
    # whose path may have 107 bytes, so that it is told from here
    for folder in ["home", "saved"]:
        (TEMP / folder).mkdir(exist_ok=True)
    os.environ.update({name: str(TEMP / "home") for name in ["HOME", "XDG_CONFIG_HOME", "XDG_CACHE_HOME"]}, TMPDIR=".")
    os.chdir(TEMP / "home")
    options = Options()
    options.binary_location = shutil.which("chromium")
    flags = ["--headless=new", "--disable-gpu", "--window-size=1280,860", "--force-device-scale-factor=1", "--hide-scrollbars", "--disable-dev-shm-usage", f"--user-data-dir={TEMP}/profile"]
    for flag in flags + (["--no-sandbox"] if os.getuid() == 0 else []):
        options.add_argument(flag)
    options.add_experimental_option("prefs", {"download.default_directory": str(TEMP / "saved"), "download.prompt_for_download": False})
    options.set_capability("goog:loggingPrefs", {"browser": "ALL"})
    return webdriver.Chrome(service=Service(shutil.which("chromedriver"), log_path=os.devnull), options=options)


class Viewer(unittest.TestCase):
    @classmethod
    def setUpClass(cls):
        cls.d = start()

    @classmethod
    def tearDownClass(cls):
        cls.d.quit()

    def setUp(self):
        self.d.get(PAGE)

    def tearDown(self):
        # reading many pixels back, which only these tests do, makes Chromium give a hint
        logged = [entry["message"] for entry in self.d.get_log("browser") if "willReadFrequently" not in entry["message"]]
        self.assertEqual(logged, [], "the page logs nothing")

    # ---- what a person does

    def js(self, code, *arguments):
        return self.d.execute_script(code, *arguments)

    def frame(self):
        """Waits until what was asked for is drawn."""
        self.d.execute_async_script("requestAnimationFrame(() => requestAnimationFrame(arguments[0]))")

    def settle(self):
        """Waits until files are read, and then drawn."""
        self.d.execute_async_script("const [done] = arguments; const wait = () => (document.querySelector('[aria-busy]') ? setTimeout(wait, 5) : done()); wait();")
        self.frame()

    def drop(self, **files):
        """Drops files on the page: names with their bytes or text. A name's __ is its dot."""
        given = [[name.replace("__", "."), base64.b64encode(data.encode() if isinstance(data, str) else data).decode()] for name, data in files.items()]
        self.js("""
            const [given] = arguments;
            const data = new DataTransfer();
            for (const [name, text] of given) data.items.add(new File([Uint8Array.from(atob(text), (c) => c.charCodeAt(0))], name));
            for (const type of ['dragenter', 'dragover', 'drop']) document.getElementById('stage').dispatchEvent(new DragEvent(type, { dataTransfer: data, bubbles: true, cancelable: true }));""", given)
        self.settle()

    def paste(self, text):
        self.js("""const data = new DataTransfer(); data.setData('text/plain', arguments[0]);
            document.body.dispatchEvent(new ClipboardEvent('paste', { clipboardData: data, bubbles: true, cancelable: true }));""", text)
        self.frame()

    def point(self, x, y):
        """Moves the real pointer to a place of the picture."""
        canvas = self.d.find_element(By.ID, "canvas")
        ActionChains(self.d, duration=0).move_to_element_with_offset(canvas, round(x - canvas.size["width"] / 2), round(y - canvas.size["height"] / 2)).perform()
        self.frame()

    def click(self, selector):
        self.d.find_element(By.CSS_SELECTOR, selector).click()
        self.frame()

    def key(self, *keys):
        ActionChains(self.d, duration=0).send_keys(*keys).perform()
        self.frame()

    def wheel(self, x, y, delta):
        """Turns the wheel near a place of the picture, at a whole pixel of the window; answers where that is."""
        spot = self.js("""const box = canvas.getBoundingClientRect();
            const [clientX, clientY] = [Math.round(box.left + arguments[0]), Math.round(box.top + arguments[1])];
            canvas.dispatchEvent(new WheelEvent('wheel', { deltaY: arguments[2], clientX, clientY, bubbles: true, cancelable: true }));
            return [clientX - box.left, clientY - box.top];""", x, y, delta)
        self.frame()
        return spot

    # ---- what is seen

    def text(self, selector):
        return self.d.find_element(By.CSS_SELECTOR, selector).text

    def rows(self):
        return self.js("return [...document.querySelectorAll('#rows tr')].map((r) => [...r.children].map((c) => c.textContent))")

    def message(self):
        return self.js("const m = document.getElementById('message'); return m.hidden ? '' : m.querySelector('span').textContent")

    def tip(self):
        return self.js("const t = document.getElementById('tip'); return t.hidden ? ['', ''] : [...t.children].map((c) => c.textContent)")

    def pixel(self, x, y):
        return tuple(self.js("draw(); return [...context.getImageData(Math.round(arguments[0]), Math.round(arguments[1]), 1, 1).data.slice(0, 3)]", x, y))

    def pixels(self):
        """The whole picture, to tell whether it changed."""
        return self.js("draw(); return canvas.toDataURL()")

    def place(self, x, y):
        return self.js("return [screenX(state.view, arguments[0]), screenY(state.view, arguments[1])]", x, y)

    def view(self):
        return self.js("return state.view")

    def svg(self):
        return ElementTree.fromstring(self.js("return drawSvg()"))

    def labels(self):
        return [t.text for t in self.svg().iter(SVG + "text")]

    def drawn(self):
        """How many of the mesh's triangles and how many parts are drawn; the triangles come first."""
        polygons = list(self.svg().iter(SVG + "polygon"))
        triangle = self.js("return coloursNow().triangle")
        beneath = [k for k, p in enumerate(polygons) if p.get("fill") == triangle]
        above = [k for k, p in enumerate(polygons) if p.find(SVG + "title") is not None]
        self.assertTrue(not beneath or beneath[-1] < above[0])
        return len(beneath), len(above)

    def near(self, a, b, within=0.01):
        self.assertEqual(len(a), len(b))
        for p, q in zip(a, b):
            self.assertAlmostEqual(p, q, delta=within)

    # ---- listings

    def test_a_dropped_listing_is_drawn_with_its_own_numbers(self):
        self.drop(dart__out=DART)
        self.assertEqual(self.rows(), [["0", "3", "16", "5000"], ["1", "3", "16", "5000"]])
        self.assertIn("total doubled area 32", self.text("#summary"))
        zero, one, outside = self.pixel(*self.place(0.5, 0.5)), self.pixel(*self.place(7, -0.6)), self.pixel(*self.place(8.5, 3.5))
        self.assertEqual(outside, (255, 255, 255))
        self.assertEqual(len({zero, one, outside}), 3)
        self.assertTrue({"0", "1", "5000‱", "1 unit"} <= set(self.labels()), self.labels())
        self.assertEqual([p.find(SVG + "title").text for p in self.svg().iter(SVG + "polygon") if p.find(SVG + "title") is not None], DART_LINES[1:])
        # y points up: (0,4) stands above (0,0)
        self.assertLess(self.place(0, 4)[1], self.place(0, 0)[1])

    def test_areas_and_shares_are_the_texts_never_its_own(self):
        self.drop(odd="parts 1 corners 3 area2 9223372036854775807\n0 3 9223372036854775806 1234 (0,4) (0,0) (4,0)\n")
        self.assertEqual(self.rows(), [["0", "3", "9223372036854775806", "1234"]])
        self.assertIn("9223372036854775807", self.text("#summary"))
        self.assertIn("1234‱", self.labels())

    def test_a_file_from_the_dialog(self):
        self.d.find_element(By.ID, "files").send_keys(str(ROOT / "examples/bag.out"))
        self.settle()
        self.assertEqual(len(self.rows()), 43)
        self.assertEqual(self.rows()[42], ["42", "8", "10460519", "2586"])
        self.assertEqual(self.text("#sources span"), "listing: bag.out")

    def test_pasted_text_and_the_paste_dialog(self):
        self.paste(DART)
        self.assertEqual(len(self.rows()), 2)
        self.click("#paste")
        self.js("document.querySelector('textarea').value = arguments[0]", BAG.replace("\n", "\r\n") + "\n\n")
        self.click("dialog .main")
        self.assertEqual(len(self.rows()), 43)
        self.assertEqual(self.message(), "")

    def test_the_example_and_the_empty_listing(self):
        self.click("#dart")
        self.assertEqual(len(self.rows()), 2)
        self.drop(empty__out=(ROOT / "examples/empty.out").read_text())
        self.assertEqual(self.rows(), [])
        self.assertIn("0 parts, 0 corners, total doubled area 0", self.text("#summary"))

    def test_a_refused_listing_is_shown_as_what_it_is(self):
        self.drop(a__out="refused 3\n")
        self.assertIn("refused this mesh: fault 3, a neighbour neither none nor in the mesh, or the triangle itself.", self.text("#summary"))
        self.assertEqual(self.rows(), [])
        self.drop(b__out="refused 9\n")
        self.assertIn("refused this pair job: fault 9, a least bound above a greatest, or a corner outside its bounds.", self.text("#summary"))

    def test_a_refusal_stays_with_its_mesh_only(self):
        text = (ROOT / "examples/refused_3.txt").read_bytes()
        self.drop(a="refused 3\n")
        self.drop(b=text)
        self.assertIn("refused this mesh: fault 3", self.text("#summary"))
        self.assertEqual((self.message(), self.text("#sources").count("×")), ("", 2))
        self.drop(dart__mesh=DART_MESH)
        self.assertEqual(self.message(), "The listing a does not belong to it, and was put away.")
        self.drop(dart__out=DART)
        self.drop(a="refused 3\n")
        self.assertEqual(self.message(), "The mesh dart.mesh does not belong to it, and was put away.")
        self.drop(b=text, a="refused 13\n")
        self.assertEqual((self.message(), self.text("#sources").count("×")), ("", 2))

    # ---- what is refused

    def test_what_cannot_be_read_is_refused_by_its_line(self):
        self.drop(dart__out=DART)
        before, rows = self.pixels(), self.rows()
        head, zero, one = DART_LINES
        long = "parts 1 corners 3 area2 1\n0 3 9223372036854775808 1 (0,0) (1,0) (0,1)\n"
        cases = {
            "": "line 1: there is nothing to read",
            "hello\n": "line 1: it begins with none of",
            f"{head}\n{zero}\n": "line 3: the text ends before part 1, and line 1 says 2 parts",
            f"{head}\n{zero}\n{one}\n{one}\n": "line 4: “1” stands where the text should end",
            f"{head}\n{zero}\n2{one[1:]}\n": "line 3: part 2 stands where part 1 should",
            f"{head}\n{zero}\n01{one[1:]}\n": "line 3: a part’s number begins with a zero too many",
            f"{head}\n{zero}\n{one} (1,1)\n": "line 3: part 1 has 4 corners, and its line says 3",
            f"{head}\n{zero}\n{one[:-8]}\n": "line 3: part 1 has 2 corners, and its line says 3",
            f"{head}\n{zero}\n{one} \n": "line 3: “ ” stands where a corner or the line’s end should",
            f"{head}\n{zero} x\n{one}\n": "line 2: “ ” stands where",
            f"{head}\n{zero.replace('5000', '10001')}\n{one}\n": "line 2: the share is 10001, and at most 10,000 can be",
            f"{head}\n{zero.replace('(4,0)', '(4,)')}\n{one}\n": "line 2: “)” stands where a coordinate should",
            f"{head}\n{zero.replace('(4,0)', '(4;0)')}\n{one}\n": "line 2: “;0)” stands where “,” should",
            f"{head}\n{zero.replace('(4,0)', '(1073741824,0)')}\n{one}\n": "line 2: a coordinate is 1073741824, and at most 1,073,741,823 can be",
            f"{head}\n{zero.replace('(4,0)', '(-0,0)')}\n{one}\n": "line 2: a coordinate is −0",
            f"{head}\n{zero.replace('(4,0)', '(04,0)')}\n{one}\n": "line 2: a coordinate begins with a zero too many",
            f"{head.replace('6', '7')}\n{zero}\n{one}\n": "line 1: it says 7 corners, and the parts have 6",
            "parts 2049 corners 0 area2 0\n": "line 1: the number of parts is 2049, and at most 2,048 can be",
            "parts 1 area2 0\n": "line 1: “ ” stands where “corners” should",
            long: "line 2: the doubled area is 9223372036854775808, past 2^63−1",
            "refused 12\n": "line 1: neither areas nor pairs refuses by 12",
            "contours 1 corners 3 bounds 0 1 0 1\n0 1 3 (0,0) (1,0) (0,1)\n": "line 2: pair 0 1 stands where pair 0 0 should",
            "contours 2 corners 0 bounds 0 1 0 1\n0 0 0\n": "line 3: the text ends after 1 contour, and line 1 says 2",
            "contours 3 corners 0 bounds 0 1 0 1\n0 0 0\n0 1 0\n1 0 0\n": "line 1: it says 3 contours, which 2 right parts cannot make",
            "contours 1 corners 2 bounds 0 1 0 1\n0 0 1 (0,0)\n": "line 1: it says 2 corners, and the contours have 1",
            (ROOT / "examples/typo.txt").read_text(): "line 4: 7 fields stand where three points and three neighbours should",
            "limit 0 ear\n(0,0) (4,0) (0,4) none none -1\n": "line 2: “-1” stands where a triangle’s number or none should",
            "limit 0 oar\n": "line 1: a mesh as text begins with",
            " # first\n\n limit 4294967296 ear\n": "line 3: a mesh as text begins with",
        }
        for text, sentence in cases.items():
            with self.subTest(text=text[:80]):
                self.drop(bad=text)
                self.assertIn("bad, " + sentence, self.message())
                self.assertIn("The picture is as it was.", self.message())
                self.assertEqual(self.rows(), rows)
        self.assertEqual(self.pixels(), before)

    def test_bytes_are_refused_by_their_place(self):
        self.drop(dart__out=DART)
        before = self.pixels()

        def changed(data, at, word):
            return data[:at] + struct.pack("<I", word) + data[at + 4:]

        cases = [
            (DART_MESH[:-1], "byte 0: the header says 92 bytes, and the file has 91"),
            (DART_MESH[:19], "byte 0: there are 19 bytes, and a mesh file’s header has 20"),
            (changed(DART_MESH, 4, 1025), "byte 4: read as a mesh file it has 1,025 triangles"),
            (changed(DART_MESH, 8, 24), "byte 8: the records’ offset is 24"),
            (changed(DART_MESH, 8, 0), "byte 8: the records’ offset is 0"),
            (changed(DART_MESH, 16, 3), "byte 16: the split is 3"),
            (changed(DART_MESH, 4, 1), "byte 0: the header says 92 bytes for 1 triangle, which take 56"),
            (JOB[:-4], "the file ends inside the right operand"),
            (JOB + b"\0\0\0\0", "the pair job should end here"),
            (JOB[:3], "byte 0: there are 3 bytes"),
            (changed(JOB, 20, 2049), "byte 20: the left operand has 2,049 parts"),
            (changed(JOB, 28, 1), "byte 28: the left operand’s first start is 1"),
            (changed(JOB, 36, 5), "byte 36: the left operand’s starts fall from 6 to 5"),
        ]
        for data, sentence in cases:
            with self.subTest(sentence=sentence):
                self.drop(bad=data)
                self.assertIn(sentence, self.message())
        self.assertEqual(self.pixels(), before)

    def test_changed_bytes_are_refused_by_place_or_read_as_they_stand(self):
        chance = random.Random(1)
        seeds = [DART.encode(), CONTOURS.encode(), (ROOT / "crates/pairs/stdout").read_bytes(), b"refused 3\n", DART_MESH, JOB, table(STRAP)]
        given = []
        for _ in range(1200):
            data = bytearray(chance.choice(seeds))
            for _ in range(chance.randint(1, 3)):
                at = chance.randint(0, len(data))
                piece = bytes(chance.choices(b"\0\1\n\r (),-019a\xff", k=chance.randint(0, 2)))
                data[at:at + chance.randint(0, 3)] = piece
            given.append(bytes(data) or b"0")
        answers = self.js("""
            const corners = (list) => (list.length > 0 ? ' ' : '') + cornersText(list);
            const again = {
                listing: (v) => [`parts ${v.parts.length} corners ${v.cornerCount} area2 ${v.area2}`, ...v.parts.map((p, k) => `${k} ${p.corners.length / 2} ${p.area} ${p.share}${corners(p.corners)}`)],
                contours: (v) => [`contours ${v.count} corners ${v.cornerCount} bounds ${v.bounds.join(' ')}`, ...Array.from({ length: v.count }, (_, k) =>
                    `${Math.floor(k / v.rights)} ${k % v.rights} ${v.starts[k + 1] - v.starts[k]}${corners(v.corners.subarray(2 * v.starts[k], 2 * v.starts[k + 1]))}`)],
                refused: (v) => [`refused ${v.refused}`],
            };
            return arguments[0].map((text) => {
                try {
                    const { kind, value } = read(Uint8Array.from(atob(text), (c) => c.charCodeAt(0)));
                    return [kind, again[kind] ? again[kind](value).join('\\n') : ''];
                } catch (error) {
                    return [error instanceof Refusal ? 'no' : 'broken', error.message];
                }
            });""", [base64.b64encode(data).decode() for data in given])
        for data, (kind, text) in zip(given, answers):
            with self.subTest(data=data):
                if kind == "no":
                    self.assertRegex(text, r"^(line [\d,]+|byte \d+): .+\.$")
                elif kind in ("listing", "contours", "refused"):
                    self.assertEqual(text, data.decode().replace("\r\n", "\n").rstrip("\n"))
                else:
                    self.assertIn(kind, ("mesh", "job", "table"))
        self.assertGreater(len({kind for kind, _ in answers}), 4)

    def test_several_files_are_taken_whole_or_not_at_all(self):
        self.drop(dart__out=DART)
        self.drop(bag__out=BAG, bad="parts x")
        self.assertIn("bad, line 1", self.message())
        self.assertEqual(len(self.rows()), 2)
        self.drop(one__out=DART, two__out=BAG, three__out=DART)
        self.assertIn("three.out: it is of neither one.out nor two.out, and one picture shows two meshes.", self.message())
        self.drop(one__contours=CONTOURS, two__contours=VAMP_CONTOURS)
        self.assertIn("a second contours beside one.contours", self.message())
        self.assertEqual(len(self.rows()), 2)
        self.click("#message button")
        self.assertEqual(self.message(), "")

    def test_a_mesh_as_text_may_have_no_limit_and_a_mark_in_front(self):
        self.drop(mesh__txt="\ufefflimit none ear\n(0,0) (4,0) (0,4) none none none\n")
        self.assertEqual(self.message(), "")
        self.assertIn("no corner limit, split ear", self.text("body"))
        self.drop(mesh__txt="limit 3 fan\n(0,0) (4,0) (0,4) none none none\n")
        self.assertIn("corner limit 3, split fan", self.text("body"))

    def test_a_file_past_the_limit_is_refused(self):
        self.drop(dart__out=DART)
        self.js("""const data = new DataTransfer();
            data.items.add(new File([new ArrayBuffer(2 ** 27 + 1)], 'large'));
            document.body.dispatchEvent(new DragEvent('drop', { dataTransfer: data, bubbles: true, cancelable: true }));""")
        self.settle()
        self.assertIn("large: it has 134,217,729 bytes, and the viewer reads at most 134,217,728.", self.message())
        self.assertEqual(len(self.rows()), 2)

    # ---- mesh and listing

    def test_a_mesh_alone_says_where_parts_come_from(self):
        self.drop(dart__mesh=DART_MESH)
        self.assertEqual(self.rows(), [["0", "1 none none"], ["1", "none 0 none"]])
        self.assertIn("come from the listing that areas prints", self.text("#summary"))
        self.assertNotEqual(self.pixel(*self.place(0.5, 0.5)), (255, 255, 255))

    def test_mesh_and_listing_in_any_order_and_triangles_beneath(self):
        text = (ROOT / "examples/bag.txt").read_text()
        for first, second in [({"a": text}, {"b": BAG}), ({"b": BAG}, {"a": text}), ({"a": text, "b": BAG}, {})]:
            self.setUp()
            self.drop(**first)
            if second:
                self.drop(**second)
            self.assertEqual(len(self.rows()), 43)
            self.assertEqual(self.drawn(), (124, 43))
        before = self.pixels()
        self.click("label:has(#triangles)")
        self.assertEqual(self.drawn(), (0, 43))
        self.assertNotEqual(self.pixels(), before)

    def test_the_older_of_two_that_do_not_belong_together_is_put_away(self):
        self.drop(dart__mesh=DART_MESH)
        self.drop(bag__out=BAG)
        self.assertIn("The mesh dart.mesh is not of the same shapes, and was put away.", self.message())
        self.assertEqual(self.text("#sources"), "listing: bag.out\n×")
        self.drop(dart__mesh=DART_MESH, bag__out=BAG)
        self.assertIn("the mesh and the listing are not of the same shapes", self.message())
        self.click(".chip button")
        self.assertEqual(self.text("#summary"), "Nothing is shown yet.")

    # ---- hovering and selecting

    def test_hovering_shows_the_line_and_corners_their_coordinates(self):
        self.drop(dart__out=DART)
        self.point(*self.place(1, 1))
        self.assertEqual(self.tip(), ["part 0", DART_LINES[1]])
        x, y = self.place(10, -2)
        self.point(x - 3, y - 2)
        self.assertEqual(self.tip(), ["(10,-2)  corner 2 of part 1", DART_LINES[2]])
        self.point(*self.place(8, 4))
        self.assertEqual(self.tip(), ["", ""])
        self.assertEqual(self.text("#readout"), "x 8 y 4")

    def test_rows_and_parts_select_one_another(self):
        self.drop(dart__out=DART)
        plain, before = self.pixels(), self.pixel(*self.place(1, 1))
        self.click("#rows tr:nth-child(2)")
        self.assertEqual(self.text(".line p"), DART_LINES[2])
        self.assertEqual(self.pixel(*self.place(1, 1)), before, "the other part keeps its colour")
        x, y = self.place(7, -1)
        self.assertLess(max(self.pixel(x, y + 1)), 70, "its outline is thick")
        self.assertLess(max(self.pixel(x, y - 1)), 70, "on either side")
        self.point(*self.place(1, 1))
        ActionChains(self.d, duration=0).click().perform()
        self.frame()
        self.assertEqual(self.text("#rows tr[aria-selected=true]").split()[0], "0")
        self.assertEqual(self.text(".line p"), DART_LINES[1])
        self.key(Keys.ESCAPE)
        self.assertEqual(self.pixels(), plain)
        self.assertFalse(self.d.find_element(By.ID, "line").is_displayed())

    def test_a_selected_row_is_scrolled_into_sight(self):
        self.drop(bag__out=BAG)
        for k in [42, 0, 20]:
            self.point(*self.place(*self.js("const m = middle([...state.listing.parts[arguments[0]].corners]); return m", k)))
            ActionChains(self.d, duration=0).click().perform()
            self.frame()
            self.assertEqual(self.text("#rows tr[aria-selected=true]").split()[0], str(k))
            head, row, box = self.js("""return ['#head', '#rows tr[aria-selected=true]', '.rows'].map((s) => document.querySelector(s).getBoundingClientRect())
                .map((r) => ({ top: r.top, bottom: r.bottom }))""")
            self.assertGreaterEqual(row["top"], head["bottom"] - 1)
            self.assertLessEqual(row["bottom"], box["bottom"] + 1)

    def test_the_table_by_keys(self):
        self.drop(bag__out=BAG)
        self.js("document.querySelector('#rows tr').focus()")
        self.key(Keys.ARROW_DOWN, Keys.ARROW_DOWN, Keys.ENTER)
        self.assertEqual(self.text(".line p"), BAG.splitlines()[3])
        self.key(Keys.END, " ")
        self.assertEqual(self.text(".line p"), BAG.splitlines()[43])
        self.assertEqual(self.js("return document.querySelectorAll('#rows [tabindex=\"0\"]').length"), 1)

    # ---- moving the view

    def test_the_wheel_zooms_about_the_pointer(self):
        self.drop(dart__out=DART)
        before = self.view()
        x, y = self.wheel(*self.place(4, 0), -400)
        self.assertGreater(self.view()["scale"], 1.5 * before["scale"])
        under = (before["x"] + (x - before["w"] / 2) / before["scale"], before["y"] - (y - before["h"] / 2) / before["scale"])
        self.near(self.place(*under), (x, y))
        self.near(self.place(4, 0), (x, y), 2)
        self.wheel(x, y, 400)
        self.assertAlmostEqual(self.view()["scale"], before["scale"], places=6)

    def test_keys_pan_zoom_and_fit(self):
        self.drop(dart__out=DART)
        fitted, drawn, at = self.view(), self.pixels(), self.place(0, 0)
        self.key(Keys.ARROW_RIGHT)
        self.near(self.place(0, 0), (at[0] - 60, at[1]))
        self.key(Keys.ARROW_UP)
        self.near(self.place(0, 0), (at[0] - 60, at[1] + 60))
        self.key("+")
        self.assertGreater(self.view()["scale"], fitted["scale"])
        self.key("-", "-")
        self.assertLess(self.view()["scale"], fitted["scale"])
        self.assertNotEqual(self.pixels(), drawn)
        self.key("f")
        self.assertEqual(self.view(), fitted)
        self.assertEqual(self.pixels(), drawn)
        self.key("+", "0")
        self.assertEqual(self.view(), fitted)

    def test_dragging_pans(self):
        self.drop(dart__out=DART)
        x, y = self.place(1, 1)
        self.point(x, y)
        ActionChains(self.d, duration=0).click_and_hold().move_by_offset(70, -40).release().perform()
        self.near(self.place(1, 1), (x + 70, y - 40), 1)
        self.assertFalse(self.d.find_element(By.ID, "line").is_displayed(), "a drag selects nothing")

    def test_pinching_zooms(self):
        self.drop(dart__out=DART)
        scale = self.view()["scale"]
        middle = self.js("return [worldX(state.view, 300), worldY(state.view, 300)]")
        self.js("""const box = canvas.getBoundingClientRect();
            const touch = (type, id, x) => canvas.dispatchEvent(new PointerEvent(type, { pointerId: id, pointerType: 'touch', clientX: box.left + x, clientY: box.top + 300, bubbles: true }));
            touch('pointerdown', 7, 250); touch('pointerdown', 8, 350);
            touch('pointermove', 7, 200); touch('pointermove', 8, 400);
            touch('pointerup', 7, 200); touch('pointerup', 8, 400);""")
        self.assertAlmostEqual(self.view()["scale"] / scale, 2, places=6)
        self.near(self.place(*middle), (300, 300))

    def test_the_scale_is_in_whole_units(self):
        self.drop(dart__out=DART)
        for _ in range(12):
            self.wheel(300, 300, 700)
            words = self.labels()[-1]
            self.assertRegex(words, r"^[125]0{0,2}(,000)* units?$")
            bar = [p for p in self.svg().iter(SVG + "path")][-1].get("d")
            x0, x1 = map(float, re.match(r"M([\d.]+) [\d.]+L([\d.]+) ", bar).groups())
            self.assertAlmostEqual((x1 - x0) / self.view()["scale"] / int(re.sub(r"\D", "", words)), 1, delta=0.02)

    # ---- far coordinates

    def test_unit_squares_at_both_ends_of_the_plane(self):
        squares = [[(x, y), (x + 1, y), (x + 1, y + 1), (x, y + 1)] for x, y in [(FAR - 1, FAR - 1), (FAR - 3, FAR - 1), (-FAR, -FAR)]]
        self.drop(far__out=listing(squares))
        white = (255, 255, 255)
        for x, y in [(FAR - 1, FAR - 1), (-FAR, -FAR)]:
            self.assertLess(min(self.pixel(*self.place(x, y))), 200, "each is seen as a speck, however far the other")
        for k in [2, 0]:
            self.click(f"#rows tr:nth-child({k + 1})")
            self.click("#zoom-to")
            self.js("state.part = -1; state.on.grid = state.on.numbers = state.on.shares = false")
            x, y = squares[k][0]
            for turn in range(60):
                self.js("zoomAt(431, 217, arguments[0])", 0.2 if turn % 2 == 0 else 5)
            self.assertAlmostEqual(self.view()["scale"], 512, delta=150)
            left, bottom = self.place(x, y)
            right, top = self.place(x + 1, y + 1)
            self.assertAlmostEqual(right - left, bottom - top, delta=0.01)
            for dx, dy in [(4, 4), (-4, 4), (4, -4)]:
                corner = (left if dx > 0 else right, bottom if dy > 0 else top)
                self.assertNotEqual(self.pixel(corner[0] + dx, corner[1] - dy), white)
                self.assertEqual(self.pixel(corner[0] - dx, corner[1] + dy), white)
        # two units to the left, on the same height, is the other square, and between them there is
        # nothing
        self.js("state.view.x -= 2; state.view.scale = 100")
        self.assertNotEqual(self.pixel(*self.place(FAR - 2.5, FAR - 0.5)), white)
        self.assertEqual(self.pixel(*self.place(FAR - 1.5, FAR - 0.5)), white)

    def test_a_long_slanted_edge_is_in_its_place_at_high_zoom(self):
        # the edge from (-FAR, -FAR) to (FAR, FAR-1) passes x = 1000003 at this height
        self.drop(long__out=listing([[(-FAR, -FAR), (FAR, FAR - 1), (-FAR, FAR)]]))
        y = -FAR + (1000003 + FAR) * (2 * FAR - 1) / (2 * FAR)
        self.js("Object.assign(state.view, { x: 1000003, y: Math.floor(arguments[0]), scale: 400 }); state.on.grid = state.on.numbers = state.on.shares = false", y)
        x0, y0 = self.place(1000003, y)
        self.assertEqual(self.pixel(x0, y0 + 4), (255, 255, 255), "below the edge there is nothing")
        self.assertNotEqual(self.pixel(x0, y0 - 4), (255, 255, 255), "above it there is the part")
        shape = [p for p in self.svg().iter(SVG + "polygon")][1]
        for number in re.split("[ ,]", shape.get("points")):
            self.assertLess(abs(float(number)), 4000, "no far corner is handed to the browser")

    # ---- pairs

    def test_a_pair_by_i_and_j_with_both_parts(self):
        self.drop(job=JOB)
        self.assertIn("3 left parts, 2 right parts", self.text("#summary"))
        self.assertIn("Contours come from the text that pairs prints", self.text("#summary"))
        self.drop(contours=CONTOURS)
        self.assertEqual([r[0] for r in self.rows()], ["0 0", "0 1"])
        self.assertTrue({"left 0", "right 0", "left part 0", "right part 0"} <= set(self.labels()), self.labels())
        field = self.d.find_element(By.ID, "i")
        field.send_keys(Keys.ARROW_UP, Keys.TAB)
        self.click("#rows tr:nth-child(2)")
        line = next(text for text in CONTOURS.splitlines() if text.startswith("1 1 "))
        self.assertEqual(self.text(".line p"), line)
        corners = [tuple(map(int, c)) for c in re.findall(r"\((-?\d+),(-?\d+)\)", line)]
        outline = [p for p in self.svg().iter(SVG + "polygon") if p.get("stroke-width") == "3" and p.get("fill") == "none"]
        self.assertEqual(len(outline), 1)
        drawn = [tuple(map(float, pair.split(","))) for pair in outline[0].get("points").split()]
        self.assertEqual(len(drawn), len(corners))
        for spot, corner in zip(drawn, corners):
            self.near(spot, self.place(*corner))
        self.assertTrue({"left part 1", "right part 1"} <= set(self.labels()))
        self.point(*self.place(*corners[3]))
        self.assertTrue(self.tip()[0].startswith("(%d,%d)" % corners[3]), self.tip())

    def test_pairs_both_at_once_and_a_click_on_a_part(self):
        self.drop(contours=CONTOURS, job=JOB)
        self.assertEqual(self.text("#sources").count("×"), 2)
        corners = self.js("return [...state.job.left.parts[1].corners]")
        middle = (sum(corners[::2]) / (len(corners) // 2), sum(corners[1::2]) / (len(corners) // 2))
        self.point(*self.place(*middle))
        self.assertTrue(self.tip()[0].startswith("left part 1"), self.tip())
        ActionChains(self.d, duration=0).click().perform()
        self.frame()
        self.assertEqual(self.js("return [state.i, state.j]"), [1, 0])
        self.drop(k=(ROOT / "crates/pairs/stdout").read_text())
        self.assertIn("The pair job job is not of the same shapes, and was put away.", self.message())
        self.assertIn("Left and right parts come from the pair job", self.text("#summary"))

    def test_the_table_of_all_pairs(self):
        given = difference(STRAP, BUCKLE, [minkowski(a, b, -1) for a in STRAP for b in BUCKLE])
        self.drop(**given)
        self.click("#tabs [data-mode=pairs]")
        ones = [[f"0 {j}", "4", str(len(BUCKLE[j])), str(len(minkowski(STRAP[0], BUCKLE[j], -1)))] for j in range(3)]
        self.assertEqual(self.rows(), ones)
        self.click("label:has(#every)")
        pairs = [(i, j) for i in range(2) for j in range(3)]
        every = [[f"{i} {j}", str(len(STRAP[i])), str(len(BUCKLE[j])), str(len(minkowski(STRAP[i], BUCKLE[j], -1)))] for i, j in pairs]
        self.assertEqual(self.rows(), every)
        # a row selects its pair, and numbers a row; the rows stay
        lines = given["contours"].splitlines()[1:]
        for k, (i, j) in enumerate(pairs):
            self.click(f"#rows tr:nth-child({k + 1})")
            self.assertEqual((self.js("return [state.i, state.j]"), self.text(".line p"), self.rows()), ([i, j], lines[k], every))
        self.js("for (const [id, value] of [['i', 0], ['j', 1]]) { byId(id).value = value; byId(id).dispatchEvent(new Event('change')); }")
        self.assertEqual(self.js("return [...document.querySelectorAll('#rows [aria-selected=true]')].map((r) => Number(r.dataset.row))"), [1])
        self.click("#rows tr:nth-child(6)")
        self.key(Keys.ARROW_UP, Keys.ENTER)
        self.assertEqual(self.js("return [state.i, state.j]"), [1, 1])
        # and back to those of one left part
        self.click("label:has(#every)")
        self.assertEqual(self.rows(), every[3:])
        self.assertEqual(self.js("return [...document.querySelectorAll('#rows [aria-selected=true]')].map((r) => Number(r.dataset.row))"), [1])
        # with one left part there is nothing more to show
        self.drop(**difference(STRAP[:1], BUCKLE, [minkowski(STRAP[0], b, -1) for b in BUCKLE]))
        self.click("#tabs [data-mode=pairs]")
        self.assertFalse(self.d.find_element(By.ID, "every").is_displayed())

    def test_the_table_of_very_many_pairs_says_what_it_leaves_out(self):
        lines = ["contours 66000 corners 0 bounds 0 0 0 0"] + [f"{i} {j} 0" for i in range(330) for j in range(200)]
        self.drop(many="\n".join(lines) + "\n")
        self.click("label:has(#every)")
        self.assertEqual(len(self.js("return document.getElementById('rows').children")), 65536)
        self.assertIn("The table has the first 65,536 of 66,000 pairs; any other is chosen by i and j.", self.text("#summary"))

    def test_shares_that_do_not_add_up_say_what_to_do(self):
        self.drop(dart=DART)
        self.assertIn("Shares ‱ are ten-thousandths of the total, rounded down.", self.text("#summary"))
        thirds = [[(3 * k, 0), (3 * k + 2, 0), (3 * k, 2)] for k in range(3)]
        self.drop(thirds=listing(thirds))
        self.assertEqual([row[3] for row in self.rows()], ["3333"] * 3)
        self.assertIn("rounded down: these add up to 9,999, not to 10,000. What is missing is not lost: the doubled areas are exact, so divide those where shares must add up.", self.text("#summary"))
        # more than rounding down, or so much less, is no listing of areas
        for share in ["3334", "3332"]:
            changed = listing(thirds).replace("3333", share)
            self.drop(changed=changed)
            self.assertIn(f"These add up to {3 * int(share):,}, which rounding does not explain: the text was changed.", self.text("#summary"))
        self.drop(table=table(thirds))
        self.assertNotIn("add up", self.text("#summary"))

    def test_parts_and_pairs_beside_one_another(self):
        self.drop(contours=CONTOURS, job=JOB)
        self.drop(dart__out=DART)
        self.assertEqual(len(self.rows()), 2)
        self.click("#tabs [data-mode=pairs]")
        self.assertEqual(self.rows()[0][0], "0 0")
        self.click("#tabs [data-mode=parts]")
        self.assertEqual(self.rows()[0][2], "16")

    # ---- places

    def vamp(self):
        self.drop(vamp__job=VAMP_JOB, vamp__contours=VAMP_CONTOURS)

    def words(self, places):
        """What the page says of each place."""
        return self.js("return arguments[0].map(([x, y]) => verdictOn(x, y).word)", places)

    def settled(self, x, y):
        """Puts the right piece at a place; answers what is then told in words."""
        self.js("placeAt(...arguments)", x, y)
        self.frame()
        return self.text("#verdict")

    def test_the_right_piece_is_apart_touching_or_overlapping(self):
        self.vamp()
        self.assertEqual(self.text("#verdict"), "overlapping at (0,0)")
        seen = set()
        # in the throat; with an edge on the throat's; with a corner on the vamp's outer edge; on
        # the vamp
        for x, y, word in [(0, -90, "apart"), (0, -15, "touching"), (150, -20, "touching"), (-70, 70, "overlapping")]:
            self.assertEqual(self.settled(x, y), f"{word} at ({x},{y})")
            self.assertIn(f"right piece {word} at ({x},{y})", self.labels())
            self.assertIn(word, self.labels())
            colour = self.js("return coloursNow()[arguments[0]]", word)
            pieces = [p for p in self.svg().iter(SVG + "polygon") if p.get("stroke") == colour and p.find(SVG + "title") is not None]
            self.assertEqual([p.find(SVG + "title").text for p in pieces], [f"right part {j} {word} at ({x},{y})" for j in range(2)])
            spot = [float(n) for n in pieces[0].get("points").split()[0].split(",")]
            self.near(spot, self.place(x - 25, y - 30))
            seen.add(self.pixel(*self.place(x + 27, y + 8)))
        self.assertEqual(len(seen), 4)
        self.assertEqual(self.js("return [APART, TOUCHING, OVERLAPPING].map((word) => (ROLES[word].hatches || []).length)"), [0, 1, 2], "told without colours too")

    def test_places_about_each_corner_and_edge_of_the_contours(self):
        self.vamp()
        contours = [[tuple(map(int, c)) for c in re.findall(r"\((-?\d+),(-?\d+)\)", line)] for line in VAMP_CONTOURS.splitlines()[1:]]
        corners = {c for contour in contours for c in contour}
        middles = {((a[0] + b[0]) // 2, (a[1] + b[1]) // 2) for contour in contours for a, b in zip(contour, contour[1:] + contour[:1])}
        places = [(x + dx, y + dy) for x, y in sorted(corners | middles) for dx in (-1, 0, 1) for dy in (-1, 0, 1)]
        wanted = [word_of(contours, x, y) for x, y in places]
        self.assertEqual(self.words(places), wanted)
        self.assertEqual(set(wanted), {"apart", "touching", "overlapping"})
        # the corner that is farthest right is touched, and one unit on there is nothing
        x, y = max(corners)
        self.assertEqual(self.settled(x, y), f"touching at ({x},{y})")
        self.assertEqual(self.settled(x + 1, y), f"apart at ({x + 1},{y})")

    def test_places_by_any_contours(self):
        chance = random.Random(2)

        def somewhere(reach):
            return chance.randint(-reach, reach), chance.randint(-reach, reach)
        for reach in [3, FAR]:
            contours = [[somewhere(reach) for _ in range(chance.randint(0, 4))] for _ in range(40)]
            # corners that stand twice, segments there and back, points
            contours += [c[:1] + c for c in contours] + [c[:2] for c in contours] + [c[:1] for c in contours]
            places = list(itertools.product(range(-4, 5), repeat=2)) if reach == 3 else [c for contour in contours for c in contour] + [somewhere(reach) for _ in range(60)]
            for contour in contours:
                self.js("state.contours = { count: 1, corners: Int32Array.from(arguments[0].flat()), starts: Uint32Array.from([0, arguments[0].length]) }", contour)
                self.assertEqual(self.words(places), [word_of([contour], *z) for z in places], contour)

    def test_places_near_2_to_the_30_where_doubles_are_wrong(self):
        chance = random.Random(3)
        wrong = 0
        for _ in range(40):
            # from (-FAR, -FAR) an edge (p, q), and the two whole-number points whose doubled areas
            # with it are -1 and 1
            p, q = (chance.randint(FAR, 2 * FAR) | 1 for _ in range(2))
            try:
                u = pow(q, -1, p)
            except ValueError:
                continue
            ends = [(u, (q * u - 1) // p), (p - u, q - (q * u - 1) // p)]
            contour = [(-FAR, -FAR), (p - FAR, q - FAR), (-FAR, FAR)]
            places = [(x - FAR, y - FAR) for x, y in ends]
            self.drop(**difference([[(-FAR, -FAR), (FAR, -FAR), (FAR, FAR), (-FAR, FAR)]], [[(0, 0)]], [contour]))
            self.assertEqual(self.words(places), ["apart", "overlapping"], (p, q))
            wrong += self.js("const [p, q, ends] = arguments; return ends.filter(([x, y]) => p * y - q * x === 0).length", p, q, ends)
        self.assertGreater(wrong, 20, "doubles tell no side of these")
        # half-way along an edge there is no side
        self.drop(**difference([[(-FAR, -FAR), (FAR, -FAR), (FAR, FAR), (-FAR, FAR)]], [[(0, 0)]], [[(-FAR, -FAR), (FAR - 2, FAR - 4), (-FAR, FAR)]]))
        self.assertEqual(self.settled(-1, -2), "touching at (-1,-2)")
        self.assertEqual(self.settled(-1, -1), "overlapping at (-1,-1)")
        self.assertEqual(self.settled(-1, -3), "apart at (-1,-3)")

    def test_an_empty_contour_covers_nothing(self):
        square = [(0, 0), (4, 0), (4, 4), (0, 4)]
        self.drop(**difference([square], [[]], [[]]))
        self.assertEqual(self.text("#verdict"), "apart at (0,0)")
        self.assertEqual(set(self.words([[2, 2], [0, 0], [4, 4]])), {"apart"})
        # beside one that is not empty
        self.drop(**difference([square], [[], [(0, 0)]], [[], square]))
        self.assertEqual(self.words([[2, 2], [0, 0], [4, 2], [5, 4]]), ["overlapping", "touching", "touching", "apart"])

    def test_a_sum_has_no_moving_piece(self):
        def none():
            self.point(*self.place(100, 100))
            self.assertEqual(self.js("return state.mode"), "pairs")
            self.assertFalse(self.d.find_element(By.ID, "verdict").is_displayed())
            self.assertFalse(self.d.find_element(By.CSS_SELECTOR, "#tabs [data-mode=places]").is_displayed())
            at = self.place(0, 0)
            self.key(Keys.ARROW_RIGHT)
            self.near(self.place(0, 0), (at[0] - 60, at[1]))
        self.drop(job=JOB, contours=CONTOURS)
        none()
        # nor has a difference without its contours, nor contours alone
        self.setUp()
        self.drop(job=VAMP_JOB)
        none()
        self.setUp()
        self.drop(contours=VAMP_CONTOURS)
        none()
        self.drop(job=VAMP_JOB)
        self.assertEqual(self.js("return state.mode"), "places")
        self.drop(job=JOB)
        none()

    def test_the_right_piece_follows_the_pointer(self):
        self.vamp()
        self.js("Object.assign(state.view, { x: 30, y: 0, scale: 2.5 }); redraw()")
        before = self.view()
        for x, y in [(0, -90), (-70, 70), (151, -20), (150, -20)]:
            self.point(*self.place(x, y))
            self.assertEqual(self.text("#verdict"), f"{self.words([[x, y]])[0]} at ({x},{y})")
        self.assertEqual(self.tip(), ["", ""])
        moved = self.pixels()
        self.js("redraw()")
        self.assertEqual(self.pixels(), moved, "what was kept beneath the piece is what is drawn anew")
        # a pressed mouse drags the view, and the place stays beneath it
        ActionChains(self.d, duration=0).click_and_hold().move_by_offset(-50, 30).release().perform()
        self.frame()
        self.assertEqual(self.text("#verdict"), "touching at (150,-20)")
        self.near(self.place(before["x"], before["y"]), (before["w"] / 2 - 50, before["h"] / 2 + 30), 1)
        # between whole numbers it is the nearer one
        self.js("Object.assign(state.view, { x: 0, y: 0, scale: 200 }); redraw()")
        self.point(*self.place(0.4, -0.6))
        self.assertRegex(self.text("#verdict"), r" at \(0,-1\)$")

    def test_the_right_piece_is_carried_by_a_finger_and_two_pinch(self):
        self.vamp()
        view = self.view()
        touch = """const box = canvas.getBoundingClientRect();
            const touch = (type, id, [x, y]) => canvas.dispatchEvent(new PointerEvent(type, { pointerId: id, pointerType: 'touch', clientX: box.left + x, clientY: box.top + y, bubbles: true }));"""
        self.js(touch + "touch('pointerdown', 7, arguments[0]); touch('pointermove', 7, arguments[1]); touch('pointerup', 7, arguments[1]);", self.place(0, -90), self.place(-70, 70))
        self.assertEqual(self.text("#verdict"), "overlapping at (-70,70)")
        self.assertEqual(self.view(), view)
        self.js(touch + """touch('pointerdown', 7, [250, 300]); touch('pointerdown', 8, [350, 300]);
            touch('pointermove', 7, [200, 300]); touch('pointermove', 8, [400, 300]); touch('pointerup', 7, [200, 300]); touch('pointerup', 8, [400, 300]);""")
        self.assertAlmostEqual(self.view()["scale"] / view["scale"], 2, places=6)

    def test_the_right_piece_by_keys(self):
        self.vamp()
        view = self.view()
        self.settled(150, -20)
        for keys, place in [([Keys.ARROW_RIGHT], "apart at (151,-20)"), ([Keys.ARROW_LEFT] * 2, "overlapping at (149,-20)"), ([Keys.ARROW_UP], "overlapping at (149,-19)"), ([Keys.ARROW_DOWN] * 3, "overlapping at (149,-22)")]:
            self.key(*keys)
            self.assertEqual(self.text("#verdict"), place)
        for key, place in [(Keys.ARROW_RIGHT, "(159,-22)"), (Keys.ARROW_UP, "(159,-12)"), (Keys.ARROW_LEFT, "(149,-12)"), (Keys.ARROW_DOWN, "(149,-22)")]:
            ActionChains(self.d, duration=0).key_down(Keys.SHIFT).send_keys(key).key_up(Keys.SHIFT).perform()
            self.frame()
            self.assertTrue(self.text("#verdict").endswith(" at " + place), self.text("#verdict"))
        self.assertEqual(self.view(), view, "the view stays")
        self.js("zoomAt(10, 10, 8)")
        self.key(Keys.ARROW_UP)
        x, y = self.place(149, -21)
        self.assertTrue(0 < x < view["w"] and 0 < y < view["h"], "a piece that is moved by keys is brought into view")
        self.key("f")
        self.assertEqual(self.view(), view)

    def test_places_and_pairs_beside_one_another(self):
        self.d.find_element(By.ID, "files").send_keys(str(ROOT / "examples/vamp.job"))
        self.settle()
        self.paste(VAMP_CONTOURS)
        self.assertEqual(self.rows(), [])
        self.click("#tabs [data-mode=pairs]")
        self.assertEqual([r[0] for r in self.rows()], ["0 0", "0 1"])
        self.assertEqual(self.js("return document.getElementById('verdict').textContent"), "")
        self.assertIn("difference, 10 corners", self.labels())
        at = self.place(0, 0)
        self.key(Keys.ARROW_UP)
        self.near(self.place(0, 0), (at[0], at[1] + 60))
        self.drop(dart__out=DART)
        self.assertEqual(self.text("#tabs"), "Parts\nPairs\nPlaces")
        self.click("#tabs [data-mode=places]")
        self.assertTrue(self.text("#verdict").endswith(" at (0,0)"))
        # the listing put away, places stay; the contours put away, pairs are left
        self.click(".chip button")
        self.assertEqual((self.js("return state.mode"), self.text("#tabs")), ("places", "Pairs\nPlaces"))
        self.js("document.querySelectorAll('.chip button')[1].click()")
        self.frame()
        self.assertEqual(self.js("return state.mode"), "pairs")
        self.assertFalse(self.d.find_element(By.ID, "tabs").is_displayed())
        self.assertFalse(self.d.find_element(By.ID, "verdict").is_displayed())

    # ---- two meshes

    def pairs_seen(self):
        """The picture of each pair."""
        self.js("state.mode = 'pairs'; fit(); refresh()")
        return [self.js("selectPair(...arguments); return drawSvg()", i, j) for i in range(len(STRAP)) for j in range(len(BUCKLE))]

    def test_two_meshes_and_contours_are_drawn_as_a_pair_job_is(self):
        contours = contours_of(STRAP, BUCKLE, -1)
        job = difference(STRAP, BUCKLE, [minkowski(a, b, -1) for a in STRAP for b in BUCKLE])
        self.assertEqual(job["contours"], contours)
        self.drop(**job)
        places = self.js("placeAt(30, 2); return drawSvg()")
        pairs = self.pairs_seen()
        left, right = listing(STRAP), listing(BUCKLE)
        for ways in [[{"left__out": left, "right__out": right, "c": contours}], [{"c": contours, "left__tab": table(STRAP), "right__tab": table(BUCKLE)}],
                     [{"c": contours}, {"left__tab": table(STRAP)}, {"right__out": right}], [{"left__out": left}, {"c": contours}, {"right__out": right}], [{"left__out": left, "right__tab": table(BUCKLE)}, {"c": contours}]]:
            with self.subTest(ways=[list(way) for way in ways]):
                self.setUp()
                for way in ways:
                    self.drop(**way)
                self.assertEqual(self.message(), "")
                self.assertEqual(self.text("#verdict"), "overlapping at (0,0)")
                self.assertEqual(self.text("#tabs"), "Pairs\nPlaces")
                self.assertIn("Two meshes: 2 left parts, 3 right parts. The contours are of their difference.", self.text("#summary"))
                self.assertEqual(self.js("placeAt(30, 2); return drawSvg()"), places)
                self.assertEqual(self.pairs_seen(), pairs)
                self.assertEqual(self.rows(), [[f"1 {j}", "3", str(len(b)), str(len(minkowski(STRAP[1], b, -1)))] for j, b in enumerate(BUCKLE)])

    def test_the_tables_of_a_pair_job_beside_its_contours_make_its_picture(self):
        # the job is its operation, then twice four bounds and a table, each of the length that its
        # counts give
        parts, corners = struct.unpack_from("<2I", VAMP_JOB, 20)
        end = 20 + 8 + 4 * (parts + 1) + 8 * corners
        self.drop(vamp__tab=VAMP_JOB[20:end], tab__tab=VAMP_JOB[end + 16:], c=VAMP_CONTOURS)
        self.js("showPlaces([[0, -90], [150, -20], [-70, 70]])")
        self.assertEqual((ROOT / "docs/pictures/placed.svg").read_text(), self.js("return drawSvg(viewForPrint(), LIGHT)"))

    def test_a_word_says_which_mesh_is_left(self):
        self.drop(strap__out=listing(STRAP), buckle__tab=table(BUCKLE), c=contours_of(STRAP, BUCKLE, -1))
        self.assertEqual(self.text("#sides"), "left: strap.out\nright: buckle.tab\nExchange")
        self.assertEqual(self.text("#sources"), "left listing: strap.out\n×\nright stored table: buckle.tab\n×\ncontours: c\n×")
        self.drop(dart__out=DART)
        self.assertEqual(self.text("#tabs"), "Parts\nPairs\nPlaces")
        self.assertFalse(self.d.find_element(By.ID, "sides").is_displayed())
        # what cannot be the left one by its count stays by itself
        self.setUp()
        self.drop(bag__out=BAG)
        self.drop(c=contours_of(STRAP, BUCKLE, -1))
        self.assertEqual((self.text("#sources"), self.text("#tabs")), ("listing: bag.out\n×\ncontours: c\n×", "Parts\nPairs"))

    def test_places_of_two_meshes(self):
        self.drop(strap__out=listing(STRAP), buckle__out=listing(BUCKLE), c=contours_of(STRAP, BUCKLE, -1))
        contours = [minkowski(a, b, -1) for a in STRAP for b in BUCKLE]
        places = list(itertools.product(range(-12, 75, 3), range(-12, 15)))
        wanted = [word_of(contours, x, y) for x, y in places]
        self.assertEqual(self.words(places), wanted)
        self.assertEqual(set(wanted), {"apart", "touching", "overlapping"})
        self.js("Object.assign(state.view, { x: 30, y: 0, scale: 6 }); redraw()")
        self.point(*self.place(38, -4))
        self.assertEqual(self.text("#verdict"), f"{word_of(contours, 38, -4)} at (38,-4)")
        self.key(Keys.ARROW_DOWN, Keys.ARROW_DOWN, Keys.ARROW_DOWN)
        self.assertEqual(self.text("#verdict"), f"{word_of(contours, 38, -7)} at (38,-7)")

    def test_contours_that_do_not_fit_are_not_drawn_and_a_sentence_says_why(self):
        contours = contours_of(STRAP, BUCKLE, -1)
        self.drop(strap=listing(STRAP), other=listing(BUCKLE[:2]), c=contours)
        self.assertIn("The contours do not fit: there are 2 left parts (strap) and 2 right parts (other), and 6 contours of 2 left parts times 3 right parts.", self.text("#summary"))
        self.assertNotIn("other way round", self.text("#summary"))
        self.assertEqual(self.rows(), [["0 0", "4", "4", "–"], ["0 1", "4", "4", "–"]])
        self.assertEqual(self.js("return [state.mode, contourAt(0, 0), canPlace()]"), ["pairs", None, False])
        self.assertTrue({"left 0", "right 0"} <= set(self.labels()), "both meshes are")
        moved = [[(x + 1, y) for x, y in p] for p in BUCKLE]
        self.drop(strap=listing(STRAP), moved=table(moved), c=contours)
        self.assertIn("The contours do not fit: they reach, within bounds -11 68 -9 9, neither as the sum nor as the difference of strap and moved does.", self.text("#summary"))
        # the parts in another order: of other corner counts, and of the same
        for first, second, third in [(2, 0, 1), (1, 0, 2)]:
            self.drop(strap=listing(STRAP), turned=listing([BUCKLE[first], BUCKLE[second], BUCKLE[third]]), c=contours)
            self.assertIn("the contour of pair 0 0 is not the difference of left part 0 and right part 0.", self.text("#summary"))
        # one side is enough to see that counts differ; put away, the others are as they were
        self.setUp()
        self.drop(c=contours)
        self.drop(buckle=listing(BUCKLE))
        self.assertIn("there are 3 left parts (buckle), and 6 contours of 2 left parts times 3 right parts. The other way round they fit", self.text("#summary"))
        self.js("document.querySelector('.chip button').click()")
        self.frame()
        self.assertEqual(self.text("#sources"), "contours: c\n×")
        self.assertIn("Left and right parts come from the pair job", self.text("#summary"))

    def test_left_and_right_exchanged(self):
        for sign, mode in [(-1, "places"), (1, "pairs")]:
            # two parts each: counts do not tell the order
            self.setUp()
            self.drop(c=contours_of(STRAP, BUCKLE[:2], sign), strap=listing(STRAP), buckle=listing(BUCKLE[:2]))
            good = self.js("return drawSvg()")
            self.assertEqual(self.js("return [state.mode, state.match.why]"), [mode, None])
            self.drop(c=contours_of(STRAP, BUCKLE[:2], sign), buckle=listing(BUCKLE[:2]), strap=listing(STRAP))
            self.assertIn("The contours do not fit: ", self.text("#summary"))
            self.assertIn("The other way round they fit: exchange left and right.", self.text("#summary"))
            self.click("#exchange")
            self.assertEqual(self.text("#sides"), "left: strap\nright: buckle\nExchange")
            self.assertEqual(self.js("return drawSvg()"), good)
            self.assertNotIn("do not fit", self.text("#summary"))
            self.click("#exchange")
            self.assertIn("The other way round they fit", self.text("#summary"))
        # a part less itself fits both ways, and who looks at pairs goes on with them
        self.setUp()
        self.drop(a=listing(STRAP), b=listing(STRAP), c=contours_of(STRAP, STRAP, -1))
        self.click("#tabs [data-mode=pairs]")
        self.click("#exchange")
        self.assertEqual((self.js("return [state.mode, state.match.operation]"), self.text("#sides")), (["pairs", "difference"], "left: b\nright: a\nExchange"))
        # parts without contours are exchanged too
        self.drop(buckle=listing(BUCKLE[:2]), strap=listing(STRAP))
        self.js("putAway(sources().find(({ slot }) => slot === 'contours')); selectPair(0, 1)")
        self.click("#exchange")
        self.assertEqual(self.js("return [state.i, state.j, lefts()[1].corners.length, rights()[0].corners.length]"), [1, 0, 6, 8])

    def test_a_right_mesh_about_the_origin_tells_sum_from_difference(self):
        # bounds are the same added and subtracted; a triangle tells, a rectangle does not need to
        triangle, rectangle = [[(-2, -1), (2, -1), (0, 1)]], [[(-2, -1), (2, -1), (2, 1), (-2, 1)]]
        for right, sign, told in [(triangle, 1, "sum"), (triangle, -1, "difference"), (rectangle, 1, "either"), (rectangle, -1, "either")]:
            self.setUp()
            self.drop(left=listing(STRAP), right=table(right), c=contours_of(STRAP, right, sign))
            self.assertEqual(self.js("return [state.match.operation, canPlace()]"), [told, told != "sum"])
        wanted = [word_of([minkowski(a, rectangle[0], -1) for a in STRAP], x, y) for x, y in [(0, 12), (0, 11), (0, 10)]]
        self.assertEqual(self.words([[0, 12], [0, 11], [0, 10]]), wanted)
        # of triangles alone by how far they reach; a clasp, open to the right, reaches as far as a
        # square, and does not tell it
        clasp = [[(-4, -4), (4, -4), (4, -3), (-4, -3)], [(-4, -3), (-3, -3), (-3, 3), (-4, 3)], [(-4, 3), (4, 3), (4, 4), (-4, 4)]]
        for right, sign, told in [(triangle, 1, "sum"), (triangle, -1, "difference"), (clasp, 1, None), (clasp, -1, None)]:
            self.setUp()
            self.drop(left=triangles_of(STRAP), right=triangles_of(right), c=contours_of(STRAP, right, sign))
            self.assertEqual(self.js("return [state.match.why, state.match.operation, canPlace()]"), [None, told, told == "difference"])
        self.assertIn("The contours fit a sum and a difference alike; parts will tell which it is.", self.text("#summary"))
        self.drop(left__out=listing(STRAP))
        self.drop(right__tab=table(clasp))
        self.assertEqual(self.text("#verdict"), "overlapping at (0,0)")

    def test_the_wrong_order_does_not_pass_where_counts_and_bounds_do(self):
        a, b = [[(0, 0), (4, 0), (0, 4)]], [[(0, 0), (4, 0), (4, 4)]]
        contours = contours_of(a, b, -1)
        for form in [listing, table, triangles_of]:
            self.setUp()
            self.drop(b=form(b), a=form(a), c=contours)
            self.assertIn("The other way round they fit: exchange left and right.", self.text("#summary"))
            self.click("#exchange")
            self.assertEqual(self.words([[-4, 0], [-3, 1], [3, -3]]), [word_of([minkowski(a[0], b[0], -1)], x, y) for x, y in [(-4, 0), (-3, 1), (3, -3)]])

    def test_contours_of_any_convex_parts_are_known_again(self):
        # clockwise, with corners in line and twice, segments and points: what document 01's walks
        # make of them
        square = [(0, 0), (2, 0), (4, 0), (4, 4), (4, 4), (0, 4)]
        shapes = [square, square[::-1], [(1, 1), (5, 3)], [(3, 2), (5, 3), (1, 1), (1, 1)], [(7, 7)], [(7, 7), (7, 7)], [(0, 0), (9, 1), (3, 8)], [(-FAR // 2, -FAR // 2), (FAR // 2, -FAR // 2 + 1), (FAR // 2 - 1, FAR // 2)]]
        for a, b, sign in itertools.product(shapes, shapes, (1, -1)):
            if len(set(a)) == len(set(b)) == 1:
                continue
            made = self.js("const [a, b, sign] = arguments; return contourOf(...[[a, 1], [b, sign]].map(([p, s]) => walkOf({ corners: p.flat() }, s)))", a, b, sign)
            self.assertEqual(made, [n for c in minkowski(a, b, sign) for n in c], (a, b, sign))

    def test_two_meshes_alone_are_shown_in_two_colours(self):
        for files in [{"a": listing(STRAP), "b": listing(BUCKLE)}, {"a": table(STRAP), "b": listing(BUCKLE)}, {"a": triangles_of(STRAP), "b": triangles_of(BUCKLE)}]:
            self.setUp()
            self.drop(**files)
            self.assertIn("Contours come from what ./run contours difference LEFT RIGHT, or sum, prints: drop it too.", self.text("#summary").replace("\n", " "))
            self.assertEqual(self.text("#sides"), "left: a\nright: b\nExchange")
            seen = {p.get("stroke") for p in self.svg().iter(SVG + "polygon") if p.find(SVG + "title") is not None}
            self.assertEqual(seen, set(self.js("return [coloursNow().left, coloursNow().right]")))
            self.assertFalse(self.d.find_element(By.CSS_SELECTOR, "#tabs [data-mode=places]").is_displayed())
        self.point(*self.place(60, 5))
        self.assertEqual(self.tip(), ["left triangle 2", "left triangle 2: (40,0) (70,5) (40,10), neighbours none none none"])
        ActionChains(self.d, duration=0).click().perform()
        self.assertEqual((self.rows(), self.js("return [state.i, state.j]")), ([], [0, 0]))
        # the meshes' contours, and then parts
        self.drop(c=contours_of(STRAP, BUCKLE, -1))
        self.assertEqual(self.text("#verdict"), "overlapping at (0,0)")
        titles = [e.text for e in self.svg().iter(SVG + "title")]
        self.assertEqual([w for w in titles if w.startswith("right")], [f"right triangle {k} overlapping at (0,0)" for k in range(5)])
        self.drop(a=listing(STRAP))
        self.drop(b=table(BUCKLE))
        self.assertEqual(self.text("#sources").count("×"), 5)
        titles = [e.text for e in self.svg().iter(SVG + "title")]
        self.assertEqual([w for w in titles if w.startswith("right")], [f"right part {k} overlapping at (0,0)" for k in range(3)])
        outlines = [p for p in self.svg().iter(SVG + "polygon") if p.get("stroke-width") == "0.8"]
        self.assertEqual(len(outlines), 3 + 5, "the triangles are beneath the parts")
        self.click("label:has(#triangles)")
        self.assertEqual([p for p in self.svg().iter(SVG + "polygon") if p.get("stroke-width") == "0.8"], [])
        self.click("#tabs [data-mode=pairs]")
        self.assertEqual(len(self.rows()), 3)

    def test_a_mesh_and_a_listing_are_one_side_where_they_reach_equally_far(self):
        contours = contours_of(STRAP, BUCKLE, -1)
        a, b = {"a__mesh": triangles_of(STRAP), "a__out": listing(STRAP)}, {"b__mesh": triangles_of(BUCKLE), "b__tab": table(BUCKLE)}
        for order in [["a__mesh", "b__tab", "a__out", "b__mesh"], ["a__out", "b__mesh", "b__tab", "a__mesh"], ["a__out", "a__mesh", "b__mesh", "b__tab"]]:
            given = {name: {**a, **b}[name] for name in order}
            for ways in [[{**given, "c": contours}], [{"c": contours}, *({name: data} for name, data in given.items())]]:
                self.setUp()
                for way in ways:
                    self.drop(**way)
                self.assertEqual(self.text("#sources").split("\n×")[:4], ["left mesh: a.mesh", "\nleft listing: a.out", "\nright mesh: b.mesh", "\nright stored table: b.tab"])
                self.assertEqual(self.text("#verdict"), "overlapping at (0,0)")
        self.setUp()
        self.drop(a__out=listing(STRAP), b__tab=table(BUCKLE), dart__mesh=DART_MESH)
        self.assertIn("dart.mesh: it is of neither a.out nor b.tab, and one picture shows two meshes.", self.message())
        self.assertEqual(self.text("#summary"), "Nothing is shown yet.")

    def test_a_side_put_away_leaves_the_other_by_itself(self):
        self.drop(a__out=listing(STRAP), b__tab=table(BUCKLE))
        self.click(".chip button")
        self.assertEqual(self.text("#sources"), "stored table: b.tab\n×")
        self.assertEqual([row[:2] for row in self.rows()], [["0", "4"], ["1", "4"], ["2", "3"]])
        # beside contours it stays the side that it is
        self.drop(a__out=listing(STRAP), b__tab=table(BUCKLE), c=contours_of(STRAP, BUCKLE, -1))
        self.js("putAway(sources().find(({ words }) => words === 'left listing'))")
        self.frame()
        self.assertEqual(self.text("#sides"), "left: missing\nright: b.tab\nExchange")
        self.assertIn("The left mesh is missing", self.text("#summary"))
        self.drop(a__tab=table(STRAP))
        self.assertEqual(self.text("#verdict"), "overlapping at (0,0)")

    def test_two_meshes_and_a_pair_job_replace_one_another(self):
        self.drop(job=JOB, contours=CONTOURS)
        self.drop(a=listing(STRAP), b=listing(BUCKLE))
        self.assertEqual(self.message(), "The pair job job was put away.")
        self.assertIn("The contours do not fit", self.text("#summary"))
        self.drop(job=JOB)
        self.assertEqual(self.message(), "The two meshes were put away, for the pair job has parts of its own.")
        self.assertEqual(self.text("#sources"), "pair job: job\n×\ncontours: contours\n×")

    def test_a_refusal_of_two_meshes(self):
        self.drop(a=listing(STRAP), b=listing(BUCKLE), c="refused 10\n")
        self.assertIn("The program refused these two meshes: fault 10", self.text("#summary"))
        self.drop(d="refused 3\n")
        self.assertIn("The program refused these two meshes: fault 3", self.text("#summary"))
        self.drop(a=listing(BUCKLE), b=listing(STRAP))
        self.assertIn("Contours come from what ./run contours", self.text("#summary"))

    def test_a_table_alone_is_drawn_as_parts_with_areas_worked_out(self):
        self.drop(strap__tab=table(STRAP))
        self.assertEqual(self.rows(), [["0", "4", "800"], ["1", "3", "300"]])
        self.assertEqual(self.text("#head"), "part corners doubled area")
        self.assertIn("2 parts, 7 corners, total doubled area 1100", self.text("#summary"))
        self.assertIn("the doubled areas are worked out by this page", self.text("#summary"))
        self.assertEqual([e for e in self.labels() if "‱" in e], [])
        self.assertFalse(self.d.find_element(By.ID, "shares").is_displayed())
        self.click("#rows tr:nth-child(2)")
        self.assertEqual(self.text(".line p"), "part 1: 3 corners (40,0) (70,5) (40,10)")
        self.drop(strap=triangles_of(STRAP))
        self.assertEqual(self.drawn(), (3, 2))
        # the largest area, a part without corners, one that runs clockwise
        square = [(-FAR, -FAR), (FAR, -FAR), (FAR, FAR), (-FAR, FAR)]
        self.drop(far__tab=table([square, [], square[::-1]]))
        self.assertEqual(self.rows(), [["0", "4", str(8 * FAR * FAR)], ["1", "0", "0"], ["2", "4", str(8 * FAR * FAR)]])
        self.drop(dart__out=DART)
        self.assertEqual(self.rows()[0], ["0", "3", "16", "5000"])

    def test_tables_jobs_and_meshes_are_told_apart_by_what_they_say(self):
        def kind(data):
            return self.js("return read(Uint8Array.from(atob(arguments[0]), (c) => c.charCodeAt(0))).kind", base64.b64encode(data).decode())
        for parts in [[], [[]], [[(5, 5)]], [STRAP[1]], STRAP, [[], []], quilt(32, 16, 100)]:
            self.assertEqual(kind(table(parts)), "table", len(parts))
        # jobs whose left bounds could be starts; a job has no least bound above a greatest
        for left in [[(-5, -5), (0, -5), (0, 7)], [(0, 0), (20, 0), (0, 20)], [(-3, -3), (0, -3), (0, 1)]]:
            for parts in [[left], [left, []]]:
                self.assertEqual(kind(difference(parts, [left], [[]])["job"]), "job")
        for rows in [[], [(0, 0, 4, 0, 0, 4, NONE, NONE, NONE)]]:
            self.assertEqual(kind(mesh(rows)), "mesh")
        self.drop(dart__out=DART)
        good = table(STRAP)
        for data, sentence in [(good[:-4], "the file ends inside the table"), (good + bytes(4), "the table should end here"), (table([STRAP[1]])[:-4], "the file ends inside the table"),
                               (good[:12] + struct.pack("<I", 9) + good[16:], "the table’s starts fall from 9 to 7"), (good[:16] + struct.pack("<I", 6) + good[20:], "the table’s last start is 6"),
                               (struct.pack("<3I", 2049, 0, 0) + bytes(9000), "byte 0: the table has 2,049 parts")]:
            self.drop(bad=data)
            self.assertIn(sentence, self.message())
        self.assertEqual(len(self.rows()), 2)

    # ---- large ones

    def test_2048_parts_are_drawn_quickly(self):
        parts = quilt(32, 16, 100)
        began = time.monotonic()
        self.drop(big__out=listing(parts))
        self.assertLess(time.monotonic() - began, 5)
        self.assertEqual(len(self.rows()), 2048)
        self.assertIn("2048 parts, 6144 corners", self.text("#summary"))
        times = self.js("""const times = [];
            for (let k = 0; k < 15; k++) { const t = performance.now(); pan(1, 0); draw(); context.getImageData(0, 0, 1, 1); times.push(performance.now() - t); }
            return times.sort((a, b) => a - b)""")
        self.assertLess(times[7], 250, f"a redraw takes {times[7]} ms")
        hover = self.js("const t = performance.now(); for (let k = 0; k < 50; k++) hit(100 + 9 * k, 300); return (performance.now() - t) / 50")
        self.assertLess(hover, 20, f"a hit takes {hover} ms")
        self.click("#fit")
        self.point(*self.place(*[sum(c) / 3 for c in zip(*parts[1234])]))
        self.assertRegex(self.tip()[0], "part 1234$")

    def test_32768_contours_are_usable(self):
        lines = ["contours 32768 corners 131072 bounds 0 4000 0 4000"]
        for i, j in itertools.product(range(2048), range(16)):
            x, y = i, 10 * j
            lines.append(f"{i} {j} 4 ({x},{y}) ({x + 9},{y}) ({x + 9},{y + 9}) ({x},{y + 9})")
        began = time.monotonic()
        self.drop(many="\n".join(lines) + "\n")
        self.js("document.getElementById('i').value = 2047; document.getElementById('i').dispatchEvent(new Event('change'))")
        self.click("#rows tr:nth-child(16)")
        self.assertLess(time.monotonic() - began, 10)
        self.assertEqual(self.text(".line p"), lines[-1])

    def test_places_among_32768_contours(self):
        lefts = [[(x, 0), (x + 9, 0), (x + 9, 9)] for x in range(2048)]
        rights = [[(0, -10 * j), (1, -10 * j), (0, 1 - 10 * j)] for j in range(16)]
        contours = [[(x, 10 * j), (x + 9, 10 * j), (x + 9, 10 * j + 9), (x, 10 * j + 9)] for x in range(2048) for j in range(16)]
        self.drop(**difference(lefts, rights, contours))
        self.assertEqual(self.words([[1000, 9], [1000, 1], [3000, 1]]), ["touching", "overlapping", "apart"])
        times = self.js("""const times = [];
            for (let k = 0; k < 15; k++) { const t = performance.now(); placeAt(100 * k, 9); draw(); context.getImageData(0, 0, 1, 1); times.push(performance.now() - t); }
            return times.sort((a, b) => a - b)""")
        self.assertLess(times[7], 60, f"a move of the piece takes {times[7]} ms")

    # ---- colours and themes

    def test_colours_differ_for_colour_blind_readers(self):
        # Machado, Oliveira and Fernandes (2009), full severity, on linear light
        blind = {
            "none": ((1, 0, 0), (0, 1, 0), (0, 0, 1)),
            "protan": ((0.152286, 1.052583, -0.204868), (0.114503, 0.786281, 0.099216), (-0.003882, -0.048116, 1.051998)),
            "deutan": ((0.367322, 0.860646, -0.227968), (0.280085, 0.672501, 0.047413), (-0.011820, 0.042940, 0.968881)),
            "tritan": ((1.255528, -0.076749, -0.178779), (-0.078411, 0.930809, 0.147602), (0.004733, 0.691367, 0.303900)),
        }

        def lab(rgb):
            x, y, z = (sum(a * c for a, c in zip(row, rgb)) for row in ((0.4124, 0.3576, 0.1805), (0.2126, 0.7152, 0.0722), (0.0193, 0.1192, 0.9505)))
            fx, fy, fz = ((v ** (1 / 3) if v > 0.008856 else 7.787 * v + 16 / 116) for v in (x / 0.9505, y, z / 1.089))
            return 116 * fy - 16, 500 * (fx - fy), 200 * (fy - fz)

        def channels(colour):
            return [int(colour[k:k + 2], 16) for k in (1, 3, 5)]

        # each way in which parts are drawn: on paper and over triangles, and the outlines of pieces
        # at places, light and dark
        ways = self.js("""return [LIGHT, DARK].flatMap((c) => [
            [PALETTE, c.paper, OPACITY.plain], [PALETTE, c.triangle, OPACITY.overTriangles], [[c.left, ...[APART, TOUCHING, OVERLAPPING].map((word) => c[word])], c.covered, 1]])""")
        for palette, paper, opacity in ways:
            for name, matrix in blind.items():
                seen = []
                for colour in palette:
                    mixed = [(opacity * c + (1 - opacity) * p) / 255 for c, p in zip(channels(colour), channels(paper))]
                    linear = [c / 12.92 if c <= 0.04045 else ((c + 0.055) / 1.055) ** 2.4 for c in mixed]
                    seen.append(lab([min(1, max(0, sum(m * c for m, c in zip(row, linear)))) for row in matrix]))
                least = min(sum((a - b) ** 2 for a, b in zip(p, q)) ** 0.5 for p, q in itertools.combinations(seen, 2))
                self.assertGreater(least, 10, f"{name} on {paper}")

    def test_neighbours_have_different_colours(self):
        # four columns: parts that are neighbours and whose numbers differ by a multiple of seven,
        # the number of colours
        self.drop(quilt__out=listing(quilt(4, 8, 10)))
        colours = self.js("return state.listing.parts.map((p) => p.colour)")
        parts = quilt(4, 8, 10)
        edges = {}
        for k, p in enumerate(parts):
            for a, b in zip(p, p[1:] + p[:1]):
                edges.setdefault(frozenset((a, b)), []).append(k)
        shared = [pair for pair in edges.values() if len(pair) == 2]
        self.assertEqual(len(shared), 128 + 24 + 28)
        for a, b in shared:
            self.assertNotEqual(colours[a], colours[b])
        # edges that have a piece in common count too: a wide part above two narrow ones
        self.drop(wide__out=listing([[(0, 1), (4, 1), (4, 2), (0, 2)], [(0, 0), (1, 0), (1, 1), (0, 1)], [(1, 0), (4, 0), (4, 1), (1, 1)]]))
        self.assertEqual(len(set(self.js("return state.listing.parts.map((p) => p.colour)"))), 3)

    def test_light_and_dark(self):
        self.drop(dart__out=DART)
        self.assertEqual(self.pixel(*self.place(8.5, 3.5)), (255, 255, 255))
        self.click("#theme")
        self.assertEqual(self.pixel(*self.place(8.5, 3.5)), (20, 22, 26))
        self.d.execute_cdp_cmd("Emulation.setEmulatedMedia", {"features": [{"name": "prefers-color-scheme", "value": "dark"}]})
        self.d.get(PAGE)
        self.assertEqual(self.js("return document.documentElement.dataset.theme"), "dark")
        self.d.execute_cdp_cmd("Emulation.setEmulatedMedia", {"features": []})

    def test_a_narrow_window_keeps_picture_and_table(self):
        self.d.execute_cdp_cmd("Emulation.setDeviceMetricsOverride", {"width": 400, "height": 760, "deviceScaleFactor": 1, "mobile": False})
        self.d.get(PAGE)
        self.drop(bag__out=BAG)
        self.click("#rows tr:nth-child(2)")
        self.assertGreater(self.view()["h"], 200)
        self.assertEqual(self.js("return document.documentElement.scrollWidth"), 400)
        before = self.view()
        self.d.execute_cdp_cmd("Emulation.setDeviceMetricsOverride", {"width": 700, "height": 900, "deviceScaleFactor": 2, "mobile": False})
        self.frame()
        self.assertGreater(self.view()["scale"], before["scale"], "a fitted picture follows the window")
        self.assertEqual(self.js("return canvas.width"), 1400)
        self.d.execute_cdp_cmd("Emulation.clearDeviceMetricsOverride", {})

    # ---- saving

    def downloaded(self, name):
        path = TEMP / "saved" / name
        for _ in range(100):
            if path.exists() and path.stat().st_size > 0:
                return path.read_bytes()
            time.sleep(0.1)
        return self.fail(f"{name} was not saved")

    def test_svg_and_png_are_saved(self):
        self.drop(bag__out=BAG)
        self.click("#svg")
        saved = self.downloaded("bag.svg")
        self.assertEqual(saved.decode(), self.js("return drawSvg()"))
        titles = [t.text for t in ElementTree.fromstring(saved).iter(SVG + "title")]
        self.assertEqual(titles, BAG.splitlines()[1:])
        self.click("#png")
        png = self.downloaded("bag.png")
        self.assertEqual(png[:8], b"\x89PNG\r\n\x1a\n")
        view = self.view()
        self.assertEqual(struct.unpack(">2I", png[16:24]), (2 * view["w"], 2 * view["h"]))

    def test_the_picture_without_a_window_is_the_same(self):
        made = subprocess.run([str(ROOT / "run"), "picture", str(ROOT / "examples/dart.out")], capture_output=True, text=True, check=True).stdout
        self.drop(dart__out=DART)
        self.assertEqual(made, self.js("return drawSvg(viewForPrint(), LIGHT)"))
        bad = subprocess.run([str(HERE / "picture"), str(ROOT / "examples/refused_3.out")], capture_output=True, text=True)
        self.assertEqual((bad.returncode, bad.stdout), (3, ""))
        for places, sentence in [(["0", "0"], "Only the contours of a difference have places"), (["0"], "--placed takes an X and a Y for each place"), (["0", "1.5"], "1.5 is no whole number")]:
            bad = subprocess.run([str(HERE / "picture"), str(ROOT / "examples/vamp.contours"), "--placed", *places], capture_output=True, text=True)
            self.assertEqual((bad.returncode, bad.stdout), (2, ""))
            self.assertIn(sentence, bad.stderr)

    def picture(self, *arguments, at=HERE, **more):
        made = subprocess.run([str(at / "picture"), *map(str, arguments)], capture_output=True, text=True, **more)
        return made.returncode, made.stdout, made.stderr

    def written(self, **files):
        """Files in a folder of their own, as drop() takes them."""
        folder = pathlib.Path(tempfile.mkdtemp(dir=TEMP))
        paths = [folder / name.replace("__", ".") for name in files]
        for path, data in zip(paths, files.values()):
            path.write_bytes(data.encode() if isinstance(data, str) else data)
        return paths

    def test_pictures_of_contours_and_two_meshes(self):
        files = {"c": contours_of(STRAP, BUCKLE, -1), "strap__out": listing(STRAP), "buckle__tab": table(BUCKLE)}
        c, strap, buckle = self.written(**files)
        self.drop(**files)
        placed = self.js("showPlaces([[30, 2], [0, -60]]); return drawSvg(viewForPrint(), LIGHT)")
        self.assertEqual(self.picture(c, strap, buckle, "--placed", 30, 2, 0, -60), (0, placed, ""))
        self.assertEqual(self.picture(c, strap, buckle, 1, 2), (0, self.js("showPair(1, 2); return drawSvg(viewForPrint(), LIGHT)"), ""))
        code, out, said = self.picture(c, buckle, strap)
        self.assertEqual((code, out), (2, ""))
        self.assertIn("run: The contours do not fit: there are 3 left parts (buckle.tab) and 2 right parts (strap.out)", said)
        self.drop(strap__out=listing(STRAP), buckle__tab=table(BUCKLE))
        self.js("putAway(sources().find(({ slot }) => slot === 'contours'))")
        self.assertEqual(self.picture(strap, buckle), (0, self.js("showPair(0, 0); return drawSvg(viewForPrint(), LIGHT)"), ""))

    def test_a_picture_asks_for_what_a_mesh_or_a_pair_job_needs(self):
        # both are stood in for: ./run, which tells what it was asked, and Chromium, which tells how
        # many files the page was given
        home = pathlib.Path(tempfile.mkdtemp(dir=TEMP))
        shutil.copytree(HERE, home / "viewer")
        (home / "bin").mkdir()
        for path, lines in [("run", 'echo "$1 ${2##*/}" >&2\necho "parts 0 corners 0 area2 0"'), ("bin/chromium", 'echo "<title>svg $(grep -c \'^\\["\' page.html | base64)</title>"')]:
            (home / path).write_text(f"#!/usr/bin/env bash\n{lines}\n")
            (home / path).chmod(0o755)
        one = difference(STRAP[1:], BUCKLE[1:2], [minkowski(STRAP[1], BUCKLE[1], -1)])
        paths = dict(zip("abcjkosty", self.written(a=triangles_of(STRAP), b=triangles_of(BUCKLE), c=contours_of(STRAP, BUCKLE, -1), j=one["job"], k=one["contours"], o=listing(STRAP), s=table(STRAP[1:]), t=table([]), y="limit 0 ear\n")))
        path = f"{home}/bin:{os.environ['PATH']}"
        for names, asked in [("a", "areas a\n"), ("ao", ""), ("ab", "areas a\nareas b\n"), ("cab", "areas a\nareas b\n"), ("j", "pairs j\n"), ("jk", ""), ("s", ""), ("t", ""), ("st", ""), ("y", "areas y\n"), ("cos", "")]:
            with self.subTest(names=names):
                given = len(names) + asked.count("\n")
                self.assertEqual(self.picture(*(paths[name] for name in names), at=home / "viewer", env={**os.environ, "PATH": path}), (0, f"{given}\n", asked))
        self.assertIn("nothing cannot be read", self.picture(paths["c"], "nothing")[2])

    def test_the_readmes_pictures_are_what_is_drawn_now(self):
        self.drop(bag__txt=(ROOT / "examples/bag.txt").read_bytes(), bag__out=BAG)
        self.assertEqual((ROOT / "docs/pictures/bag.svg").read_text(), self.js("return drawSvg(viewForPrint(), LIGHT)"))
        self.drop(pocket__job=JOB, pocket__contours=CONTOURS)
        self.js("selectPair(1, 0)")
        self.assertEqual((ROOT / "docs/pictures/pair.svg").read_text(), self.js("return drawSvg(viewForPrint(), LIGHT)"))
        self.vamp()
        self.js("showPlaces([[0, -90], [150, -20], [-70, 70]])")
        self.assertEqual((ROOT / "docs/pictures/placed.svg").read_text(), self.js("return drawSvg(viewForPrint(), LIGHT)"))

    def test_the_page_is_one_file_and_asks_the_network_nothing(self):
        page = (HERE / "index.html").read_text()
        self.assertIn("default-src 'none'", page)
        self.assertEqual(set(re.findall(r"https?://[^\"'`\s]*", page)), {"http://www.w3.org/2000/svg"})
        self.assertNotRegex(page, r"<link|<script[^>]+src|@import|fetch\(|XMLHttpRequest|import\(")


def screenshots(folder):
    folder.mkdir(parents=True, exist_ok=True)
    bag = {"bag__txt": (ROOT / "examples/bag.txt").read_bytes(), "bag__out": BAG}
    pocket = {"pocket__job": JOB, "pocket__contours": CONTOURS}
    vamp = {"vamp__job": VAMP_JOB, "vamp__contours": VAMP_CONTOURS}
    scenes = [
        ("empty", {}, ""),
        ("dart", {"dart__out": DART}, ""),
        ("bag", bag, "selectPart(14, true)"),
        ("bag-dark", bag, "setTheme(true)"),
        ("parts-2048", {"quilt__out": listing(quilt(32, 16, 100))}, ""),
        ("parts-2048-near", {"quilt__out": listing(quilt(32, 16, 100))}, "zoomAt(400, 300, 6)"),
        ("sum", pocket, "selectPair(1, 0)"),
        ("sum-dark", pocket, "selectPair(1, 0); setTheme(true)"),
        ("places", vamp, "placeAt(150, -20)"),
        ("places-dark", vamp, "placeAt(-70, 70); setTheme(true)"),
        ("two-meshes", {"strap__out": listing(STRAP), "buckle__tab": table(BUCKLE)}, ""),
        ("two-meshes-triangles", {"strap__mesh": triangles_of(STRAP), "buckle__mesh": triangles_of(BUCKLE)}, ""),
        ("two-meshes-places", {"strap__out": listing(STRAP), "buckle__tab": table(BUCKLE), "strap__mesh": triangles_of(STRAP), "buckle__mesh": triangles_of(BUCKLE), "c__txt": contours_of(STRAP, BUCKLE, -1)}, "placeAt(30, 2)"),
        ("two-meshes-unlike", {"buckle__out": listing(BUCKLE), "strap__out": listing(STRAP), "c__txt": contours_of(STRAP, BUCKLE, -1)}, ""),
        ("two-meshes-sum-dark", {"strap__out": listing(STRAP), "buckle__out": listing(BUCKLE), "c__txt": contours_of(STRAP, BUCKLE, 1)}, "setTheme(true); selectPair(1, 2)"),
        ("table", {"strap__tab": table(STRAP)}, "selectPart(1, true)"),
        ("refused", {**bag, "bag__out": "refused 4\n"}, ""),
        ("bad", {"dart__out": DART}, "showText('parts 2', 'bad.out')"),
    ]
    Viewer.setUpClass()
    seen = Viewer()
    for name, files, action in scenes:
        seen.setUp()
        if files:
            seen.drop(**files)
        seen.js(action)
        seen.frame()
        seen.d.save_screenshot(str(folder / f"{name}.png"))
    Viewer.tearDownClass()


def main():
    if sys.argv[1:2] == ["--screenshots"]:
        try:
            screenshots(pathlib.Path(sys.argv[2]).resolve())
        finally:
            shutil.rmtree(TEMP, ignore_errors=True)
        return
    began = time.monotonic()
    loader = unittest.TestLoader()
    names = [n for n in loader.getTestCaseNames(Viewer) if len(sys.argv) == 1 or n in sys.argv[1:]]
    try:
        result = unittest.TextTestRunner(stream=sys.stderr, verbosity=0).run(unittest.TestSuite(Viewer(n) for n in names))
    finally:
        shutil.rmtree(TEMP, ignore_errors=True)
    good = result.wasSuccessful() and result.testsRun == len(names) > 0
    print(f"viewer: {result.testsRun} browser tests {'passed' if good else 'ran, and some FAILED'}, {time.monotonic() - began:.0f} s")
    sys.exit(0 if good else 1)


if __name__ == "__main__":
    main()
