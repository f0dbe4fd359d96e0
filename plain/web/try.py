#!/usr/bin/env python3
"""Opens images in the page, in a headless Chromium, and compares what the page shows with what `spiffs` prints of the same files.

    try.py [--wrong] PROGRAM MODULE [WORD]    PROGRAM is a built spiffs, MODULE the module of the page; only cases with that word

`--wrong` breaks the page in each of the ways that stand below, and fails where a broken page passes its case. A line for each; the last
line is `N passed, M failed`. Standard library alone.
"""

import argparse
import os
import pathlib
import random
import re
import shutil
import subprocess
import sys
import tempfile
import time

sys.dont_write_bytecode = True
TOP = pathlib.Path(__file__).resolve().parent.parent.parent
sys.path[:0] = [str(TOP / "plain" / "web"), str(TOP / "bench")]
import assemble
from browser import Browser
from images import Image, word

KINDS = ["lookup", "free", "deleted", "header", "further index", "data", "neither"]
ROWS = "[...document.querySelectorAll('#files tr')].map(row => [...row.cells].slice(0, 4).map(it => it.innerText).join(' '))"
LINES = "[...document.querySelectorAll('#{} li')].map(it => it.{})"
IDLE = "document.getElementById('stop').hidden && !document.getElementById('state').innerText.endsWith('..')"
PIXELS = """(() => {{
  const canvas = document.getElementById('picture'), [columns, rows] = [{}, {}], side = canvas.width / columns;
  const all = canvas.getContext('2d').getImageData(0, 0, canvas.width, canvas.height).data;
  return Array.from({{length: columns * rows}}, (_, i) => {{
    const at = 4 * ((Math.floor(i / columns) * side) * canvas.width + i % columns * side);
    return all.slice(at, at + 3).join();
  }});
}})()"""
KEY = "[...document.querySelectorAll('#key li')].map(it => [it.innerText, getComputedStyle(it.firstChild).backgroundColor])"


class Bad(Exception):
    pass


def same(what, shown, wanted):
    if shown != wanted:
        raise Bad(f"{what}: the page shows {str(shown)[:300]!r}, wanted {str(wanted)[:300]!r}")


# ---- what the program says

class Program:
    """The program, and a folder for its files."""

    def __init__(self, path, folder):
        self.path, self.folder = path, folder

    def file(self, content, name="image"):
        path = os.path.join(self.folder, name)
        with open(path, "wb") as file:
            file.write(content)
        return path

    def give(self, *words, said=None):
        """Status and lines of a command."""
        done = subprocess.run([self.path, *words], input=said or b"", capture_output=True, timeout=300, check=False)
        return done.returncode, done.stdout.decode().splitlines()

    def made(self, numbers, files, script=b""):
        """An image that `make` makes of files, by their names as `extract` writes them, after a script."""
        source, chip = os.path.join(self.folder, "source"), os.path.join(self.folder, "made")
        shutil.rmtree(source, ignore_errors=True)
        os.mkdir(source)
        if os.path.exists(chip):
            os.remove(chip)
        for name, content in files.items():
            with open(os.path.join(source, name), "wb") as file:
                file.write(content)
        for words, said in ((("make", *numbers, chip, source), b""), (("run", *numbers, chip), script)):
            status, lines = self.give(*words, said=said)
            if status != 0:
                raise Bad(f"{words[0]}: status {status}, {lines[-1:]}")
        with open(chip, "rb") as file:
            return file.read()

    def extracted(self, numbers, path):
        """The bytes of each file, by its name at the host."""
        into = os.path.join(self.folder, "extracted")
        shutil.rmtree(into, ignore_errors=True)
        os.mkdir(into)
        self.give("extract", *numbers, path, into)
        found = {}
        for name in os.listdir(into):
            with open(os.path.join(into, name), "rb") as file:
                found[name] = file.read()
        return found


# ---- what the page shows

class Page:
    """The page in a browser."""

    def __init__(self, browser):
        self.browser = browser

    def text(self, name):
        return self.browser.value(f"document.getElementById('{name}').innerText.trim()")

    def do(self, script):
        self.browser.value(f"void ({script})")
        self.browser.wait(IDLE)

    def click(self, name):
        self.do(f"document.getElementById('{name}').click()")

    def open(self, path, drops=False):
        """Chooses an image, or drops it onto the page, and waits until it is shown."""
        self.browser.value("void (document.getElementById('state').textContent = 'not begun ..')")
        if drops:
            self.browser.drop("#drop", path)
        else:
            self.browser.choose("#file", path)
        self.browser.wait(IDLE)

    def read(self, numbers, at=0):
        """Puts numbers into the fields, and has them read."""
        for name, value in zip(("at", "page", "block", "blocks", "meta", "magic"), (str(at), *numbers)):
            self.do(f"document.getElementById('{name}').value = '{value}'")
        self.do("document.querySelector('#numbers button').click()")

    def numbers(self):
        """What stands in the fields: the first byte, and the numbers."""
        at, *numbers = self.browser.value("['at', 'page', 'block', 'blocks', 'meta', 'magic'].map(id => document.getElementById(id).value)")
        return int(at), numbers

    def found(self):
        return self.browser.value(LINES.format("found", "firstChild.data"))

    def listed(self):
        """The lines of the list, and its status."""
        closing = self.text("closing")
        lines = self.browser.value(ROWS) + self.browser.value(LINES.format("damaged", "innerText")) + ([closing] if closing else [])
        told = re.fullmatch(r"files (\d+), damaged ids (\d+), status (\d+)", self.text("summary"))
        return int(told[3]) if told else None, lines

    def button(self, row, text):
        """Presses a button of a row of the files."""
        self.do(f"[...document.querySelectorAll('#files tr')[{row}].querySelectorAll('button')].find(it => it.innerText === '{text}').click()")


def as_text(data):
    """Bytes as the page shows them."""
    data = data[:65536]
    try:
        text = data.decode()
        if not re.search(r"[\x00-\x08\x0b\x0c\x0e-\x1f\x7f-\x9f\xad\u200b-\u200f\u202a-\u202e\u2060-\u2064\ufeff]", text):
            return text
    except UnicodeDecodeError:
        pass
    return "\n".join(f"{i:06x}  {data[i:i + 16].hex(' ')}" for i in range(0, len(data), 16))


# ---- what each page of a volume is, computed apart

def is_live(page, entry):
    ident, span, flags = int.from_bytes(page[:2], "little"), int.from_bytes(page[2:4], "little"), page[4]
    if ident != entry or ident in (0, 0x8000, 0xFFFF) or flags & 3 or not flags & 128:
        return False
    if ident < 0x8000:
        return flags & 4 != 0
    return not flags & 4 and (flags & 64 != 0 or span != 0)


def pages_of(image, numbers):
    """The kind and the id of each page."""
    size, block, blocks = map(int, numbers[:3])
    kind, each = numbers[4], block // size
    lookups = max(1, each * 2 // size)
    found = []
    for b in range(blocks):
        at = b * block
        magic = 0x0529 ^ size ^ (blocks - b if kind == "len" else 0)
        in_order = image[at + lookups * size - 4 : at + lookups * size - 2] == word(magic & 0xFFFF)
        found += [("lookup", 0)] * lookups
        for i in range(each - lookups):
            entry = int.from_bytes(image[at + 2 * i : at + 2 * i + 2], "little")
            page = image[at + (lookups + i) * size :][:size]
            if entry == 0:
                found.append(("deleted", 0))
            elif entry == 0xFFFF:
                found.append(("neither" if page.strip(b"\xff") else "free", 0))
            elif not in_order or not is_live(page, entry):
                found.append(("neither", entry % 0x8000))
            elif entry < 0x8000:
                found.append(("data", entry))
            else:
                found.append(("header" if page[2:4] == b"\0\0" else "further index", entry % 0x8000))
    return found


SIGNS = {"lookup": "L", "free": ".", "deleted": "x", "header": "H", "further index": "i", "data": "d", "neither": "?"}


def drawn_by(program, part, numbers):
    """The signs of all pages, as the program draws them."""
    size, block, blocks, meta, kind = numbers
    words = ["-p", size, "-b", block, "-s", str(int(block) * int(blocks)), "--meta", meta, "--magic", kind]
    _, lines = program.give("picture", part, *words)
    return "".join(line.split()[-1] for line in lines[1:-1])


def compare_picture(page, image, numbers):
    size, block, blocks = map(int, numbers[:3])
    wanted = pages_of(image, numbers)
    columns = min(block // size, 64)
    shown = page.browser.value(PIXELS.format(columns, len(wanted) // columns))
    key = page.browser.value(KEY)
    kinds = [kind for kind, _ in wanted]
    same("the key", [text for text, _ in key], [f"{kind} {kinds.count(kind)}" for kind in KINDS])
    colours = {}
    for what, colour in zip(wanted, shown):
        same(f"the colour of {what}", colour, colours.setdefault(what, colour))
    if len(set(colours.values())) != len({what if what[0] != "neither" else what[0] for what in colours}):
        raise Bad(f"colours that are the same: {colours}")
    for (_, background), kind in zip(key, KINDS):
        plain = colours.get((kind, 0)) or (shown[kinds.index(kind)] if kind == "neither" and kind in kinds else None)
        if plain:
            same(f"the colour of {kind} in the key", background, f"rgb({plain.replace(',', ', ')})")
    compare_pointed(page, wanted, columns)


def compare_pointed(page, wanted, columns):
    """What is told of the first and the last page of each kind, where the mouse is."""
    left, top, width = page.browser.value("(it => [it.left + 1, it.top + 1, document.getElementById('picture').clientWidth])"
                                          "(document.getElementById('picture').getBoundingClientRect())")
    names = {row.split(" ")[0]: row.split(" ", 3)[3] for row in page.browser.value(ROWS)}
    kinds = [kind for kind, _ in wanted]
    side = width / columns
    for p in sorted({kinds.index(kind) for kind in kinds} | {len(kinds) - 1 - kinds[::-1].index(kind) for kind in kinds}):
        kind, ident = wanted[p]
        page.browser.point(left + (p % columns + 0.4) * side, top + (p // columns + 0.4) * side)
        whose = "" if not ident else f" of the file {ident} {names[str(ident)]}" if str(ident) in names else f" of the id {ident}"
        told = page.text("pointed")
        if not (told.startswith(f"page {p}, block ") and told.endswith(f": {kind}{whose}")):
            raise Bad(f"page {p}, {kind}{whose}, is told as {told!r}")


# ---- comparing

def compare_found(page, program, path):
    _, lines = program.give("detect", path)
    same("detect", page.found(), lines)
    return lines


def compare_list(page, program, path, at=0, numbers=None):
    """What the page lists by the numbers in its fields is what the program lists."""
    shown_at, shown_numbers = page.numbers()
    numbers = numbers or shown_numbers
    same("the numbers", (shown_at, shown_numbers), (at, numbers))
    with open(path, "rb") as file:
        image = file.read()[at:]
    part = program.file(image, "part")
    listed = program.give("list", *numbers, part)
    same("list", page.listed(), listed)
    if listed[0] not in (1, 2):
        # (the numbers are taken)
        same("the signs that the program draws", drawn_by(program, part, numbers), "".join(SIGNS[kind] for kind, _ in pages_of(image, numbers)))
    return part, image, numbers


def compare_files(page, program, part, numbers):
    """Each file that is opened shows its bytes, and saved it has them."""
    wanted = program.extracted(numbers, part)
    rows = page.browser.value(ROWS)
    same("the number of files", len(rows), len(wanted))
    for i, row in enumerate(rows):
        name = row.split(" ", 3)[3]
        at_host = re.sub(r"^\.", "%2E", name.replace("/", "%2F"))
        data = wanted[at_host]
        page.button(i, "open")
        same(f"the bytes of {name}", page.browser.value("document.getElementById('view-bytes').textContent"), as_text(data))
        same(f"the heading of {name}", page.text("view-name").split(",")[0], name)
        page.button(i, "save")
        saved_as, saved = page.browser.downloaded()
        same(f"{name} as saved", saved, data)
        # (Chromium has its own mind about signs that no file of Windows may have)
        if re.fullmatch(r"[\w%]+(\.\w+)?", at_host):
            same("the name it is saved by", saved_as, at_host)


def compare_check(page, program, path, image, numbers):
    """A check is told as the program tells it, the copy has the bytes that the program leaves, and the image stays. The volume begins where
    the last bytes of the file, `image`, do."""
    before = page.listed()
    checked = program.file(image, "checked")
    status, lines = program.give("--force", "check", *numbers, checked)
    page.click("check")
    same("check", page.text("report").splitlines(), [*lines, f"status {status}"])
    same("the list of the copy", page.listed(), program.give("list", *numbers, checked))
    with open(checked, "rb") as file:
        after = file.read()
    compare_picture(page, after, numbers)
    block, blocks = int(numbers[1]), int(numbers[2])
    image, after = (it.ljust(block * blocks, b"\xff") for it in (image, after))
    differ = sum(image[i : i + block] != after[i : i + block] for i in range(0, len(after), block))
    damaged = sum(line.startswith("damaged") for line in before[1])
    same("what is changed", page.text("changes"), f"Blocks of the copy that differ from the image: {differ}. Damaged ids of the image: {damaged}.")
    page.click("save-copy")
    saved_as, saved = page.browser.downloaded()
    with open(path, "rb") as file:
        whole = file.read()
    same("the saved copy", saved, whole[: page.numbers()[0]] + after)
    same("its name", saved_as, f"checked-{os.path.basename(path)}")
    page.click("on-copy")
    same("the image after the check", page.listed(), before)
    compare_picture(page, image, numbers)


def compare_all(page, program, path, at=0):
    part, image, numbers = compare_list(page, program, path, at)
    compare_picture(page, image, numbers)
    compare_files(page, program, part, numbers)
    compare_check(page, program, path, image, numbers)


# ---- images

def noise(count, seed=1):
    return random.Random(seed).randbytes(count)


HOSTILE = [b"<script>window.broken=1</script>", b"<img src=x onerror=alert(1)>", b"\"'`><b>", b"a b\nc\td", bytes([0xFF, 0x80, 0xC3, 0x28]),
           "\u202etxt.exe".encode(), b"&lt;i&gt;", b"../../etc/passwd", b"%41", b"__proto__", b"C:\\x|y*?"]


def as_spiffsgen(files, blocks=16, meta=4):
    """An image as ESP-IDF's spiffsgen lays it out: an index page stands before the data pages that it names, and all stand in a row. Erase
    counts aren't written. Pages have 256 bytes, blocks 4,096."""
    image = Image(blocks)
    for block in range(blocks):
        image.bytes[block * 4096 + 254 : block * 4096 + 256] = b"\xff\xff"
    free = (block * 16 + i for block in range(blocks) for i in range(1, 16))
    for ident, (name, data) in enumerate(files.items(), 1):
        pieces = list(enumerate(data[i : i + 251] for i in range(0, len(data), 251)))
        size = len(data).to_bytes(4, "little")
        head, room = size + b"\x01" + name.ljust(32, b"\0") + b"\xff" * meta, (256 - 45 - meta) // 2
        span = 0
        while span == 0 or pieces:
            index = next(free)
            slots = [next(free) for _ in pieces[:room]]
            for place, (number, piece) in zip(slots, pieces):
                image.put(place, ident, word(ident) + word(number) + b"\xfc" + piece)
            image.put(index, 0x8000 | ident, word(0x8000 | ident) + word(span) + b"\xf8" + b"\xff" * 3 + head + b"".join(map(word, slots)))
            pieces, span = pieces[room:], span + 1
            head, room = b"", (256 - 8) // 2
    return bytes(image.bytes)


NUMBERS = ["256", "4096", "32", "4", "len"]
FILES = {"%2Findex.html": b"<p>Hello</p>\n" * 30, "log": b"a line\n" * 700, "empty": b"", "noise": noise(9000), "%2Ehidden": "z\u00f6e".encode()}


def made(program):
    return program.made(NUMBERS, FILES, b"remove log\nopen new 21\nwrite 1 hello\nclose 1\n")


# ---- cases

def a_made_image(page, program):
    path = program.file(made(program))
    page.open(path)
    compare_found(page, program, path)
    compare_all(page, program, path)


def an_image_as_spiffsgen_lays_it_out(page, program):
    files = {b"/index.html": b"<p>Hello", b"/a/b.txt": b"text\n" * 900, b"/empty": b"", b"/large": noise(29000)}
    path = program.file(as_spiffsgen(files))
    page.open(path)
    lines = compare_found(page, program, path)
    same("the first candidate", lines[0], "at 0 page 256 block 4096 blocks 16 meta 4 magic len files 4 damaged 0")
    compare_all(page, program, path)


def names_and_bytes_of_all_sorts(page, program):
    files = {name[:31]: b"<script>window.broken=1</script>\n" + name for name in HOSTILE}
    path = program.file(as_spiffsgen(files, meta=0))
    page.open(path)
    compare_found(page, program, path)
    compare_all(page, program, path)
    same("elements of the page that an image brought", page.browser.value("document.querySelectorAll('script:not([type]), img, b, i').length"), 1)
    same("what ran", page.browser.value("window.broken ?? null"), None)


def a_file_of_a_hostile_name(page, program):
    path = program.file(made(program), "<img src=x onerror=alert(1)>")
    page.open(path)
    same("the name of the file", page.text("state").split(",")[0], os.path.basename(path))


def random_bytes(page, program):
    for size, seed in ((65536, 1), (300001, 2), (4095, 3), (1, 4), (0, 5)):
        path = program.file(noise(size, seed))
        page.open(path)
        same("the state", page.text("state"), f"image, {size} bytes")
        compare_found(page, program, path)
        compare_list(page, program, path)
    for byte in (b"\0", b"\xff"):
        path = program.file(byte * 131072)
        page.open(path)
        compare_found(page, program, path)
        for numbers in (["256", "4096", "32", "0", "len"], ["100", "4096", "32", "0", "len"], ["256", "4096", "", "0", "plain"], ["x", "0", "-1", "65", "len"]):
            page.read(numbers)
            compare_list(page, program, path, numbers=numbers)


def a_torn_image(page, program):
    image = bytearray(made(program))
    rng = random.Random(7)
    for _ in range(60):
        # (the pages that have the magics stay)
        at = rng.randrange(8) * 4096 + 256 + rng.randrange(3800)
        image[at : at + 8] = rng.randbytes(8)
    path = program.file(bytes(image))
    page.open(path)
    compare_found(page, program, path)
    page.read(NUMBERS)
    compare_all(page, program, path)
    damaged = [line for line in page.listed()[1] if line.startswith("damaged")]
    if not damaged:
        raise Bad("no id of the torn image is damaged")


def an_image_that_is_cut_off(page, program):
    path = program.file(made(program)[:-3000])
    page.open(path)
    compare_found(page, program, path)
    page.read(NUMBERS)
    compare_all(page, program, path)


def a_wrong_meta(page, program):
    image = made(program)
    path = program.file(image)
    page.open(path)
    numbers = [*NUMBERS[:3], "9", "len"]
    page.read(numbers)
    compare_list(page, program, path, numbers=numbers)
    if "With META 4 5 files are whole" not in page.text("warning"):
        raise Bad(f"the warning: {page.text('warning')!r}")
    compare_check(page, program, path, image, numbers)
    page.do("document.querySelector('#found button').click()")
    compare_list(page, program, path, numbers=NUMBERS)
    same("the warning", page.text("warning"), "")


def a_dump_with_two_volumes(page, program):
    first = made(program)
    second = program.made(["512", "8192", "6", "0", "plain"], {"b": b"bytes" * 99})
    path = program.file(noise(8192) + first + b"\xff" * 4096 + second + noise(5000), "dump")
    page.open(path)
    lines = compare_found(page, program, path)
    compare_all(page, program, path, at=8192)
    at = 8192 + len(first) + 4096
    place = next(i for i, line in enumerate(lines) if line.startswith(f"at {at} page 512 block 8192 blocks 6 "))
    page.do(f"document.querySelectorAll('#found button')[{place}].click()")
    compare_all(page, program, path, at=at)
    page.read(NUMBERS, at=999999999)
    same("what is told of a first byte that isn't there", page.listed(), (None, ["the first byte isn't a number of a byte of this file"]))


def many_pages(page, program):
    # (256 pages of a block stand in four rows)
    numbers = ["256", "65536", "16", "0", "len"]
    path = program.file(program.made(numbers, {f"f{i}": noise(i * 1500, i) for i in range(25)}))
    page.open(path)
    compare_found(page, program, path)
    _, image, numbers = compare_list(page, program, path)
    compare_picture(page, image, numbers)
    compare_check(page, program, path, image, numbers)


def a_dropped_file(page, program):
    path = program.file(made(program))
    page.open(path, drops=True)
    compare_list(page, program, path)


def memory_is_given_back(page, program):
    """Each image has a worker of its own, which ends with it."""
    image = made(program)
    path = program.file(image + b"\xff" * 24_000_000, "large")
    held = []
    for _ in range(8):
        page.open(path)
        page.click("check")
        same("workers", page.browser.workers(1), 1)
        held.append(page.browser.memory())
    if max(held[4:]) > held[1] + 150_000_000:
        raise Bad(f"bytes that are held after each image: {held}")


def a_look_is_stopped(page, program):
    large, small = program.file(noise(50_000_000), "large"), program.file(made(program))
    page.browser.choose("#file", large)
    page.browser.wait("!document.getElementById('stop').hidden")
    page.click("stop")
    same("the state", page.text("state"), "Stopped. Open the file once more to go on.")
    same("workers", page.browser.workers(0), 0)
    page.open(small)
    compare_list(page, program, small)


def many_files(page, program):
    """A thousand rows are shown, and more of them as they are asked for."""
    image, pages = Image(200), (block * 16 + i for block in range(200) for i in range(1, 16))
    for ident in range(1, 2501):
        image.put(next(pages), 0x8000 | ident, word(0x8000 | ident) + word(0) + b"\xf8" + b"\xff" * 7 + b"\x01" + (b"f%d" % ident).ljust(32, b"\0"))
    path = program.file(bytes(image.bytes))
    page.open(path)
    _, lines = program.give("list", "256", "4096", "200", "0", "len", path)
    same("the number of files", len(lines), 2500)
    for shown in (1000, 2000):
        same("the first rows", page.browser.value(ROWS), lines[:shown])
        page.click("more")
    compare_list(page, program, path)
    same("whether more is offered", page.browser.value("document.getElementById('more').hidden"), True)


def many_candidates(page, program):
    """Rows of three blocks without the magic of a length, each of several sizes of page."""
    image = bytearray(b"\xff" * (60 * 16384))
    for group in range(60):
        for block in range(3):
            for size in (128, 256, 512, 1024):
                end = group * 16384 + block * 4096 + size
                image[end - 4 : end - 2] = word(0x0529 ^ size)
    path = program.file(bytes(image))
    _, lines = program.give("detect", path)
    if len(lines) <= 100:
        raise Bad(f"{len(lines)} candidates are too few for this case")
    page.open(path)
    same("detect", page.found(), [*lines[:100], f"and {len(lines) - 100} more"])
    compare_list(page, program, path)


def what_breaks_is_told(page, program):
    """A worker that fails is ended, and the next image is opened as any."""
    path = program.file(made(program))
    page.open(path)
    page.browser.value("void open.session.ask('no such thing')")
    page.browser.wait(IDLE)
    if not page.text("state").startswith("This image can't be read here: TypeError"):
        raise Bad(page.text("state"))
    same("workers", page.browser.workers(0), 0)
    page.open(path)
    compare_all(page, program, path)


def a_file_that_is_too_large(page, program):
    path = program.file(b"", "huge")
    os.truncate(path, 256 * 1024 * 1024 + 1)
    page.open(path)
    same("the state", page.text("state"), "huge has more than 268435456 bytes")


CASES = [a_made_image, an_image_as_spiffsgen_lays_it_out, names_and_bytes_of_all_sorts, a_file_of_a_hostile_name, random_bytes, a_torn_image,
         an_image_that_is_cut_off, a_wrong_meta, a_dump_with_two_volumes, many_pages, a_dropped_file, memory_is_given_back, a_look_is_stopped,
         many_files, many_candidates, what_breaks_is_told, a_file_that_is_too_large]

# How a page is broken: what, in which part, the old text, the new text, and the case that has to fail.
WRONG = [
    ("a name is shown as HTML", "page.js", "cell.textContent = file[part]", "cell.innerHTML = file[part]", names_and_bytes_of_all_sorts),
    ("a file's bytes are shown as HTML", "page.js", 'el("view-bytes").textContent =', 'el("view-bytes").innerHTML =', names_and_bytes_of_all_sorts),
    ("the file's own name is shown as HTML", "page.js", 'el("state").textContent = `${open.name}, ${open.size} bytes`;',
     'el("state").innerHTML = `${open.name}, ${open.size} bytes`;', a_file_of_a_hostile_name),
    ("id and size change places", "page.js", "const [id, type, bytes, name]", "const [bytes, type, id, name]", a_made_image),
    ("damaged ids aren't shown", "page.js", 'line.startsWith("damaged ")', "false", a_torn_image),
    ("the closing line isn't shown", "page.js", 'el("closing").textContent = closing', 'el("closing").textContent = ""', random_bytes),
    ("the last byte of a file is left out", "worker.js", "return { status, bytes: answer() };\n  },\n\n  check",
     "return { status, bytes: answer().slice(0, -1) };\n  },\n\n  check", a_made_image),
    ("a page has the colour of its neighbour", "page.js", "pen.fillRect(...at.place(p),", "pen.fillRect(...at.place((p + 1) % count),", a_made_image),
    ("all files have one colour", "page.js", "Math.round(id * 137.508) % 360", "99", a_made_image),
    ("the image is checked, not a copy", "worker.js", 'command(["check", ...numbers], at, true)', 'command(["check", ...numbers], at, false)', a_torn_image),
    ("the list of the copy is that of the image", "page.js", 'onCopy: el("on-copy").checked', "onCopy: false", a_torn_image),
    ("a second candidate isn't shown", "page.js", "lines.slice(0, MOST_FOUND).map(", "lines.slice(0, 1).map(", a_dump_with_two_volumes),
    ("a volume is read from the first byte of the file", "worker.js", "const status = wasm.command(at, onCopy)", "const status = wasm.command(0, onCopy)",
     a_dump_with_two_volumes),
    ("the last image is kept", "page.js", "open.session?.end();", "(window.kept ??= []).push(open.session);", memory_is_given_back),
    ("a look goes on that was stopped", "page.js", "this.worker.terminate();", "", a_look_is_stopped),
]


def run(case, program, module, parts):
    """Runs a case in a browser of its own, and gives what went wrong, if anything did."""
    with tempfile.TemporaryDirectory(prefix="spiffs-try-") as folder:
        url = os.path.join(folder, "spiffs.html")
        pathlib.Path(url).write_text(assemble.page_of(module, parts), encoding="utf-8")
        browser = Browser(f"file://{url}")
        try:
            case(Page(browser), Program(program, folder))
            loads = [it for it in browser.loads if it != f"file://{url}" and not it.startswith("blob:")]
            same("exceptions, dialogs and what was loaded", (browser.exceptions, browser.dialogs, loads), ([], [], []))
        except (Bad, TimeoutError, EOFError, RuntimeError) as why:
            return f"{type(why).__name__}: {why}"
        finally:
            browser.end()
    return None


def unseen(why):
    """What is wrong with a case of a broken page: it has to fail by what the page shows, and not for want of time."""
    return None if why and why.startswith("Bad: ") else why or "it passes"


def tries(asked, module):
    """What is tried: its name, what is wrong with it if anything is, and the seconds that it took."""
    parts = assemble.parts_now()
    for case in CASES if not asked.wrong else ():
        if asked.word in case.__name__.replace("_", " "):
            start = time.monotonic()
            yield case.__name__.replace("_", " "), run(case, asked.program, module, parts), time.monotonic() - start
    for what, part, old, new, case in WRONG if asked.wrong else ():
        if asked.word in what:
            start = time.monotonic()
            count = parts[part].count(old)
            broken = {**parts, part: parts[part].replace(old, new)}
            why = f"its old text stands {count} times" if count != 1 else unseen(run(case, asked.program, module, broken))
            yield f"a broken page: {what}", why, time.monotonic() - start


def main():
    words = argparse.ArgumentParser(description="Tries the page.")
    words.add_argument("--wrong", action="store_true")
    words.add_argument("program", type=os.path.abspath)
    words.add_argument("module", type=pathlib.Path)
    words.add_argument("word", nargs="?", default="")
    asked = words.parse_args()
    passed = failed = 0
    for name, why, took in tries(asked, asked.module.read_bytes()):
        passed, failed = passed + (why is None), failed + (why is not None)
        print(f"ok    {name}, {took:.0f} s" if why is None else f"WRONG {name}, {took:.0f} s: {why}", flush=True)
    print(f"{passed} passed, {failed} failed")
    return 1 if failed else 0


if __name__ == "__main__":
    sys.exit(main())
