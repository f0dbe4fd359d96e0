#!/usr/bin/env python3
"""Which volumes a file may hold, best first, by the definitions of `volume_detect` and `volume_rank`, one place after the other.

    detect.py FILE

It prints what `spiffs detect FILE` prints, computed apart from it: every number of blocks is tried, and every META of each volume. It is slow:
a file has few blocks."""

import sys

PAGES = [128 << i for i in range(6)]
BLOCKS = [4096 << i for i in range(7)]
# how many blocks one behind the other may lack their magic
WIDEST_GAP = {"plain": 2, "len": 8}


def word(data, at):
    return data[at] | data[at + 1] << 8


class Volume:
    """A volume at a byte of the file."""

    def __init__(self, data, at, page, block, blocks, kind):
        self.data, self.at, self.page, self.block, self.blocks, self.kind = data, at, page, block, blocks, kind
        self.per_block = block // page
        self.lookups = max(1, self.per_block * 2 // page)

    def is_taken(self):
        entries = self.per_block - self.lookups
        return (
            self.per_block >= 2
            and self.lookups * self.page <= self.block
            and self.blocks >= 3
            and self.blocks * self.per_block <= 65535
            and entries + 2 <= self.lookups * self.page // 2
        )

    def has_magic(self, block):
        magic = 0x0529 ^ self.page ^ (self.blocks - block if self.kind == "len" else 0)
        return word(self.data, self.at + block * self.block + self.lookups * self.page - 4) == magic

    def marks(self):
        """Which blocks have their magic, as text: `x`, or `.` where one lacks it."""
        return "".join("x" if self.has_magic(block) else "." for block in range(self.blocks))

    def spoiled(self):
        return self.marks().count(".")

    def is_bounded(self):
        """It fits into the file, and no gap is too wide."""
        fits = 0 <= self.at and self.at + self.blocks * self.block <= len(self.data)
        return self.is_taken() and fits and "." * (WIDEST_GAP[self.kind] + 1) not in self.marks()

    def is_row(self):
        if not self.is_bounded():
            return False
        marks = self.marks()
        marked = marks.count("x")
        if marks[0] == "." or (self.kind == "len" and marked < 3):
            return marked >= self.blocks - 1
        return True

    def longer(self, more):
        return Volume(self.data, self.at - more * self.block, self.page, self.block, self.blocks + more, self.kind)

    def is_rest(self):
        """It is what is left of a longer row behind a gap, or any part of one."""
        others = (self.longer(more) for more in range(1, self.at // self.block + 1))
        return any(other.is_bounded() and other.has_magic(0) for other in others)

    def page_of(self, number):
        start = self.at + number * self.page
        return self.data[start : start + self.page]

    def live_pages(self):
        live = {}
        for number in range(self.blocks * self.per_block):
            block, place = divmod(number, self.per_block)
            if place < self.lookups or not self.has_magic(block):
                continue
            page = self.page_of(number)
            if word(self.data, self.at + block * self.block + 2 * (place - self.lookups)) == word(page, 0) and is_finished(page):
                live[number] = page
        return live

    def counts(self, live, meta):
        """How many files are whole, and how many ids are damaged."""
        index, heads = {}, {}
        for number, page in sorted(live.items()):
            if word(page, 0) >= 0x8000:
                index.setdefault((word(page, 0) % 0x8000, word(page, 2)), page)
                if word(page, 2) == 0:
                    heads.setdefault(word(page, 0) % 0x8000, number)
        names, whole = set(), 0
        for ident, number in sorted(heads.items(), key=lambda item: item[1]):
            name = self.whole_name(live, index, ident, live[number], meta)
            if name is not None and name not in names:
                names.add(name)
                whole += 1
        return whole, len(heads) - whole

    @staticmethod
    def doubled(live):
        """How many ids have two live header pages or more."""
        heads = [word(page, 0) % 0x8000 for page in live.values() if word(page, 0) >= 0x8000 and word(page, 2) == 0]
        return sum(heads.count(ident) > 1 for ident in set(heads))

    def whole_name(self, live, index, ident, head, meta):
        field = bytes(head[13:45])
        size = word(head, 8) + 65536 * word(head, 10)
        size = 0 if size == 0xFFFFFFFF else size
        if 0 not in field or field[0] == 0:
            return None
        head_slots, span_slots = (self.page - 45 - meta) // 2, (self.page - 8) // 2
        for span in range(-(-size // (self.page - 5))):
            if span < head_slots:
                entry = word(head, 45 + meta + 2 * span)
            else:
                further, slot = divmod(span - head_slots, span_slots)
                page = index.get((ident, further + 1))
                if page is None:
                    return None
                entry = word(page, 8 + 2 * slot)
            page = live.get(entry)
            if page is None or word(page, 0) != ident or word(page, 2) != span:
                return None
        return field[: field.index(0)]


def is_finished(page):
    ident, flags = word(page, 0), page[4]
    if ident % 0x8000 == 0 or ident == 0xFFFF or flags & 3 or not flags & 0x80:
        return False
    if ident >= 0x8000:
        return not flags & 4 and (bool(flags & 0x40) or word(page, 2) != 0)
    return bool(flags & 4)


def volumes(data):
    """The candidates, in order of their places."""
    for at in range(0, len(data) - 4095, 4096):
        for block in BLOCKS:
            for page in PAGES:
                for kind in ("plain", "len"):
                    tried = (Volume(data, at, page, block, blocks, kind) for blocks in range(3, (len(data) - at) // block + 1))
                    rows = [volume for volume in tried if volume.is_row()]
                    if kind == "plain":
                        rows = [volume for volume in rows if volume.has_magic(volume.blocks - 1)][-1:]
                    elif any(volume.has_magic(0) for volume in rows):
                        rows = [volume for volume in rows if volume.has_magic(0)]
                    yield from (volume for volume in rows if not volume.is_rest())


def lines(data):
    found = []
    for place, volume in enumerate(volumes(data)):
        live = volume.live_pages()
        by_meta = [volume.counts(live, meta) for meta in range(65)]
        most = max(whole for whole, _ in by_meta)
        first = next(meta for meta in range(65) if by_meta[meta][0] == most)
        last = first
        while last < 64 and by_meta[last + 1][0] == most:
            last += 1
        damaged = by_meta[first][1]
        metas = f"{first}" if first == last else f"{first}-{last}"
        line = (
            f"at {volume.at} page {volume.page} block {volume.block} blocks {volume.blocks} meta {metas}"
            f" magic {volume.kind} files {most} damaged {damaged}"
        )
        spoiled = volume.spoiled()
        line += f" spoiled {spoiled}" if spoiled > 1 else ""
        doubled = volume.doubled(live)
        line += f" doubled {doubled}" if doubled > 1 else ""
        found.append((-most, max(spoiled, 1), damaged, place, line))
    return [found_line for *_, found_line in sorted(found)]


def main():
    with open(sys.argv[1], "rb") as file:
        told = lines(file.read())
    for line in told:
        print(line)
    return 0 if told else 3


if __name__ == "__main__":
    sys.exit(main())
