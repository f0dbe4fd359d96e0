"""Images of volumes, made by hand: with pages of 256 bytes and blocks of 4,096, if nothing else is said."""

import random

PAGE, BLOCK = 256, 4096
PER_BLOCK = BLOCK // PAGE
LOOKUPS = 1
ENTRIES = PER_BLOCK - LOOKUPS
BODY = PAGE - 5
HEAD_SLOTS = (PAGE - 45) // 2
SPAN_SLOTS = (PAGE - 8) // 2


def word(number):
    return number.to_bytes(2, "little")


def index_pages(count):
    """Index pages of a file of so many data pages."""
    return 1 if count <= HEAD_SLOTS else 1 + -(-(count - HEAD_SLOTS) // SPAN_SLOTS)


class Image:
    """An image of a volume that is filled page by page."""

    def __init__(self, blocks, page=PAGE, size=BLOCK):
        self.blocks = blocks
        self.bytes = bytearray(b"\xff" * (blocks * size))
        for block in range(blocks):
            magic = (0x0529 ^ page ^ (blocks - block)) & 0xFFFF
            end = block * size + LOOKUPS * page
            self.bytes[end - 4 : end] = word(magic) + word(0)

    def put(self, page, entry, content):
        block, place = divmod(page, PER_BLOCK)
        at = block * BLOCK + 2 * (place - LOOKUPS)
        self.bytes[at : at + 2] = word(entry)
        self.bytes[page * PAGE : page * PAGE + len(content)] = content


def header(ident, size, name, slots):
    field = size.to_bytes(4, "little") if size else b"\xff" * 4
    head = word(0x8000 | ident) + word(0) + b"\xf8" + b"\xff" * 3 + field + b"\x01"
    return head + name.ljust(32, b"\0") + b"".join(word(slot) for slot in slots)


def further(ident, span, slots):
    return word(0x8000 | ident) + word(span) + b"\xf8" + b"\xff" * 3 + b"".join(word(slot) for slot in slots)


def pages_of(blocks):
    """The entry pages of some blocks, in order."""
    return (block * PER_BLOCK + LOOKUPS + place for block in blocks for place in range(ENTRIES))


def in_a_row(blocks, files, each):
    """The image of a volume of so many files of so many data pages, named file1, file2 and so on, as tools that make images write them: each
    header page stands before the data pages of its file, and all pages stand in a row."""
    image = Image(blocks)
    pages = pages_of(range(blocks))
    for number in range(1, files + 1):
        head, *slots = [next(pages) for _ in range(1 + each)]
        image.put(head, 0x8000 | number, header(number, each * BODY, b"file%d" % number, slots))
        for span, page in enumerate(slots):
            image.put(page, number, word(number) + word(span) + b"\xfc" + bytes(BODY))
    return image


def blocks_for(files, each):
    """How many blocks of index pages, and how many of data pages, so many files of so many data pages take."""
    return -(-files * index_pages(each) // ENTRIES), -(-files * each // ENTRIES)


def shuffled(numbers):
    """The numbers in an order that is the same each time."""
    numbers = list(numbers)
    random.Random(len(numbers)).shuffle(numbers)
    return numbers


def filled(blocks, files, each, index_at="spread", ids_in_order=True):
    """The image of a volume of so many files of so many data pages, named file1, file2 and so on, and the lines of its
    listing. Bytes behind the end of a file are 0xFF. The blocks of index pages lie spread among those of data pages, as on a
    volume that has been written for long, or "first", before these, or "last", behind them; the blocks behind all are free, two
    at least. The pages of the files lie in the order of their ids, or in that of `shuffled`."""
    image = Image(blocks)
    count, rest = blocks_for(files, each)
    used = count + rest
    assert used <= blocks - 2
    places = {"spread": [i * used // count for i in range(count)], "first": range(count), "last": range(used - count, used)}
    index_blocks = places[index_at]
    index = pages_of(index_blocks)
    data = pages_of(sorted(set(range(used)) - set(index_blocks)))
    lines = {}
    ids = range(1, files + 1)
    for ident in ids if ids_in_order else shuffled(ids):
        size = max(0, each * BODY - ident % 7)
        slots = []
        for span in range(each):
            page = next(data)
            image.put(page, ident, word(ident) + word(span) + b"\xfc" + bytes([ident % 256]) * min(BODY, size - span * BODY))
            slots.append(page)
        name = b"file%d" % ident
        for span in range(index_pages(each)):
            page = next(index)
            if span == 0:
                image.put(page, 0x8000 | ident, header(ident, size, name, slots[:HEAD_SLOTS]))
            else:
                first = HEAD_SLOTS + (span - 1) * SPAN_SLOTS
                image.put(page, 0x8000 | ident, further(ident, span, slots[first : first + SPAN_SLOTS]))
        lines[ident] = b"%d 1 %d %s\n" % (ident, size, name)
    return bytes(image.bytes), b"".join(lines[ident] for ident in ids)
