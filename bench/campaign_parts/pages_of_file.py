"""Changes of the bytes of an SQLite file and of its log, by the format's places: headers, cells, pointers to pages, frames."""
import struct

LIMITS = [0, 1, 2, 3, 5, 10, 13, 100, 127, 128, 255, 256, 511, 512, 4_095, 4_096, 32_767, 32_768, 65_535]
HEAD = 100
LOG_HEAD, FRAME = 32, 24
PAGE_SIZES = [512 << it for it in range(8)]


def page_size(data):
    size = int.from_bytes(data[16:18], 'big')
    return {1: 65_536}.get(size, size) or 4_096


def page_number(by, data):
    """A page's number: one that is there, most of the time."""
    count = max(1, len(data) // page_size(data))
    return by.choice([by.randint(1, count)] * 4 + [0, count + 1, 2 ** 31 - 1, 2 ** 32 - 1])


def start_of(by, data):
    """The place of a page, and of the header of its tree there."""
    size = page_size(data)
    page = by.randrange(max(1, len(data) // size))
    return page * size, page * size + (HEAD if page == 0 else 0)


def put(data, at, text):
    return data[:at] + text + data[at + len(text):] if at + len(text) <= len(data) else data


def in_header(by, data):
    at = by.choice([by.randrange(HEAD), 16, 18, 19, 20, 21, 28, 32, 36, 40, 44, 52, 56, 60, 62, 68, 92, 96])
    return put(data, at, by.choice([bytes([by.randrange(256)]), struct.pack('>I', by.choice([0, 1, 2, 3, page_number(by, data)]))]))


def in_tree_header(by, data):
    _, head = start_of(by, data)
    at = by.choice([0, 1, 3, 5, 7])
    return put(data, head + at, by.choice([bytes([by.choice([0, 2, 5, 10, 13, 255])]), struct.pack('>H', by.choice(LIMITS))]))


def in_pointers(by, data):
    """A pointer to a cell, or to a page behind the tree's header."""
    _, head = start_of(by, data)
    if by.random() < 0.4:
        return put(data, head + 8, struct.pack('>I', page_number(by, data)))
    return put(data, head + by.choice([8, 12]) + 2 * by.randrange(8),
               struct.pack('>H', by.choice([*LIMITS, by.randrange(page_size(data))])))


def in_cell(by, data):
    """The bytes with which a cell begins: lengths, numbers, pointers to pages."""
    page, head = start_of(by, data)
    count = int.from_bytes(data[head + 3:head + 5], 'big')
    places = head + (12 if data[head:head + 1] in (b'\2', b'\5') else 8)
    at = places + 2 * by.randrange(min(count, 200) or 1)
    cell = page + int.from_bytes(data[at:at + 2], 'big')
    return put(data, cell + by.randrange(12), by.choice([by.randbytes(1), b'\xff' * 9, b'\x80' * 8 + b'\x01', b'\0', b'\x7f',
                                                         struct.pack('>I', page_number(by, data))]))


def in_overflow(by, data):
    """The first bytes of a page, which in a page of overflow or of the free list name the next one."""
    page, _ = start_of(by, data)
    return put(data, page, struct.pack('>I', page_number(by, data)))


def at_end_of_cell(by, data):
    """A page's number near the end of a page, where cells name their overflow."""
    page, _ = start_of(by, data)
    return put(data, page + by.randrange(page_size(data) - 4), struct.pack('>I', page_number(by, data)))


def anywhere(by, data):
    return put(data, by.randrange(len(data)), by.randbytes(by.choice([1, 1, 4, 40])))


def in_schema(by, data):
    at = data.find(b'CREATE TABLE kept')
    return put(data, at + by.randrange(80), by.choice([b' ', b'x', b'(', b'kind', b'BLOB', b'\0', b'\xff', b'--',
                                                       b'/*'])) if at > 0 else anywhere(by, data)


def page_over_page(by, data):
    size = page_size(data)
    one, other = start_of(by, data)[0], start_of(by, data)[0]
    return put(data, one, data[other:other + size])


def shorter(by, data):
    return data[:by.choice([by.randrange(len(data)), by.randrange(len(data) // page_size(data) + 1) * page_size(data)])]


def longer(by, data):
    return data + by.choice([bytes(page_size(data)), by.randbytes(100), data[-page_size(data):]])


DAMAGES = [in_header, in_tree_header, in_tree_header, in_pointers, in_pointers, in_cell, in_cell, in_cell, in_overflow, at_end_of_cell,
           anywhere, in_schema, page_over_page, shorter, longer]


def summed(data, sums, order):
    """The sums of a log over these bytes, from those before."""
    one, two = sums
    words = struct.unpack(f'{order}{len(data) // 4}I', data)
    for first, second in zip(words[::2], words[1::2]):
        one = (one + first + two) & 0xffffffff
        two = (two + second + one) & 0xffffffff
    return one, two


def committed(log):
    """The part of a log that has its commits: up to the last frame of right sums that ends one, and nothing where there is none."""
    end, at = 0, LOG_HEAD + FRAME
    if len(log) < at or log[:4] not in (b'\x37\x7f\x06\x82', b'\x37\x7f\x06\x83'):
        return b''
    order, size = '><'[log[3] == 0x82], int.from_bytes(log[8:12], 'big')
    sums = summed(log[:24], (0, 0), order)
    if sums != struct.unpack('>2I', log[24:32]) or size not in PAGE_SIZES:
        return b''
    while at + size <= len(log) and log[at - 16:at - 8] == log[16:24]:
        sums = summed(log[at:at + size], summed(log[at - FRAME:at - 16], sums, order), order)
        if sums != struct.unpack('>2I', log[at - 8:at]):
            break
        end = at + size if log[at - 20:at - 16] != bytes(4) else end
        at += size + FRAME
    return log[:end]


def log_of(by, pages, size, order='>'):
    """A log of these pages, by number, as one commit with right sums."""
    salts = by.randbytes(8)
    head = struct.pack('>4I', 0x377f0683 if order == '>' else 0x377f0682, 3_007_000, size, by.randrange(9)) + salts
    sums = summed(head, (0, 0), order)
    log = head + struct.pack('>2I', *sums)
    last = max(pages, default=1)
    for place, (number, page) in enumerate(pages.items()):
        first = struct.pack('>2I', number, last if place == len(pages) - 1 else 0)
        sums = summed(page, summed(first, sums, order), order)
        log += first + salts + struct.pack('>2I', *sums) + page
    return log


def damaged(by, data):
    """The bytes of a file with one to three damages, and their names."""
    done = []
    for _ in range(by.choice([1, 1, 1, 2, 3])):
        if len(data) < 512:
            break
        damage = by.choice(DAMAGES)
        data = damage(by, data)
        done.append(damage.__name__)
    return data, done


def damaged_log(by, data, log):
    """A log with damages: in its bytes, cut, or of damaged pages under right sums."""
    kind = by.random()
    if kind < 0.3 and log:
        return log[:by.randrange(len(log) + 1)], ['log cut']
    if kind < 0.5 and log:
        at = by.choice([by.randrange(len(log)), by.randrange(32), 32 + by.randrange(FRAME)])
        return put(log, at, by.randbytes(by.choice([1, 4]))), ['log changed']
    if kind < 0.55:
        return by.randbytes(by.choice([1, 31, 32, 33, 5_000])), ['log random']
    size = page_size(data)
    other, done = damaged(by, data)
    pages = {at // size + 1: other[at:at + size] for at in range(0, len(other),
                                                                 size) if other[at:at + size] != data[at:at + size] or by.random() < 0.2}
    return log_of(by, {number: page.ljust(size, b'\0') for number, page in pages.items()}, size, by.choice('><')), ['log of', *done]
