"""A picture of what a run or a playing read and stored, and of what the sound chip fetched: a square for each address, a row of 256 for
each page, with a legend; as a PNG file."""
import struct
import zlib

# Colours that are told apart by their lightness, too, so that every eye and a grey printer tell them apart. A square's colour is its number
# here: 1 where the address was read, 2 where it was stored to, 3 where both; in a playing 4 where the sound chip alone fetched it, 5 where
# it was read or stored to as well, 6 at the devices' addresses.
COLOURS = (
    (0xE2, 0xE2, 0xE2), (0x00, 0x72, 0xB2), (0xE6, 0x9F, 0x00), (0x00, 0x00, 0x00), (0x2F, 0xB0, 0x80), (0x6A, 0x1B, 0x6A),
    (0xB8, 0xB8, 0xB8), (0xFF, 0xFF, 0xFF), (0x40, 0x40, 0x40),
)
NAMES = ("untouched", "read only", "stored only", "both", "fetched only", "fetched too", "devices")
FETCHED, FETCHED_TOO, DEVICES, PAPER, INK = 4, 5, 6, 7, 8
CELL, LEFT, TOP, RIGHT, BOTTOM = 4, 40, 28, 20, 20
# four of the names to a line below the map
LINE, A_LINE = 32, 4
SIDE = 256 * CELL
WIDTH = LEFT + SIDE + RIGHT
# five columns a sign, each seven dots from top to bottom, the top one in the bit of value 1
SIGNS = {
    "0": "3E5149453E", "1": "00427F4000", "2": "4261514946", "3": "2141454B31", "4": "1814127F10", "5": "2745454539", "6": "3C4A494930",
    "7": "0171090503", "8": "3649494936", "9": "064949291E", "A": "7E1111117E", "B": "7F49494936", "C": "3E41414122", "D": "7F4141221C",
    "E": "7F49494941", "F": "7F09090901", "a": "2054545478", "b": "7F48444438", "c": "3844444420", "d": "384444487F", "e": "3854545418",
    "f": "087E090102", "h": "7F08040478", "i": "00447D4000", "l": "00417F4000", "n": "7C08040478", "o": "3844444438", "r": "7C08040408",
    "s": "4854545420", "t": "043F444020", "u": "3C4040207C", "v": "1C2040201C", "y": "0C5050503C", ",": "0050300000", " ": "0000000000",
}
SIGN = 2


def write(rows, x, y, text):
    """Writes a text into rows of dots, its upper left corner at a place."""
    for i, sign in enumerate(text):
        for column, dots in enumerate(bytes.fromhex(SIGNS[sign])):
            for row in range(7):
                if dots >> row & 1:
                    fill(rows, x + (6 * i + column) * SIGN, y + row * SIGN, SIGN, INK)


def fill(rows, x, y, side, colour):
    """A square of one colour."""
    for row in rows[y:y + side]:
        row[x:x + side] = bytes([colour]) * side


def colour(read, stored, fetched):
    """The colour of an address by what was done there."""
    touched = read + 2 * stored
    return (FETCHED_TOO if touched else FETCHED) if fetched else touched


def squares(reads, writes, fetched):
    """The colours of all addresses."""
    for at, marks in enumerate(zip(reads, writes, fetched or bytes(len(reads)))):
        for bit in range(8):
            is_device = fetched and at in (30, 31)
            yield DEVICES if is_device else colour(*(byte >> bit & 1 for byte in marks))


def drawn(found, names):
    """The rows of dots: the map, the addresses beside it, and the legend with how many addresses there are of each kind."""
    lines = -(-len(names) // A_LINE)
    rows = [bytearray([PAPER]) * WIDTH for _ in range(TOP + SIDE + LINE * lines + BOTTOM)]
    for page in range(256):
        line = bytes(each for square in found[256 * page:256 * page + 256] for each in [square] * CELL)
        for row in rows[TOP + page * CELL:TOP + (page + 1) * CELL]:
            row[LEFT:LEFT + SIDE] = line
    for place in range(0, 256, 16):
        write(rows, LEFT + place * CELL, 8, f"{place:02X}")
        write(rows, 10, TOP + place * CELL, f"{place:02X}")
    for kind, name in enumerate(names):
        x, y = LEFT + kind % A_LINE * SIDE // A_LINE, TOP + SIDE + 18 + kind // A_LINE * LINE
        fill(rows, x, y, 16, kind)
        write(rows, x + 24, y + 1, f"{name} {found.count(kind):,}")
    return rows


def chunk(kind, data):
    """A piece of a PNG file."""
    return struct.pack(">I", len(data)) + kind + data + struct.pack(">I", zlib.crc32(kind + data))


def png(reads, writes, fetched=None):
    """The file. A run fetches nothing, and has no devices."""
    found = bytes(squares(reads, writes, fetched))
    rows = drawn(found, NAMES if fetched else NAMES[:FETCHED])
    dots = b"".join(b"\0" + row for row in rows)
    head = struct.pack(">IIBBBBB", WIDTH, len(rows), 8, 3, 0, 0, 0)
    palette = bytes(value for each in COLOURS for value in each)
    return (
        b"\x89PNG\r\n\x1a\n" + chunk(b"IHDR", head) + chunk(b"PLTE", palette) + chunk(b"IDAT", zlib.compress(dots, 9)) + chunk(b"IEND", b"")
    )
