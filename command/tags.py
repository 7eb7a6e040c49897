"""The song's tags: those in an SPC file's header (ID666, in text or in numbers) and those behind its 66,048 bytes (a chunk `xid6`)."""
from files import SPC

HAS_TAGS = 26
# where the header has its tags; behind the comments the two forms differ
TITLES = (("title", 46, 32), ("game", 78, 32), ("dumper", 110, 16), ("comments", 126, 32))
IN_TEXT, IN_NUMBERS = ("artist", 177, 32), ("artist", 176, 32)
TEXTS = {
    0x01: "title", 0x02: "game", 0x03: "artist", 0x04: "dumper", 0x07: "comments", 0x10: "soundtrack", 0x13: "publisher",
}
NUMBERS = {0x05: "date", 0x06: "emulator", 0x11: "disc", 0x12: "track", 0x14: "year", 0x34: "muted voices", 0x35: "loops", 0x36: "level"}
LENGTHS = {0x30: "intro", 0x31: "loop", 0x32: "end", 0x33: "fade"}
TICKS_A_SECOND = 64000


def readable(data):
    """Bytes up to the first zero as a text: UTF-8, or else Japanese, or else Latin. What would move a terminal's cursor is replaced."""
    data = bytes(data).split(b"\0")[0]
    for encoding in ("utf-8", "cp932", "latin-1"):
        try:
            text = data.decode(encoding)
            break
        except UnicodeDecodeError:
            continue
    return "".join(c if c.isprintable() else "\ufffd" for c in text).strip()


def digits(data):
    """The number that a field of digits holds, filled up with zeros or blanks; nothing where it holds something else."""
    text = bytes(data).split(b"\0")[0].strip()
    return int(text) if text.isdigit() else 0 if not text else None


def seconds(value):
    """A length in words."""
    minutes, rest = divmod(value, 60)
    return (f"{minutes:.0f} min " if minutes else "") + f"{rest:g} s"


def in_text(header):
    """Whether the header's date, length and fade are in text, rather than in numbers: both are in use, and nothing says which it is."""
    date = bytes(header[158:169]).rstrip(b"\0 ")
    texts = digits(header[169:172]) is not None and digits(header[172:177]) is not None
    plain = all(chr(c) in "0123456789/-. " for c in date)
    # where all of it is empty the artist tells, who begins a byte earlier in the form with numbers
    return texts and plain and (any(header[158:176]) or not header[176])


def from_header(header):
    """The tags in the first 256 bytes of a file."""
    if header[35] != HAS_TAGS:
        return {}
    text = in_text(header)
    if text:
        date = readable(header[158:169])
        length, fade = digits(header[169:172]), digits(header[172:177])
    else:
        day, month, year = header[158], header[159], int.from_bytes(header[160:162], "little")
        date = f"{year:04}-{month:02}-{day:02}" if year else ""
        length, fade = (int.from_bytes(header[at:at + n], "little") for at, n in ((169, 3), (172, 4)))
    found = {name: readable(header[at:at + n]) for name, at, n in TITLES + (IN_TEXT if text else IN_NUMBERS,)}
    found.update(date=date, length=seconds(length) if length else "", fade=seconds(fade / 1000) if fade else "")
    return {name: value for name, value in found.items() if value}


def pieces(body):
    """The pieces of a chunk, as far as they are whole: what each is, its short number, and its bytes."""
    at = 0
    while at + 4 <= len(body):
        what, kind, short = body[at], body[at + 1], int.from_bytes(body[at + 2:at + 4], "little")
        at += 4
        data = body[at:at + short] if kind else b""
        if len(data) < short and kind:
            return
        yield what, short, data
        at += (len(data) + 3) // 4 * 4


def value_of(what, short, data):
    """A piece's name and what it says; nothing where it is none that is known."""
    number = int.from_bytes(data, "little") if data else short
    if what in TEXTS:
        return TEXTS[what], readable(data)
    if what in NUMBERS:
        return NUMBERS[what], str(number)
    if what in LENGTHS:
        return LENGTHS[what], seconds(number / TICKS_A_SECOND)
    return None


def from_chunk(behind):
    """The tags behind a file's 66,048 bytes."""
    if behind[:4] != b"xid6" or len(behind) < 8:
        return {}
    length = int.from_bytes(behind[4:8], "little")
    named = (value_of(*piece) for piece in pieces(behind[8:8 + length]))
    return {pair[0]: pair[1] for pair in named if pair and pair[1]}


def tags(image):
    """All tags of an image, by their names. The chunk holds what the header has no room for, so it goes first where both have one."""
    if not image.is_spc:
        return {}
    return {**from_header(image.data[:SPC]), **from_chunk(image.behind)}
