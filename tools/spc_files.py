"""SPC files for the scripts that make some: a header with tags, the memory, the sound registers, and a chunk of tags behind."""
SIGNATURE = b"SNES-SPC700 Sound File Data v0.30"
# where the header has a tag, and how many bytes it may take; the date, the lengths and the artist as the form with texts has them
TAGS = {
    "title": (46, 32), "game": (78, 32), "dumper": (110, 16), "comments": (126, 32), "date": (158, 11), "seconds": (169, 3),
    "fade": (172, 5), "artist": (177, 32),
}
NAMED_BEHIND = {"title": 0x01, "game": 0x02, "artist": 0x03, "dumper": 0x04, "comments": 0x07, "publisher": 0x13}


def spc_file(record, tags=None, sound=bytes(128), behind=b""):
    """An SPC file of what a state record holds. Tags are bytes; without any the header says that there are none."""
    a, x, y, sp, low, high, psw = record[:7]
    header = bytearray(256)
    header[:37] = SIGNATURE + bytes([26, 26, 27 if tags is None else 26, 30])
    header[37:44] = bytes([low, high, a, x, y, psw, sp])
    for name, value in (tags or {}).items():
        at, most = TAGS[name]
        if len(value) > most:
            raise ValueError(f"{name} has more than {most} bytes")
        header[at:at + len(value)] = value
    return bytes(header) + record[7:] + sound + bytes(128) + behind


def piece(what, data):
    """A piece of the chunk that holds bytes: its length, and the bytes, filled up to a multiple of four."""
    return bytes([what, 1]) + len(data).to_bytes(2, "little") + data + bytes(-len(data) % 4)


def short_piece(what, number):
    """A piece that is a number of two bytes."""
    return bytes([what, 0]) + number.to_bytes(2, "little")


def chunk(*pieces):
    """The tags that stand behind a file."""
    body = b"".join(pieces)
    return b"xid6" + len(body).to_bytes(4, "little") + body
