"""What every report has: the file, its tags, the registers before and after, ranges, and what the answer does not cover."""
from tags import tags
from texts import STOPS, registers, under


class Sheet:
    """A report of a file. What was done with it is told by the classes that are made of this one, in `done`, `body` and `limits`, and for
    programs in `told`."""

    def __init__(self, image, edition):
        self.image, self.edition = image, edition
        self.tags = tags(image)

    @property
    def lines(self):
        """The report for people."""
        yield f"{self.image.name}: {self.image.described}"
        yield from (f"  {name:<10} {value}" for name, value in self.tags.items())
        yield ""
        yield f"Began with  {registers(self.image.registers)}"
        yield f"Ended with  {registers(self.ended)}"
        yield self.done
        yield from self.body
        yield ""
        yield "Not covered by this answer"
        yield from (under(name, words) for name, words in self.limits.items())

    @property
    def described(self):
        """The same for programs."""
        return {
            "file": self.image.name,
            "kind": "SPC file" if self.image.is_spc else "state record",
            "bytes": len(self.image.data),
            "bytes_behind": len(self.image.behind),
            "tags": self.tags,
            "edition": self.edition,
            "began": named(self.image.registers),
            "ended": named(self.ended),
            "stop": self.stop,
            "ended_by": STOPS[self.stop] if self.stop else self.ended_by,
            **self.told,
            "not_covered": self.limits,
        }


def named(seven):
    """Registers by their names."""
    a, x, y, sp, low, high, psw = seven[:7]
    return {"A": a, "X": x, "Y": y, "SP": sp, "PC": 256 * high + low, "PSW": psw}


def ranges(found):
    """Ranges of addresses, for programs."""
    return [{"first": first, "last": last, "size": last - first + 1} for first, last in found]
