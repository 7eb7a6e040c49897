"""The report of a song that was played: which bytes of the image the recording is made of."""
import files
import picture
import survey
from sheet import Sheet, ranges
from texts import STOPS, addresses, count, playing, size, stretches

VOICES = range(8)
SAMPLE = 4
# what the sound chip itself changes: of each voice its envelope and its output, and which voices have come to an end
CHANGED = {**{16 * v + 8: f"ENVX of voice {v}" for v in VOICES}, **{16 * v + 9: f"OUTX of voice {v}" for v in VOICES}, 0x7C: "ENDX"}
# device addresses that can be written only: a read of them is answered as memory
WRITTEN_ONLY = (0xF0, 0xF1, 0xFA, 0xFB, 0xFC)
ECHO_LEFT, ECHO_RIGHT, FLAGS, ECHO_PAGE, ECHO_LENGTH = 0x2C, 0x3C, 0x6C, 0x6D, 0x7D


def echo(sound):
    """The first and last address of the sound chip's echo, and whether the chip plays it or stores to it."""
    first = 256 * sound[ECHO_PAGE]
    used = sound[ECHO_LEFT] or sound[ECHO_RIGHT] or not sound[FLAGS] & 0x20
    return (first, (first + max(2048 * (sound[ECHO_LENGTH] & 15), 4) - 1) & 0xFFFF) if used else None


class PlaySheet(Sheet):
    """A song played, and everything that is said of it."""

    ended_by = "the time"

    def __init__(self, player, image, seconds, edition):
        super().__init__(image, edition)
        self.seconds = seconds
        self.playing = player.play(image, seconds, edition)
        self.part = self.playing.part
        self.ended, self.stop = self.part.registers, self.part.stop
        self.found = {name: survey.marked(map_) for name, map_ in self.maps.items()}

    @property
    def maps(self):
        return {"read": self.part.reads, "stored": self.part.writes, "fetched": self.part.fetched, "made": self.part.made}

    @property
    def sounding(self):
        """The numbers of the samples that may be sounding when the song begins."""
        return sorted({self.image.sound[16 * voice + SAMPLE] for voice in VOICES})

    @property
    def limits(self):
        """What the answer does not cover, each under a name."""
        return {name: words for name, words in (
            ("length", self.length), ("sound", self.changed), ("boot ROM", self.rom), ("devices", self.written_only), ("echo", self.echo),
            ("players", "what a player does beyond this is not known here: docs/REPORT.md says what is taken for granted."),
        ) if words}

    @property
    def length(self):
        if self.stop:
            return f"{STOPS[self.stop]} ended the song: a longer playing gives the same answer."
        return f"the song was played for {self.seconds:,} s: what it would read or fetch later is not among the ranges (--seconds)."

    @property
    def changed(self):
        names = [CHANGED[register] for register in self.part.asked if register in CHANGED]
        return names and (
            f"the song asked the sound chip for {', '.join(names)}. The chip changes that by itself, which is not followed: the song was "
            "given what the file has there, and its way may be another one in a player."
        )

    @property
    def rom(self):
        return self.part.rom and (
            "the song read at FFC0 to FFFF while the boot ROM was on. Its bytes are in no file: the image's own were read, and what "
            "follows is not the recording's own way."
        )

    @property
    def written_only(self):
        read = [at for at in self.part.read if at in WRITTEN_ONLY]
        words = [f"the song read {addresses(read)}, which can only be written: it was given what was stored there last."] if read else []
        words += ["the song stored to 00F0, which changes how the part works: that is not followed."] if 0xF0 in self.part.stored else []
        return " ".join(words)

    @property
    def echo(self):
        found = {echo(sound) for sound in (self.image.sound, self.part.sound)} - {None}
        where = " and ".join(f"{first:04X}-{last:04X}" for first, last in sorted(found))
        return where and (
            f"the sound chip keeps its echo at {where}: it stores there, and plays what stands there, by itself. That is not followed, and "
            "these bytes are not among the ranges unless they were read or fetched otherwise."
        )

    @property
    def done(self):
        return f"Played      edition {self.edition}; {playing(self.playing)}"

    def sizes(self):
        return {name: size(found) for name, found in self.found.items()}

    @property
    def body(self):
        sizes = self.sizes()
        yield f"Samples     {numbers('keyed on', self.part.keyed)}; {numbers('may sound at the start', self.sounding)}"
        yield ""
        yield f"Of the image's {files.MEMORY:,} bytes the recording is made of {sizes['made']:,}"
        for name, called in (("read", "read by the processor"), ("fetched", "fetched by the sound chip")):
            yield f"{sizes[name]:,} {called}, before any store"
            yield from stretches(self.found[name])
        yield "16 devices' own"
        yield from stretches([(0xF0, 0xFF)])
        yield f"Stored to {count(sizes['stored'], 'address', 'addresses')}"
        yield from stretches(self.found["stored"])

    @property
    def told(self):
        return {
            "seconds": self.seconds,
            "cycles": self.part.cycles,
            "steps": self.playing.steps,
            "samples": {"keyed": self.part.keyed, "sounding": self.sounding},
            "sizes": self.sizes(),
            **{{"made": "made_of"}.get(name, name): ranges(found) for name, found in self.found.items()},
            "devices_read": self.part.read,
            "devices_stored": self.part.stored,
            "sound_registers_read": self.part.asked,
            "boot_rom_read": self.part.rom,
        }

    def picture(self):
        return picture.png(self.part.reads, self.part.writes, self.part.fetched)


def numbers(called, found):
    """Samples by their numbers."""
    return f"{called}: {' '.join(f'{number:02X}' for number in found)}" if found else f"none {called}"
