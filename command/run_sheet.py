"""The report of a run on plain memory."""
import files
import picture
import survey
from sheet import Sheet, ranges
from texts import STOPS, addresses, count, ending, stretches


class RunSheet(Sheet):
    """A run of an image, and everything that is said of it."""

    ended_by = STOPS[0]

    def __init__(self, audit, image, steps, edition):
        super().__init__(image, edition)
        self.budget = steps
        self.run = audit.run(image, steps, edition)
        self.ended, self.stop = self.run.answer.registers, self.run.answer.stop
        self.made_of = survey.marked(self.run.answer.reads)
        self.stored = survey.marked(self.run.answer.writes)

    @property
    def counts(self):
        """How many addresses are untouched, read only, stored only, and both."""
        read, stored, both = self.run.answer.counts
        return files.MEMORY - read - stored - both, read, stored, both

    @property
    def limits(self):
        """What the answer does not cover, each under a name."""
        devices = self.run.answer.devices
        return {
            "length": (
                f"{STOPS[self.stop]} ended the run, and a larger budget gives the same answer."
                if self.stop else
                f"the run ended when {count(self.budget, 'step was', 'steps were')} spent: a longer one may read and store more (--steps)."
            ),
            "devices": (
                f"{addresses(devices)} {'was' if len(devices) == 1 else 'were'} read as plain memory. A player has ports, timers and a "
                "sound chip there, which answer otherwise, so what follows such a read is not the recording's own way"
                f"{': --seconds plays the song.' if self.image.is_spc else '.'}"
                if devices else
                "none of 00F0 to 00FF was read: no answer of a port, a timer or the sound chip has a part in this run."
            ),
            "samples": "the sound chip fetches samples by itself. No step reads them, so they are not among the ranges.",
        }

    @property
    def done(self):
        return f"The run     edition {self.edition}; {ending(self.run)}"

    @property
    def body(self):
        untouched, read, stored, both = self.counts
        yield f"Addresses   {read:,} read only, {stored:,} stored only, {both:,} both, {untouched:,} untouched"
        yield ""
        yield f"Made of {count(read + both, 'byte', 'bytes')}: what it read before any store"
        yield from stretches(self.made_of)
        yield f"Stored to {count(stored + both, 'address', 'addresses')}"
        yield from stretches(self.stored)

    @property
    def told(self):
        untouched, read, stored, both = self.counts
        return {
            "budget": self.budget,
            "steps": self.run.steps,
            "addresses": {"read_only": read, "stored_only": stored, "both": both, "untouched": untouched},
            "made_of": ranges(self.made_of),
            "stored": ranges(self.stored),
            "devices_read": self.run.answer.devices,
        }

    @property
    def maps(self):
        return {"read": self.run.answer.reads, "stored": self.run.answer.writes}

    def picture(self):
        return picture.png(self.run.answer.reads, self.run.answer.writes)
