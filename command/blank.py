"""`blank`: the file with every address blanked of which its recording, or a run of it, is not made, and that no kept map marks."""
import beside
import files
import outputs
import survey
from audit import Audit
from ends import BadArgument, Refused
from play import Player
from programs import build
from report import MANY_SECONDS, MANY_STEPS, check_length, is_played
from texts import addresses, count, ending, playing, size, wrapped
from words import BYTE, FLAG, SECONDS, STEPS, Each, Edition, Name, sorted_out

OPTIONS = {
    "--with": BYTE, "--keep": Each(Name()), "--seconds": SECONDS, "--steps": STEPS, "--edition": Edition(), "--force": FLAG,
}


def alike(one, other):
    """Whether two runs answer alike: the same steps, stop, registers, maps and device reads, and no stored byte that differs."""
    first, second = one.answer, other.answer
    told = [(run.steps, run.answer.stop, run.answer.registers, run.answer.reads, run.answer.writes) for run in (one, other)]
    return told[0] == told[1] and first.devices == second.devices and not survey.touches(first.writes, first.memory, second.memory)


class Blanked:
    """A file blanked by a map of what is to stay, and the words that tell of it."""

    def __init__(self, image, answer, byte, maps, own):
        self.image, self.byte, self.kept_maps, self.own = image, byte, maps, own
        self.blanked, self.whole = answer.blanked, image.with_memory(answer.image)

    def lines(self, out):
        """What was made."""
        kept = files.MEMORY - self.blanked
        maps = count(len(self.kept_maps), "kept map", "kept maps")
        more = f", {kept - self.own:,} of them only for {maps}" if self.kept_maps else ""
        yield f"{out}: {self.blanked:,} addresses hold {self.byte:02X}, {kept:,} keep their byte{more}"
        if self.image.is_spc:
            yield wrapped("All else in the file stays: header, registers, sound registers, the 64 bytes under the boot ROM, tags.")

    def put(self, out):
        """Writes the file, and reads it back."""
        outputs.put(out, self.whole)
        if outputs.is_plain(out) and files.image(out).data != self.whole:
            raise Refused(f"'{out}' does not hold what was written: it is not to be handed out")


def of_run(audit, image, out, options, byte, maps):
    """A file blanked by a run of it on plain memory, which is then made again on what was written."""
    steps, edition = options.get("steps", MANY_STEPS), options.get("edition", 1)
    run = audit.run(image, steps, edition, byte, audit.together(maps))
    read, _, both = run.answer.counts
    blanked = Blanked(image, run.answer, byte, maps, read + both)
    if not alike(run, audit.run(files.Image(out, blanked.whole), steps, edition)):
        raise Refused(f"'{out}' would not answer as '{image.name}' does: it is not written")
    blanked.put(out)
    yield f"The run     edition {edition}; {ending(run)}"
    yield f"Made of     {count(read + both, 'byte', 'bytes')}, read before any store"
    yield from blanked.lines(out)
    yield wrapped("Both were run and answer alike: the same steps, end, registers and maps, and equal bytes wherever a step stored.")
    yield wrapped(" ".join(promise(run.answer.devices)))


def promise(devices):
    """What a file that was blanked by a run is good for, and what not."""
    yield "That holds of this processor, run this way: the same registers, edition and budget, on plain memory."
    if devices:
        yield f"The run read {addresses(devices)}, where a player has ports, timers and a sound chip: a player goes another way."
    yield "That a player sounds alike is not promised: it needs the samples, too, and all that its own way reads (--keep MAP)."


def of_playing(audit, image, out, options, byte, maps):
    """A file blanked by what its recording is made of, played side by side with the file before it is written."""
    seconds, edition = options.get("seconds", MANY_SECONDS), options.get("edition", 1)
    player = Player()
    played = player.play(image, seconds, edition)
    answer = audit.asked(image.memory, image.memory, byte=byte, kept=audit.together([played.part.made, *maps]))
    own = size(survey.marked(played.part.made))
    blanked = Blanked(image, answer, byte, maps, own)
    both = player.beside(image, files.Image(out, blanked.whole), seconds, edition)
    player.end()
    if not beside.is_alike(both):
        where = "\n".join(beside.parting(both))
        raise Refused(f"'{out}' would not be played as '{image.name}' is: it is not written. They part {where}")
    blanked.put(out)
    yield f"Played      edition {edition}; {playing(played)}"
    yield f"Made of     {count(own, 'byte', 'bytes')}: read by the processor, fetched by the sound chip, or the devices' own"
    yield from blanked.lines(out)
    yield f"Side by side with the file: {beside.said(both)}"
    yield wrapped("Compared behind every step: registers, cycle, and each store to a device with its byte.")
    yield wrapped(
        "A player that answers the devices alike, and fetches no more than the samples that are keyed on, sounds alike for that long. "
        "What `report` names as not covered holds here, too."
    )


def blank(words):
    """The command."""
    names, options = sorted_out("blank", words, OPTIONS)
    if len(names) != 2:
        raise BadArgument("blank takes a file and the name of the file to write: tangezult blank FILE OUT")
    check_length(options)
    name, out = names
    keep = options.get("keep", [])
    image, maps = files.image(name), [files.map_in(map_) for map_ in keep]
    played = is_played(image, options)
    outputs.check(out, [name, *keep], "force" in options)
    build(*(("play",) if played else ()), "audit", "survey")
    audit = Audit()
    told = list((of_playing if played else of_run)(audit, image, out, options, options.get("with", 0), maps))
    audit.end()
    print(f"{image.name}: {image.described}")
    print("\n".join(told))
    return 0
