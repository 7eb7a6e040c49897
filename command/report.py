"""`report`: which bytes of an image a recording, or a run of it, is made of, and what that answer does not cover."""
import json

import files
import outputs
from audit import Audit
from ends import BadArgument, Refused
from play import Player
from play_sheet import PlaySheet
from programs import build, say
from run_sheet import RunSheet
from words import FLAG, SECONDS, STEPS, Edition, Name, sorted_out

OPTIONS = {
    "--seconds": SECONDS, "--steps": STEPS, "--edition": Edition(), "--json": FLAG, "--picture": Name(), "--maps": Name(), "--force": FLAG,
}
MANY_STEPS, MANY_SECONDS = 10_000_000, 180
RUN_MAPS, PLAY_MAPS = ("read", "stored"), ("read", "stored", "fetched", "made")


def check_length(options):
    """Ends where both lengths are asked for."""
    if "seconds" in options and "steps" in options:
        raise BadArgument("--seconds plays a song, and --steps makes a run on plain memory: one of them is taken")


def is_played(image, options):
    """Whether a file is to be played: an SPC file, unless steps are asked for. A state record has no devices."""
    if "seconds" in options and not image.is_spc:
        raise Refused(f"'{image.name}' is a state record, which has no devices to play a song with: --steps makes a run of it")
    return image.is_spc and "steps" not in options


def wanted(options, maps):
    """The names of the files that are asked for beside the report."""
    names = {"picture": options["picture"]} if "picture" in options else {}
    return {**names, **{what: f"{options['maps']}.{what}" for what in maps if "maps" in options}}


class Programs:
    """The programs that reports are made by: each is started when it is needed."""

    def __init__(self):
        self.audit, self.player = Audit(), Player()

    def sheet(self, image, options):
        """The report of a file."""
        edition = options.get("edition", 1)
        if is_played(image, options):
            build("play", "survey")
            return PlaySheet(self.player, image, options.get("seconds", MANY_SECONDS), edition)
        build("audit", "survey")
        return RunSheet(self.audit, image, options.get("steps", MANY_STEPS), edition)

    def end(self):
        self.audit.end()
        self.player.end()


def made(programs, name, options, given):
    """The report of a file, with the files beside it written. What may not be written is found out before the run."""
    image = files.image(name)
    outs = wanted(options, PLAY_MAPS if is_played(image, options) else RUN_MAPS)
    for out in outs.values():
        outputs.check(out, given, "force" in options)
    sheet = programs.sheet(image, options)
    for what, out in outs.items():
        outputs.put(out, sheet.picture() if what == "picture" else sheet.maps[what])
    return sheet


def report(words):
    """The command. A file that is none of ours is told, and the others are reported."""
    names, options = sorted_out("report", words, OPTIONS)
    if not names:
        raise BadArgument("report takes a file, or several: tangezult report FILE")
    check_length(options)
    beside = wanted(options, PLAY_MAPS)
    if len(names) > 1 and beside:
        raise BadArgument("--picture and --maps are of one file: report the files one by one")
    if len(set(beside.values())) < len(beside):
        raise BadArgument("--picture and --maps are to write the same file")
    programs, told = Programs(), []
    for i, name in enumerate(names):
        try:
            sheet = made(programs, name, options, names)
        except (BadArgument, Refused) as error:
            told.append({"file": name, "error": str(error)})
            say(error)
            continue
        told.append(sheet.described)
        if "json" not in options:
            print(("\n" if i else "") + "\n".join(sheet.lines), flush=True)
    if "json" in options:
        print(json.dumps(told, indent=1, ensure_ascii=False))
    programs.end()
    return 1 if any("error" in each for each in told) else 0
