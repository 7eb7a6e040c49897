"""`compare`: where the memories of two files differ, whether that touches what a run read, and whether they are played alike."""
import beside
import files
import survey
from audit import Audit
from ends import BadArgument, Refused
from play import Player
from programs import build
from texts import count, registers, size, stretches
from words import SECONDS, Edition, Name, sorted_out

OPTIONS = {"--map": Name(), "--seconds": SECONDS, "--edition": Edition()}


def touching(first, second, map_):
    """The stretches of addresses at which two memories differ and that a map marks: what still differs where all else is blanked."""
    audit = Audit()
    kept = [audit.blanked(memory, map_, 0) for memory in (first, second)]
    audit.end()
    return survey.differing(*kept)


def sound(first, second):
    """Where the sound registers of two SPC files differ."""
    if not (first.is_spc and second.is_spc):
        return
    found = [number for number, bytes_ in enumerate(zip(first.sound, second.sound)) if bytes_[0] != bytes_[1]]
    yield f"The sound registers differ: {' '.join(f'{number:02X}' for number in found)}" if found else "The sound registers are the same."


def on_map(first, second, name, map_):
    """What the differences mean to a run whose read map this is."""
    if not survey.touches(map_, first.memory, second.memory):
        yield f"No difference touches an address that '{name}' marks."
        if first.registers == second.registers:
            yield "If that is the read map of a run of one of the files, the other one gives the same run."
        return
    found = touching(first.memory, second.memory, map_)
    yield f"They touch {count(size(found), 'address', 'addresses')} that '{name}' marks"
    yield from stretches(found)


def differences(first, second):
    """Where registers, sound registers and memories differ."""
    if first.registers == second.registers:
        yield "The registers are the same."
    else:
        yield "The registers differ"
        yield from (f"  {registers(image.registers)}" for image in (first, second))
    yield from sound(first, second)
    found = survey.differing(first.memory, second.memory)
    if not found:
        yield "The memories are the same."
        return
    yield f"The memories differ at {count(size(found), 'address', 'addresses')}, in {count(len(found), 'stretch', 'stretches')}"
    yield from stretches(found)


def check_songs(images):
    """Ends where a file has no song to play."""
    for image in images:
        if not image.is_spc:
            raise Refused(f"'{image.name}' is a state record, which has no devices to play a song with")


def heard(first, second, made):
    """What two songs that are alike by their steps have that sounds otherwise: bytes that the song is made of, or sound registers."""
    found = touching(first.memory, second.memory, made)
    if found:
        yield f"But they differ at {count(size(found), 'address', 'addresses')} of which the song is made, and may sound otherwise"
        yield from stretches(found)
    if first.sound != second.sound:
        yield "But they begin with other sound registers, and may sound otherwise."


def played(first, second, seconds, edition):
    """Both files played side by side: the exit status, and what is said."""
    player = Player()
    both = player.beside(first, second, seconds, edition)
    player.end()
    if not beside.is_alike(both):
        return 1, ["Played side by side they part " + "\n".join(beside.parting(both))]
    but = list(heard(first, second, both[0].part.made))
    end = but or ["They differ at no address of which the song is made."]
    return (1 if but else 0), [f"Played side by side they are {beside.said(both)}.", *end]


def compare(words):
    """The command."""
    names, options = sorted_out("compare", words, OPTIONS)
    if len(names) != 2:
        raise BadArgument("compare takes two files: tangezult compare FIRST SECOND")
    first, second = [files.image(name) for name in names]
    map_ = files.map_in(options["map"]) if "map" in options else None
    is_played = "seconds" in options
    if is_played:
        check_songs([first, second])
    build(*(("play",) if is_played else ()), "audit", "survey")
    for image in (first, second):
        print(f"{image.name}: {image.described}")
    print("\n".join(differences(first, second)))
    if map_:
        print("\n".join(on_map(first, second, options["map"], map_)))
    if not is_played:
        return 0
    status, said = played(first, second, options["seconds"], options.get("edition", 1))
    print("\n".join(said))
    return status
