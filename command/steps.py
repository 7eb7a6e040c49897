"""`run` and `step`: what the proved programs of these names print, of SPC files, too."""
import files
from ends import BadArgument, Refused
from programs import answer, say
from words import STEPS, Edition, Number, sorted_out

OPTIONS = {"--edition": Edition()}
BUDGET = Number("budget", STEPS.limit)


def taken(name):
    """A file's bytes as the programs take them: what an SPC file holds as a state record, and any other file as it is."""
    data = files.content(name)
    if data.startswith(files.SIGNATURE):
        fault = files.fault_of(name, data)
        if fault:
            raise Refused(fault)
        image = files.Image(name, data)
        say(f"'{name}' is {image.described}")
        return image.state_record
    return data


def tell(program, given, name):
    """Prints a program's answer. A refusal is its last line."""
    printed = answer(program, given).decode()
    print(printed, end="")
    if printed.endswith("refused 6\n"):
        raise Refused(f"'{name}' has a wrong length: a state record has 65,543 bytes, an SPC file 66,048 or more")
    return 0


def run(words):
    places, options = sorted_out("run", words, OPTIONS)
    if len(places) != 2:
        raise BadArgument("run takes a budget and a file: tangezult run 1000 FILE")
    budget, name = BUDGET.taken(places[0]), places[1]
    given = bytes([options.get("edition", 1)]) + budget.to_bytes(4, "little")
    return tell("run", given + taken(name), name)


def step(words):
    names, options = sorted_out("step", words, OPTIONS)
    if len(names) != 2:
        raise BadArgument("step takes two files: tangezult step FIRST SECOND")
    for name in names:
        files.check(name)
    first, second = [taken(name) for name in names]
    # the program sees only how long both are together; once the first is known to be a record, a refusal is about the second
    wrong = names[1] if len(first) == files.RECORD else names[0]
    given = bytes([options.get("edition", 1)]) + first
    return tell("step", given + second if wrong == names[1] else given, wrong)
