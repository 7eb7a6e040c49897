"""How registers, runs and ranges are said, in lines for people."""
import textwrap

FLAGS = "NVPBHIZC"
STOPS = ("the budget", "SLEEP", "STOP")
WIDTH = 100


def registers(seven):
    """The registers in the form that `run` prints them in."""
    a, x, y, sp, low, high, psw = seven[:7]
    flags = " ".join(f"{name}={psw >> 7 - i & 1}" for i, name in enumerate(FLAGS))
    return f"A={a:02X} X={x:02X} Y={y:02X} SP={sp:02X} PC={256 * high + low:04X} {flags}"


def count(number, one, many):
    """How many there are of something."""
    return f"{number:,} {one if number == 1 else many}"


def ending(run):
    """How a run ended."""
    steps = count(run.steps, "step", "steps")
    if run.answer.stop:
        return f"ended by {STOPS[run.answer.stop]}, after {steps}"
    return f"{steps}, until the budget was spent: it would have gone on"


def playing(played):
    """How a playing ended."""
    steps = count(played.steps, "step", "steps")
    if played.part.stop:
        return f"ended by {STOPS[played.part.stop]} after {played.seconds:,.1f} s, {steps}"
    return f"{played.seconds:,.1f} s, {steps}, until the time was over: it would have gone on"


def stretch(first, last):
    """A range of addresses, as 0200-0247."""
    return f"{first:04X}-{last:04X}"


def stretches(found):
    """A line for each range, with its size."""
    return [f"  {stretch(first, last)}  {last - first + 1:6,}" for first, last in found]


def addresses(found):
    """Some addresses in a row."""
    return " ".join(f"{at:04X}" for at in found)


def size(found):
    """How many addresses some ranges have together."""
    return sum(last - first + 1 for first, last in found)


def under(name, words):
    """A name, and words beside it, in as many lines as they take."""
    return textwrap.fill(words, WIDTH, initial_indent=f"  {name:<10} ", subsequent_indent=" " * 13)


def wrapped(words):
    return textwrap.fill(words, WIDTH)
