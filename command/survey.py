"""Stretches of addresses, found by the proved program `survey`: what it answers is said in crates/surveyor/specs/Survey.antt."""
from ends import Failed
from programs import answer


def found(given):
    """Whether a stretch touches a mark, and the stretches: pairs of their first and last address."""
    told = answer("survey", given)
    if not told or len(told) % 4 != 1:
        raise Failed(f"survey could not be run: {told[:80].decode(errors='replace').strip()}")
    numbers = [int.from_bytes(told[at:at + 2], "little") for at in range(1, len(told), 2)]
    return told[0] == 1, list(zip(numbers[::2], numbers[1::2]))


def marked(map_):
    """The stretches of addresses that a map marks."""
    return found(map_)[1]


def differing(first, second):
    """The stretches of addresses at which two memories differ."""
    return found(first + second)[1]


def touches(map_, first, second):
    """Whether two memories differ at an address that a map marks."""
    return found(map_ + first + second)[0]
