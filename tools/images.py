"""Memories and maps for the scripts that make cases of them, and runs of the library on two memories, held against each other."""
from library import lent, number

MEMORY, MAP = 65536, 8192


# ---- maps: eight addresses to a byte, the lowest of them in the bit of value 1


def marked(map_, k):
    return map_[k // 8] >> k % 8 & 1


def addresses_in(map_):
    """Every address that a map marks."""
    return [8 * i + bit for i, byte in enumerate(map_) if byte for bit in range(8) if byte >> bit & 1]


def stretches_of(addresses):
    """First and last of each stretch of some addresses, as long as it can be."""
    firsts = [k for k in sorted(addresses) if k - 1 not in addresses]
    return list(zip(firsts, [k for k in sorted(addresses) if k + 1 not in addresses]))


def map_of(addresses):
    made = bytearray(MAP)
    for k in addresses:
        made[k // 8] |= 1 << k % 8
    return bytes(made)


# ---- random ones, of the script's own generator


def random_addresses(rng):
    """Some stretches of addresses, which may run into each other, and now and then at either end."""
    found = set()
    for _ in range(rng.choice([0, 1, 2, 5, 40, 400])):
        length = rng.choice([1, 1, 2, 3, 17, 256, 1000])
        low = rng.choice([0, MEMORY - length, *(rng.randrange(MEMORY) for _ in range(20))])
        found.update(range(low, min(low + length, MEMORY)))
    return found


def changed(rng, memory, addresses):
    """Other bytes at these addresses."""
    other = bytearray(memory)
    for k in addresses:
        other[k] ^= rng.randrange(1, 256)
    return bytes(other)


# ---- runs


def random_registers(rng, state=0):
    """Eight bytes as the library takes them: any registers, awake if no other state is asked for."""
    return rng.randbytes(7) + bytes([state])


def played(library, registers, edition, budget, memory):
    """What a run from clear maps answers, and the registers, memory and maps that it leaves."""
    given = registers, number(edition), number(budget), memory, bytes(MAP), bytes(MAP)
    answer, left, _, _, after, reads, writes = library.call(b"n", *given)
    return (answer, left, reads, writes), after


def untouched_elsewhere(image, after, stored):
    """Whether a run left the image's own bytes everywhere but where it stored."""
    back = bytearray(after)
    for k in stored:
        back[k] = image[k]
    return back == lent(image)


def alike(first, second, one, other):
    """Whether two runs answered and left the same, and each its own image's bytes where neither stored."""
    (told, after), (other_told, other_after) = one, other
    stored = addresses_in(told[3][:MAP])
    return (
        told == other_told
        and all(after[k] == other_after[k] for k in stored)
        and untouched_elsewhere(first, after, stored)
        and untouched_elsewhere(second, other_after, stored)
    )
