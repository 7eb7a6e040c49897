"""Two files played side by side: whether they are alike, step by step, or where they part."""
from texts import count, registers


def parting(both):
    """The lines that say where two playings part. They were alike up to the step before the last."""
    first, second = (playing.part for playing in both)
    yield f"at step {both[0].steps:,}, {both[0].seconds:,.3f} s into the song"
    yield from (f"  {registers(part.registers)}, cycle {part.cycles:,}" for part in (first, second))


def is_alike(both):
    return both[0].part.alike


def said(both):
    """That two playings are alike, and for how long."""
    playing = both[0]
    ending = "to their end, " if playing.part.stop else ""
    return f"alike for {playing.seconds:,.1f} seconds, {ending}{count(playing.steps, 'step', 'steps')}"
