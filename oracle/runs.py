"""Long runs, a step at a time: each step is a case for both sides, and goes on in the memory that our steps before it left.

The first call of each run is then made once more, in one piece, by the program `run`, whose report must say what the steps gave.
"""
import collections
import random
import subprocess

import accesses
import images
import records

# from this budget on `run` goes the way of long runs
LONG = 12000
# so many runs go on side by side: their cases and answers fit into the pipes
TOGETHER = 500
# a restless run that has come to no new place for so many steps is called anew elsewhere
PATIENCE = 50


class Run:
    """Registers, memory and marks as our steps leave them. Half of the runs are restless, with each kind of memory."""

    def __init__(self, turn):
        self.registers, self.memory = images.state(turn)
        self.start = self.registers + self.memory
        self.steps, self.reads, self.written = 0, set(), set()
        self.restless, self.numbers = turn // len(images.KINDS) % 2 == 1, random.Random(-1 - turn)
        self.places, self.newest = set(), 0
        # the budget and the report of the first call, as soon as it has ended
        self.budget = self.report = None

    def case(self):
        """The next step as a case: it brings the bytes that are reached by the definition, and by the crate in D6."""
        head = self.registers + bytes(4)
        reached = [accesses.performed(head, follow_d6, self.memory)[0].log for follow_d6 in (False, True)]
        places = sorted({int(access[1:5], 16) for log in reached for access in log})
        assert len(places) <= 17
        pokes = b"".join(bytes([at % 256, at // 256, self.memory[at]]) for at in places)
        return head + (pokes * 17)[:51] + bytes(2)

    def go_on(self, answer, budget):
        """Goes on from our answer to the case. Gives the stop."""
        self.note_place()
        a, x, y, sp, high, low, psw, stop = bytes.fromhex(answer[:16])
        self.registers = bytes([a, x, y, sp, low, high, psw])
        stores, reads = answer[25:].split("r")
        # what this step reads, it reads before it stores; and its own answer has no mark for what it stored and then read
        self.reads |= {int(reads[i:i + 4], 16) for i in range(0, len(reads), 4)} - self.written
        for i in range(0, len(stores), 6):
            at, byte = int(stores[i:i + 4], 16), int(stores[i + 4:i + 6], 16)
            self.memory[at] = byte
            self.written.add(at)
        self.steps += 1
        if stop or self.steps == budget:
            self.call_ends(stop, budget)
        return stop

    def opcode(self):
        return self.memory[int.from_bytes(self.registers[4:6], "little")]

    def note_place(self):
        """Keeps when PC was last at a place that is new to it."""
        place = self.registers[4:6]
        if place not in self.places:
            self.places.add(place)
            self.newest = self.steps

    def move(self):
        """Calls a restless run anew, with another PC and PSW, where it goes round in a loop. Gives whether it does."""
        if not self.restless or self.steps - self.newest < PATIENCE:
            return False
        self.call_ends(0, self.steps)
        self.registers = self.registers[:4] + self.numbers.randbytes(3)
        self.places, self.newest = set(), self.steps
        return True

    def call_ends(self, stop, budget):
        """Keeps of the first call the budget that `run` is to have, and what it has to report."""
        if self.report is None:
            self.budget = budget
            a, x, y, sp, low, high, psw = self.registers
            marks = len(self.reads), len(self.written), len(self.reads & self.written)
            self.report = records.report(stop, self.steps, marks, a, x, y, sp, high << 8 | low, psw)


def together(first, count, steps, ours, rust, judge):
    """Takes runs side by side through so many steps. Gives the runs, and how often each opcode, a stop and a move was met."""
    runs, met = [Run(first + turn) for turn in range(count)], collections.Counter()
    for _ in range(steps):
        cases = [run.case() for run in runs]
        ours.ask(b"".join(cases))
        rust.ask(b"".join(cases))
        for run, case in zip(runs, cases):
            got = ours.answer()
            judge(case, rust.answer(), got)
            met[run.opcode()] += 1
            met["stops"] += run.go_on(got, steps) > 0
            met["moves"] += run.move()
    return runs, met


def budgets(run):
    """The budgets that the first call of a run is made with: its own, and, where SLEEP or STOP ended it, one that goes the long way."""
    return [run.budget] if run.report.startswith("stop 0") else [run.budget, max(run.budget, LONG)]


def reported(runs, command):
    """Has the program `run` make the first call of each run. Gives how many calls went the long way, and the number of wrong reports."""
    long, wrong = 0, 0
    for run in runs:
        for budget in budgets(run):
            done = subprocess.run(command, input=records.budgeted(budget, run.start), stdout=subprocess.PIPE)
            got = done.stdout.decode("latin-1") if done.returncode == 0 else f"status {done.returncode}"
            long += budget >= LONG
            if got != run.report:
                wrong += 1
                if wrong <= 20:
                    print(f"unexplained: from {run.start[:7].hex()}, budget {budget}: `run` reports {got!r}, due is {run.report!r}")
    return long, wrong
