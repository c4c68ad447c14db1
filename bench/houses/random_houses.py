#!/usr/bin/env python3
"""Random houses: scripts in which deviating parties and seats do all that a script can say.

`random_houses.py script SEED` prints the script of a seed, and `random_houses.py report SEED` what
the rehearsal beside it reports. `random_houses.py tally FIRST COUNT [WORD ..]` rehearses the houses
of so many seeds, judges their reports, and prints how they went; where a command follows, its
reports of the scripts are judged too, and have to be the rehearsal's."""

import random
import re
import subprocess
import sys
from collections import Counter

import judge
from board import Board
from declared import Declared
from mischief import Mischief, Trouble
from parties import Compliant, Deviating
from scripts import rehearse
from stage import Stage, as_script

TEST_EACH = 10


class Course:
    """The course of one house: who acts, in which order, how often."""

    def __init__(self, seed):
        self.chance = random.Random(f"house {seed}")
        self.stage = Stage(self.chance, Declared(self.chance).lines())
        self.board = Board(self.stage)
        self.mischief, self.trouble = Mischief(self.stage, self.board), Trouble(self.stage)
        self.parties = [self._party(name, deal) for deal in self.stage.deals
                        for name in self.stage.house.deals[deal][0]]  # fmt: skip
        self.now = 0
        self.is_torn = self.chance.random() < 0.12
        self.trouble_share = self.chance.choice([0, 0, 0.01, 0.04])
        self.mischief_share = self.chance.choice([0.02, 0.1, 0.2, 0.4])
        self.handover_share = self.chance.choice([0, 0.005, 0.02])

    def _party(self, name, deal):
        is_honest = self.stage.house.holders[name].is_honest
        return (Compliant if is_honest else Deviating)(self.stage, self.board, name, deal)

    def lines(self):
        """The whole script."""
        for _ in range(40 + 30 * len(self.parties)):
            self._turn()
        if self.chance.random() < 0.04:
            self._end()
        else:
            self._finish()
        return self.stage.lines

    def _turn(self):
        self.now += self.chance.randint(0, 2)
        luck = self.chance.random
        if luck() < self.trouble_share:
            self.trouble.strike()
        if luck() < 0.05:
            self.trouble.mend(0.6)
        if luck() < self.mischief_share:
            self.mischief.act()
        if luck() < self.handover_share:
            self.board.hand_over(not self.is_torn)
        if self.is_torn and luck() < 0.03:
            self.board.tear()
        self._go_on()

    def _go_on(self):
        """A turn of a party, or of the seats."""
        luck = self.chance.random()
        if luck < 0.62:
            self.chance.choice(self.parties).turn(self.now)
        elif luck < 0.74:
            self.board.admit()
        elif luck < 0.88:
            self.board.follow()
        elif luck < 0.96:
            self.board.sign()
        else:
            self.board.settle()

    def _end(self):
        """A line that stops the script: a forgery, or one that breaks a rule."""
        compliant = self.stage.honest(self.stage.house.holders)
        ledger = self.chance.choice([*self.stage.house.ledgers])
        if compliant and self.chance.random() < 0.7:
            name = self.chance.choice(compliant)
            forged = self.stage.forge(name, "pay", ledger, name, "coin", 1, q=0)
            self.stage.end("deliver", ledger, forged)
        else:
            self.stage.end("deliver", ledger, "nothing")

    def _finish(self):
        """Most houses are brought to an end: what is due arrives, late votes come, and claims."""
        if self.chance.random() < 0.1:
            return
        self.trouble.mend(0.9)
        self.board.install()
        for _ in range(10 * len(self.parties)):
            self.chance.choice(self.parties).turn(self.now)
            self.board.admit()
        if self.chance.random() < 0.85:
            self.now = 1000
        for _ in range(4 * len(self.parties)):
            self.chance.choice(self.parties).turn(self.now)
            self.board.admit()
        self._settle()

    def _settle(self):
        """All seats follow and sign, and each ledger is shown what decides."""
        board = self.board
        for _ in range(12):
            board.admit()
        for _ in range(80):
            if not board.follow():
                break
        if self.chance.random() < 0.15:
            board.hand_over(not self.is_torn)
        self.trouble.mend(0.9)
        for called in board.sets:
            for seat in board.running(called):
                board.sign([seat])
        for name, deal in self.stage.deals.items():
            for ledger in sorted({step.ledger for step in deal.steps}):
                board.settle(name, ledger)
        for _ in range(self.chance.randint(0, 5)):
            self.mischief.act()


def script(seed):
    return as_script(Course(seed).lines())


class Tally:
    """How houses went."""

    def __init__(self):
        self.counts, self.refusals, self.bad = Counter(), Counter(), []

    def add(self, seed, text, status, report):
        self.counts["houses"] += 1
        self.counts["lines"] += text.count("\n")
        self.counts[f"ended with status {status}"] += 1
        outcomes = set(re.findall(r"^deal \S+ (commit|abort|open)$", report, re.M))
        for outcome in outcomes:
            self.counts[f"with a deal at {outcome}"] += 1
        told = re.findall(r"^\d+ refused (.+)$", report, re.M)
        self.counts["with refusals"] += bool(told)
        self.counts["refusals"] += len(told)
        self.refusals.update(" ".join(re.findall(r"[A-Z]\w+", refusal)) for refusal in told)
        self.counts["with a handover"] += "installed" in report
        self.counts["with a stopped node"] += bool(re.search(r"^\d+ stopped$", report, re.M))
        self.counts["with a failing keeper"] += "Store" in report

    def fault(self, seed, faults):
        self.counts["judged wrong"] += bool(faults)
        self.bad += [f"seed {seed}: {fault}" for fault in faults]

    def __str__(self):
        lines = [f"{name}: {count}" for name, count in self.counts.items()]
        kinds = [f"  {name}: {count}" for name, count in self.refusals.most_common()]
        return "\n".join(lines + [f"kinds of refusals: {len(kinds)}"] + kinds + self.bad)


def run(command, text):
    """The status and the output of a command that reads a script."""
    done = subprocess.run(command, input=text.encode(), stdout=subprocess.PIPE, check=False)
    return done.returncode, done.stdout.decode()


def tally(first, count, command=()):
    found = Tally()
    for seed in range(first, first + count):
        text = script(seed)
        status, report = rehearse(text.encode())
        found.add(seed, text, status, report)
        found.fault(seed, judge.faults(text, report))
        if seed % TEST_EACH == 0:
            found.counts["changed reports tried"] += len(judge.changes(text, report))
            found.fault(seed, [f"not refused: {change}" for change in judge.passed(text, report)])
        if command:
            told = run(command, text)
            found.fault(seed, judge.faults(text, told[1]))
            found.fault(seed, ["another report"] if told != (status, report) else [])
    print(found)
    return 1 if found.bad else 0


def main():
    words = sys.argv[1:]
    if words[:1] == ["script"] and len(words) == 2:
        sys.stdout.write(script(int(words[1])))
    elif words[:1] == ["report"] and len(words) == 2:
        sys.stdout.write(rehearse(script(int(words[1])).encode())[1])
    elif words[:1] == ["tally"] and len(words) >= 3:
        sys.exit(tally(int(words[1]), int(words[2]), words[3:]))
    else:
        print(__doc__)
        sys.exit(1)


if __name__ == "__main__":
    main()
