"""Declarations of random houses: parties, seats and sets, ledgers, deals, and opening rows."""

from scripts import read
from signing import MOST_AMOUNT
from stage import as_script
from texts import read_deal

PARTIES = ["alice", "bob", "carol", "dave", "erin", "frank"]
LEDGERS = {"bonds": ["bond"], "coins": ["coin", "cent"], "land": ["lot"], "tickets": ["ticket"]}
SETS = ["one", "two", "three"]
SEAT_LETTERS = "stu"


class Declared:
    """What a random house declares, drawn part by part."""

    def __init__(self, chance):
        self.chance = chance
        self.parties = PARTIES[: chance.choice([2, 2, 3, 3, 3, 4, 4, 5, 6])]
        self.ledgers = sorted(chance.sample(sorted(LEDGERS), chance.choice([1, 2, 2, 3, 4])))
        share = chance.choice([0, 0.15, 0.3, 0.5])
        self.honest = {name: chance.random() >= share for name in self.parties}
        self.deals = {name: self._deal() for name in "de"[: chance.choice([1, 1, 2])]}
        self.seats = self._sets()

    def _deal(self):
        """The parties and steps of a deal: a ring through all of them, and some steps more."""
        most = len(self.parties)
        parties = self.chance.sample(self.parties, self.chance.randint(2, most))
        ring = list(zip(parties, parties[1:] + parties[:1]))
        more = self.chance.choice([0, 0, 1, 3])
        ways = ring + [tuple(self.chance.sample(parties, 2)) for _ in range(more)]
        if self.chance.random() < 0.5:
            self.chance.shuffle(ways)
        steps, pair = [], None
        for giver, taker in ways:
            if pair is None or self.chance.random() < 0.6:
                ledger = self.chance.choice(self.ledgers)
                pair = ledger, self.chance.choice(LEDGERS[ledger])
            steps.append((giver, taker, *pair, self.chance.randint(1, 20)))
        return parties, steps

    def _sets(self):
        """Lines of seats and sets, at most f seats of each deviating; seldom a seat of no set."""
        lines = []
        for epoch in range(self.chance.choice([1, 1, 2, 2, 3])):
            f = self.chance.choice([0, 1, 1, 1, 2] if epoch == 0 else [0, 1, 1])
            names = [f"{SEAT_LETTERS[epoch]}{place}" for place in range(3 * f + 1)]
            bad = self.chance.sample(names, self.chance.randint(0, f))
            for name in names:
                size = self.chance.randint(3, 10)
                lines.append(f"seat {name} {'deviant' if name in bad else 'honest'} {size}")
            told = epoch if self.chance.random() < 0.85 else self.chance.choice([epoch, 1, 4])
            lines.append(f"set {SETS[epoch]} {min(told, 4 * epoch)} {f} {' '.join(names)}")
        if self.chance.random() < 0.1:
            lines.append("seat loose deviant 4")
        return lines

    def lines(self):
        """All lines before `begin`."""
        sizes = dict.fromkeys(self.parties, 1)
        deals = self._read(sizes)
        for party in self.parties:
            sizes[party] = self._size(party, deals)
        return self._head(sizes) + self._opens(deals)

    def _head(self, sizes):
        lines = ["house"]
        for party in self.parties:
            honesty = "honest" if self.honest[party] else "deviant"
            lines.append(f"party {party} {honesty} {sizes[party]}")
        lines += self.seats + [f"ledger {ledger}" for ledger in self.ledgers]
        for name, (parties, steps) in self.deals.items():
            lines.append(f"deal {name} {' '.join(parties)}")
            lines += [f"step {name} {' '.join(map(str, step))}" for step in steps]
        return lines

    def _read(self, sizes):
        house, _ = read(as_script(self._head(sizes) + ["begin"]).encode())
        return {name: read_deal(house.text(name))[0] for name in house.deals}

    def _size(self, party, deals):
        """Keys for all that the party's deals ask, seldom too few; a deviating one has some more."""
        if not self.honest[party]:
            return self.chance.randint(12, 24)
        own = [(deals[name], parties) for name, (parties, _) in self.deals.items() if party in parties]
        wanted = sum(3 + len(deal.plan(parties.index(party))) for deal, parties in own)
        spare = -self.chance.randint(1, 3) if self.chance.random() < 0.04 else self.chance.randint(0, 3)
        return min(64, max(1, wanted + spare))

    def _opens(self, deals):
        """Opening rows: mostly what the deals need with something more, seldom less."""
        rows = []
        for ledger in self.ledgers:
            for asset in LEDGERS[ledger]:
                rows += self._rows(deals, ledger, asset)
        if self.chance.random() < 0.05:
            rows.append(f"open {self.ledgers[0]} gold {self.parties[0]} {MOST_AMOUNT}")
        return rows

    def _rows(self, deals, ledger, asset):
        rows = []
        for party in self.parties:
            amount = self.chance.choice([0, 0, 1, 5, 30])
            for name, (parties, _) in self.deals.items():
                if party in parties:
                    amount += deals[name].need(parties.index(party), ledger, asset)
            if amount and self.chance.random() < 0.03:
                amount = self.chance.randint(1, amount)
            if amount:
                rows.append(f"open {ledger} {asset} {party} {amount}")
        return rows
