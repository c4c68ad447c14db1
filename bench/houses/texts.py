"""Acts and deals as byte texts, what a deal needs of each party, and the plan of a party."""

import re
from collections import namedtuple

from signing import MOST_AMOUNT, digest, name_field, number

NAME = r"[a-z][a-z0-9-]{0,15}"
AMOUNT = r"(?:0|[1-9][0-9]*)"
ACT_TAG = b"CCDACT01"
COMMIT, ABORT = 2, 3

Register = namedtuple("Register", "text")
Pay = namedtuple("Pay", "house ledger to asset amount")
Escrow = namedtuple("Escrow", "deal ledger asset amount")
Transfer = namedtuple("Transfer", "deal ledger turn to asset amount")
Start = namedtuple("Start", "text")
Vote = namedtuple("Vote", "deal index choice")

LEDGER_KINDS = {1: Register, 2: Pay, 3: Escrow, 4: Transfer}
LOG_KINDS = {5: Start, 6: Vote}


def write_act(act):
    """The one spelling of an act."""
    if isinstance(act, (Register, Start)):
        kind = 1 if isinstance(act, Register) else 5
        return ACT_TAG + number(kind, 1) + number(len(act.text), 4) + act.text
    if isinstance(act, Pay):
        fields = act.house + name_field(act.ledger) + act.to
        return ACT_TAG + b"\x02" + fields + name_field(act.asset) + number(act.amount, 8)
    if isinstance(act, Escrow):
        fields = act.deal + name_field(act.ledger) + name_field(act.asset)
        return ACT_TAG + b"\x03" + fields + number(act.amount, 8)
    if isinstance(act, Transfer):
        fields = act.deal + name_field(act.ledger) + number(act.turn, 4) + act.to
        return ACT_TAG + b"\x04" + fields + name_field(act.asset) + number(act.amount, 8)
    return ACT_TAG + b"\x06" + act.deal + number(act.index, 2) + number(act.choice, 1)


class Unread(Exception):
    """The fault of a text that is no act."""


class Fields:
    """The fields of a text, one after another."""

    def __init__(self, text, at):
        self.text, self.at = text, at

    def bytes(self, size):
        if len(self.text) - self.at < size:
            raise Unread(f"2 Short {self.at}")
        self.at += size
        return self.text[self.at - size : self.at]

    def number(self, size, least=0, most=None):
        at = self.at
        value = int.from_bytes(self.bytes(size), "big")
        if value < least or (most is not None and value > most):
            raise Unread(f"3 BadField {at}")
        return value

    def amount(self):
        return self.number(8, most=MOST_AMOUNT)

    def name(self):
        at = self.at
        size = self.number(1)
        if not 1 <= size <= 16:
            raise Unread(f"3 BadField {at}")
        if len(self.text) - self.at < size:
            raise Unread(f"2 Short {at}")
        name = self.bytes(size)
        if not re.fullmatch(NAME.encode(), name):
            raise Unread(f"3 BadField {at}")
        return name.decode()

    def sized(self):
        return self.bytes(self.number(4))


def read_act(kinds, text):
    """The act of a text among the kinds and no fault, or nothing and its fault."""
    kind = kinds.get(text[8]) if text[:8] == ACT_TAG and len(text) > 8 else None
    if kind is None:
        return None, "1 BadTag"
    fields = Fields(text, 9)
    try:
        act = _read_fields(kind, fields)
    except Unread as fault:
        return None, str(fault)
    if fields.at != len(text):
        return None, f"4 Trailing {fields.at}"
    return act, None


def _read_fields(kind, fields):
    if kind in (Register, Start):
        return kind(fields.sized())
    if kind is Pay:
        return Pay(fields.bytes(32), fields.name(), fields.bytes(32), fields.name(), fields.amount())
    if kind is Escrow:
        return Escrow(fields.bytes(32), fields.name(), fields.name(), fields.amount())
    if kind is Transfer:
        deal, ledger, turn = fields.bytes(32), fields.name(), fields.number(4)
        return Transfer(deal, ledger, turn, fields.bytes(32), fields.name(), fields.amount())
    return Vote(fields.bytes(32), fields.number(2), fields.number(1, COMMIT, ABORT))


Party = namedtuple("Party", "name account")
Step = namedtuple("Step", "giver taker ledger asset amount")


def is_connected(parties, steps):
    """Whether so many parties are all reached from the first, and all reach it; or the first not."""
    ways = [(step.giver, step.taker) for step in steps]
    ahead, back = _reached(ways), _reached([(taker, giver) for giver, taker in ways])
    for index in range(parties):
        if index not in ahead or index not in back:
            return index
    return None


def _reached(ways):
    seen, ahead = {0}, [0]
    while ahead:
        here = ahead.pop()
        for giver, taker in ways:
            if giver == here and taker not in seen:
                seen.add(taker)
                ahead.append(taker)
    return seen


class DealFault(Exception):
    """The fault of a text that is no deal."""


class Deal:
    """A deal, read from its text."""

    def __init__(self, text):
        self.text, self.id = text, digest(text)
        self.parties, self.steps = [], []
        self.house, self._sums, place = None, {}, "deal"
        *lines, rest = text.split(b"\n")
        for line, raw in enumerate(lines, 1):
            place = self._read(line, raw.decode("latin-1"), place)
        if place != "step" or rest:
            raise DealFault(f"1 BadLine {len(lines) + 1}")
        index = is_connected(len(self.parties), self.steps)
        if index is not None:
            raise DealFault(f"8 NotConnected {index}")

    def _read(self, line, said, place):
        """Takes a line, and answers what stood there."""
        if place == "deal" and re.fullmatch(f"deal {NAME}", said):
            return "house"
        house = re.fullmatch("house ([0-9a-f]{64})", said)
        if place == "house" and house:
            self.house = bytes.fromhex(house[1])
            return "party"
        party = re.fullmatch(f"party ({NAME}) ([0-9a-f]{{64}})", said)
        if place == "party" and party:
            self._add_party(line, Party(party[1], bytes.fromhex(party[2])))
            return "party"
        step = re.fullmatch(f"step ({NAME}) ({NAME}) ({NAME}) ({NAME}) ({AMOUNT})", said)
        may_step = place == "step" or (place == "party" and len(self.parties) >= 2)
        if may_step and step and int(step[5]) <= MOST_AMOUNT:
            self._add_step(line, *step.groups()[:4], int(step[5]))
            return "step"
        raise DealFault(f"1 BadLine {line}")

    def _add_party(self, line, party):
        if any(p.name == party.name or p.account == party.account for p in self.parties):
            raise DealFault(f"2 PartyTwice {line}")
        if len(self.parties) == 16:
            raise DealFault(f"6 TooMany {line}")
        self.parties.append(party)

    def _add_step(self, line, giver, taker, ledger, asset, amount):
        names = [party.name for party in self.parties]
        if giver not in names or taker not in names:
            raise DealFault(f"3 UnknownParty {line}")
        if giver == taker:
            raise DealFault(f"4 SelfStep {line}")
        if amount == 0:
            raise DealFault(f"5 ZeroAmount {line}")
        ledgers = {step.ledger for step in self.steps} | {ledger}
        if len(self.steps) == 64 or len(ledgers) > 8:
            raise DealFault(f"6 TooMany {line}")
        total = self._sums.get((ledger, asset), 0) + amount
        if total > MOST_AMOUNT:
            raise DealFault(f"7 SumTooLarge {line}")
        self._sums[ledger, asset] = total
        self.steps.append(Step(names.index(giver), names.index(taker), ledger, asset, amount))

    def accounts(self):
        return [party.account for party in self.parties]

    def pairs(self):
        """The ledgers and assets of the steps, in ascending order."""
        return sorted({(step.ledger, step.asset) for step in self.steps})

    def need(self, index, ledger, asset):
        most = now = 0
        for step in self._steps_of(ledger, asset):
            now += step.amount * ((step.giver == index) - (step.taker == index))
            most = max(most, now)
        return most

    def due(self, index, ledger, asset):
        came = sum(
            step.amount * ((step.taker == index) - (step.giver == index))
            for step in self._steps_of(ledger, asset)
        )
        return self.need(index, ledger, asset) + came

    def _steps_of(self, ledger, asset):
        return [step for step in self.steps if (step.ledger, step.asset) == (ledger, asset)]

    def turns(self, index, ledger):
        return sum(1 for step in self.steps if step.giver == index and step.ledger == ledger)

    def plan(self, index):
        """The acts of a party: it registers, escrows what it needs to, and makes its steps."""
        acts = [Register(self.text)]
        for ledger, asset in self.pairs():
            need = self.need(index, ledger, asset)
            if need > 0:
                acts.append(Escrow(self.id, ledger, asset, need))
        turns = {}
        for step in self.steps:
            if step.giver == index:
                turn = turns.get(step.ledger, 0)
                to = self.parties[step.taker].account
                acts.append(Transfer(self.id, step.ledger, turn, to, step.asset, step.amount))
                turns[step.ledger] = turn + 1
        return acts


def read_deal(text):
    """The deal of a text and no fault, or nothing and its fault."""
    try:
        return Deal(text), None
    except DealFault as fault:
        return None, str(fault)
