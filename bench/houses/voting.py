"""The log of starts and votes, validator sets, and claims along chains of sets."""

from collections import namedtuple

from signing import check, digest, number
from texts import COMMIT, LOG_KINDS, Start, read_act, read_deal

START = 1
KINDS = {1: "start", 2: "commit", 3: "abort"}
MOST_RECORDS = 4096

# `number` is how many parties a deal has that starts, or the index of the party that votes
Record = namedtuple("Record", "kind number deal")
Decision = namedtuple("Decision", "outcome at")
Posting = namedtuple("Posting", "said act deal record")


def heads(house, records):
    """The head of each front of the records, the empty one first."""
    found = [digest(b"CCDHEAD0" + house)]
    for record in records:
        text = number(record.kind, 1) + number(record.number, 2) + record.deal
        found.append(digest(b"CCDHEAD1" + found[-1] + text))
    return found


def start_of(records, deal):
    starts = (at for at, record in enumerate(records) if record[0] == START and record.deal == deal)
    return next(starts, None)


def committed(records, start, end):
    """Who has committed between the start and the end."""
    _, parties, deal = records[start]
    votes = records[start + 1 : end]
    return {v.number for v in votes if v.kind == COMMIT and v.deal == deal and v.number < parties}


def decision(records, deal):
    """What the first decisive record decides, if there is one."""
    start = start_of(records, deal)
    if start is None:
        return None
    parties = records[start].number
    for at in range(start + 1, len(records)):
        kind, index, of_deal = records[at]
        if of_deal != deal or kind == START or index >= parties:
            continue
        before = committed(records, start, at)
        if len(before) == parties:
            continue
        if kind != COMMIT:
            return Decision("abort", at)
        if len(before | {index}) == parties:
            return Decision("commit", at)
    return None


def owed(records):
    """How many commits the started deals still lack that aren't decided."""
    total = 0
    for at, record in enumerate(records):
        if record.kind == START and decision(records, record.deal) is None:
            total += record.number - len(committed(records, at, len(records)))
    return total


def lacks_room(records, parties):
    return len(records) + owed(records) + 1 + parties > MOST_RECORDS


def may_follow(records, record):
    """Whether a log with these records would take the record, whoever asks it."""
    start = start_of(records, record.deal)
    if record.kind == START:
        return start is None and not lacks_room(records, record.number)
    if start is None or decision(records, record.deal) or record.number >= records[start].number:
        return False
    return record.kind != COMMIT or record not in records


class Log:
    """The log of a house: its records, and the deals that it started."""

    def __init__(self, house):
        self.house, self.records, self.deals = house, [], {}

    def post(self, envelope):
        """What an envelope asks of the log and no fault, or nothing and its fault."""
        said, fault = check(envelope)
        if fault:
            return None, f"1 BadEnvelope {fault}"
        act, fault = read_act(LOG_KINDS, envelope.message)
        if fault:
            return None, f"2 BadAct {fault}"
        if not isinstance(act, Start):
            return Posting(said, act, None, Record(act.choice, act.index, act.deal)), None
        deal, fault = read_deal(act.text)
        if fault:
            return None, f"3 BadDeal {fault}"
        return Posting(said, act, deal, Record(START, len(deal.parties), deal.id)), None

    def refusal(self, posting):
        if posting.deal is not None:
            return self._start_refusal(posting.said.account, posting.deal)
        return self._vote_refusal(posting.said.account, posting.record)

    def _start_refusal(self, account, deal):
        if deal.house != self.house:
            return f"4 WrongHouse {deal.house.hex()}"
        if account not in deal.accounts():
            return f"5 NotAParty {account.hex()}"
        start = start_of(self.records, deal.id)
        if start is not None:
            return f"6 StartedAlready {start}"
        if lacks_room(self.records, len(deal.parties)):
            return f"7 LogFull {len(self.records)} {owed(self.records)}"
        return None

    def _vote_refusal(self, account, vote):
        start = start_of(self.records, vote.deal)
        if start is None:
            return "8 NotStarted"
        decided = decision(self.records, vote.deal)
        if decided:
            return f"9 Decided {decided.at} {decided.outcome}"
        deal = self.deals.get(vote.deal)
        if deal is None or deal.accounts()[vote.number : vote.number + 1] != [account]:
            return f"5 NotAParty {account.hex()}"
        if vote.kind == COMMIT and vote in self.records:
            return f"10 VotedAlready {self.records.index(vote)}"
        return None

    def take(self, posting):
        self.records = self.records + [posting.record]
        if posting.deal is not None:
            self.deals[posting.deal.id] = posting.deal

    def keeps(self, deal):
        """Whether one of the starts is that of the deal of this house."""
        return deal.house == self.house and Record(START, len(deal.parties), deal.id) in self.records


class ValidatorSet:
    def __init__(self, epoch, f, seats):
        self.epoch, self.f, self.seats = epoch, f, seats
        self.text = b"CCDSET01" + number(epoch, 4) + number(f, 2) + b"".join(seats)
        self.id = digest(self.text)

    def quorum_fault(self, text, signatures):
        """Why the signatures are no quorum for the text."""
        counted = set()
        for seat, envelope in signatures:
            if seat >= len(self.seats):
                return f"1 SeatOutside {seat}"
            if seat in counted:
                return f"2 SeatTwice {seat}"
            said, fault = check(envelope)
            if fault:
                return f"3 BadEnvelope {seat} {fault}"
            if said.account != self.seats[seat]:
                return f"4 NotItsRing {seat}"
            if envelope.message != text:
                return f"5 OtherText {seat}"
            counted.add(seat)
        needed = 2 * self.f + 1
        return f"6 TooFew {len(counted)} {needed}" if len(counted) < needed else None

    def prefix_text(self, length, head):
        return b"CCDPREF1" + self.id + number(length, 4) + head

    def handover_text(self, length, head, following):
        return b"CCDHAND1" + self.id + number(length, 4) + head + following


Link = namedtuple("Link", "set length head signatures")


class Claim:
    """A claim: links to validator sets, records with their head, and signatures."""

    def __init__(self, records, head):
        self.links, self.records, self.head, self.signatures = [], list(records), head, []

    def envelopes(self):
        """All envelopes, in the order in which they stand."""
        lists = [link.signatures for link in self.links] + [self.signatures]
        return [envelope for signatures in lists for _, envelope in signatures]

    def last_set(self, genesis):
        """The set to which the links lead and no fault, or nothing and the first fault."""
        now, fronts = genesis, heads(genesis.id, self.records)
        for place, link in enumerate(self.links):
            fault = self._link_fault(now, fronts, link)
            if fault:
                return None, f"{place} {fault}"
            now = link.set
        return now, None

    def _link_fault(self, now, fronts, link):
        if link.set.epoch != now.epoch + 1:
            return f"2 WrongEpoch {now.epoch + 1} {link.set.epoch}"
        if link.length > len(self.records) or link.head != fronts[link.length]:
            return f"3 HeadNotOnPath {link.length}"
        text = now.handover_text(link.length, link.head, link.set.id)
        fault = now.quorum_fault(text, link.signatures)
        return f"4 BadQuorum {fault}" if fault else None

    def fault(self, genesis):
        """The first part of the certificate that is broken, if one is."""
        last, fault = self.last_set(genesis)
        if fault:
            return f"1 BadChain {fault}"
        head = heads(genesis.id, self.records)[-1]
        if self.head != head:
            return f"2 WrongHead {head.hex()} {self.head.hex()}"
        fault = last.quorum_fault(last.prefix_text(len(self.records), head), self.signatures)
        return f"3 BadQuorum {fault}" if fault else None
