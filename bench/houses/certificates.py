"""Which claims of a house script certify, told without hashes: a text is what it says, a head is the
records before it, and an envelope is who signed and what. Shares no code with the rehearsal."""

import hashlib
from collections import namedtuple

Said = namedtuple("Said", "holder text")
Record = namedtuple("Record", "kind deal index")
Link = namedtuple("Link", "set length head signatures")


class Claim:
    """A claim as the script builds it."""

    def __init__(self, records):
        self.records, self.head, self.links, self.signatures = records, records, [], []


def own_text(digits):
    """What a text says that registers or starts a deal which the script does not declare, by its id."""
    text = bytes.fromhex(digits)
    word = {b"CCDACT01\x01": "register", b"CCDACT01\x05": "start"}.get(text[:9])
    if word is None or len(text) != 13 + int.from_bytes(text[9:13], "big"):
        return None
    return (word, hashlib.sha256(text[13:]).hexdigest())


def outcome(records, deal, parties):
    """What the records decide about a deal of so many parties, if they do."""
    start = Record("start", deal, None)
    committed = set()
    for record in records[records.index(start) + 1 :] if start in records else ():
        if record.deal != deal or record.kind == "start" or record.index >= parties:
            continue
        if record.kind == "abort":
            return "abort"
        committed.add(record.index)
        if len(committed) == parties:
            return "commit"
    return None


class Certificates:
    """Envelopes, logs and claims of a script, and the lists of its compliant seats."""

    def __init__(self, script):
        self.script, self.said, self.logs, self.claims = script, {}, {}, {}
        self.certified = []
        first = next(iter(script.sets.values()))
        self.genesis = first
        self.lists = {seat: () if own is first else None for seat, own in script.seated.items()}

    def _count(self, deal):
        return len(self.script.deals[deal].parties) if deal in self.script.deals else None

    def build(self, word, name, *rest):
        getattr(self, "_" + word, lambda *_: None)(name, *rest)

    def _forge(self, name, holder, _q, word, *fields):
        self.said[name] = Said(holder, self._text(holder, word, *fields))

    def _text(self, holder, word, *fields):
        if word == "vote":
            return self.vote(holder, *fields)
        if word in ("prefix", "handover"):
            return (word, fields[0], self.logs[fields[1]], *fields[2:])
        return own_text(fields[0]) if word == "bytes" else (word, *fields)

    def vote(self, holder, deal, choice):
        parties = self.script.deals[deal].parties
        return ("vote", deal, parties.index(holder) if holder in parties else 65535, choice)

    def _flip(self, name, envelope):
        """A signature of nobody; flipped twice it is as it was."""
        said = self.said[envelope]
        self.said[name] = said.text if said.holder is None else Said(None, said)

    def _log(self, name):
        self.logs[name] = ()

    def _rec(self, name, kind, deal, *party):
        index = self.script.deals[deal].parties.index(party[0]) if party else None
        self.logs[name] += (Record(kind, deal, index),)

    def _take(self, name, seat, length):
        self.logs[name] = (self.lists[seat] or ())[: int(length)]

    def _claim(self, name, log):
        self.claims[name] = Claim(self.logs[log])

    def _cut(self, name):
        self.claims[name].records = self.claims[name].records[:-1]

    def _link(self, name, called, length):
        claim = self.claims[name]
        head = claim.records[: int(length)]
        claim.links.append(Link(self.script.sets[called], int(length), head, []))

    def _linkby(self, name, place, envelope):
        self.claims[name].links[-1].signatures.append((int(place), self.said[envelope]))

    def _by(self, name, place, envelope):
        self.claims[name].signatures.append((int(place), self.said[envelope]))

    def record(self, envelope):
        """What an envelope may add to a list, by whom."""
        said = self.said[envelope]
        if said.holder is None or said.text is None:
            return None, None
        word, *fields = said.text
        if word == "start":
            return said.holder, Record("start", fields[0], None)
        if word == "vote":
            return said.holder, Record(fields[2], fields[0], fields[1])
        return said.holder, None

    def may_enter(self, seat, envelope):
        """Why a seat may not have taken an envelope behind its list."""
        holder, record = self.record(envelope)
        records = self.lists[seat]
        if records is None:
            return "the seat has not begun"
        if holder is None or record is None:
            return "the envelope is no entry"
        parties = self.script.deals[record.deal].parties if record.deal in self.script.deals else None
        is_started = Record("start", record.deal, None) in records
        if record.kind == "start":
            is_party = parties is None or holder in parties
            return None if is_party and not is_started else "no start of a party, or a second one"
        if parties is None or parties[record.index : record.index + 1] != [holder]:
            return "no vote of its party"
        if not is_started or outcome(records, record.deal, len(parties)):
            return "the deal is not started, or decided"
        return "a second commit" if record.kind == "commit" and record in records else None

    def enter(self, seat, envelope):
        self.lists[seat] += (self.record(envelope)[1],)

    def install(self, seat, claim):
        self.lists[seat] = self.claims[claim].records

    def signed(self, seat, word, length, *following):
        """The text of a seat that signs a front of its list."""
        called = self.script.seated[seat].name
        return (word, called, self.lists[seat][: int(length)], *following)

    def last_set(self, name):
        """The set to which a claim's links lead, or nothing; what they certify is kept."""
        claim, now = self.claims[name], self.genesis
        for link in claim.links:
            front = claim.records[: link.length]
            is_front = link.length <= len(claim.records) and link.head == front
            text = ("handover", now.name, front, link.set.name)
            if link.set.epoch != now.epoch + 1 or not is_front:
                return None
            if not is_quorum(now, text, link.signatures):
                return None
            self.certified.append(front)
            now = link.set
        return now

    def certifies(self, name):
        """Whether a claim's records are certified; if so, they are kept."""
        claim, last = self.claims[name], self.last_set(name)
        if last is None or claim.head != claim.records:
            return False
        is_good = is_quorum(last, ("prefix", last.name, claim.records), claim.signatures)
        if is_good:
            self.certified.append(claim.records)
        return is_good

    def answer(self, name, deal):
        """How a ledger answers a claim about an open deal."""
        if not self.certifies(name):
            return "refused 2 BadClaim"
        records = self.claims[name].records
        found = outcome(records, deal, self._count(deal))
        return f"settled {found}" if found else f"refused 3 Undecided {len(records)}"

    def torn(self):
        """Two certified lists of which neither begins with the other, if there are such."""
        rising = sorted(self.certified, key=len)
        for shorter, longer in zip(rising, rising[1:]):
            if longer[: len(shorter)] != shorter:
                return shorter, longer
        return None


def is_quorum(own, text, signatures):
    """Whether all signatures are of the text by different seats of a set, and enough."""
    places = [place for place, _ in signatures]
    are_seats = all(place < len(own.seats) for place in places) and len(set(places)) == len(places)
    if not are_seats or len(places) < 2 * own.f + 1:
        return False
    return all(said == Said(own.seats[place], text) for place, said in signatures)
