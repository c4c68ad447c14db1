"""What a script does about seats: it hands them entries in an order, gathers their signatures, shows
claims to ledgers, and lets one set hand over to the next."""

from collections import namedtuple

from voting import decision

Link = namedtuple("Link", "set records signatures")


class Board:
    """The order of entries, and what the sets have signed so far."""

    def __init__(self, stage):
        self.stage, self.sets, self.current = stage, list(stage.house.sets), 0
        self.waiting, self.order, self.chain = [], [], []
        self.signed, self.handed, self.ready = {}, {}, {}

    def records(self, seat):
        return tuple(self.stage.node(seat).log.records)

    def running(self, called):
        """The honest seats of a set that have begun and aren't stopped."""
        names = self.stage.honest(self.stage.seats(called))
        has_begun = lambda seat: self.stage.node(seat).began_at is not None
        return [seat for seat in names if has_begun(seat) and not self.stage.is_stopped(seat)]

    def serving(self):
        """Those of the last set that still take entries."""
        names = self.running(self.sets[self.current])
        return [seat for seat in names if self.stage.node(seat).closing is None]

    def post(self, envelope):
        if envelope is not None:
            self.waiting.append(envelope)

    def admit(self):
        """Lets a seat that is level with the order take one of the waiting entries."""
        stage, at = self.stage, len(self.order)
        leaders = [seat for seat in self.serving() if len(self.records(seat)) == at]
        if not leaders or not self.waiting:
            return self.follow()
        seat = stage.chance.choice(leaders)
        place = 0 if stage.likely(0.7) else stage.chance.randrange(len(self.waiting))
        entry = self.waiting.pop(place)
        reply = stage.say("enter", seat, at, entry)
        if len(self.records(seat)) > at:
            self.order.append(entry)
        elif reply and ("NotStarted" in reply or "Store" in reply):
            self.waiting.append(entry)
        return True

    def follow(self):
        """Gives a seat that is behind its next entry; answers whether there was one."""
        behind = [seat for seat in self.serving() if len(self.records(seat)) < len(self.order)]
        if not behind:
            return False
        seat = self.stage.chance.choice(behind)
        at = len(self.records(seat))
        self.stage.say("enter", seat, at, self.order[at])
        return True

    def tear(self):
        """Gives a seat that is behind another entry than the order's."""
        behind = [seat for seat in self.serving() if len(self.records(seat)) <= len(self.order)]
        if behind and self.waiting:
            seat = self.stage.chance.choice(behind)
            entry = self.stage.chance.choice(self.waiting)
            self.stage.say("enter", seat, len(self.records(seat)), entry)

    def decided(self, records):
        """The deals that the records decide."""
        ids = self.stage.world.ids
        return [name for name, deal in ids.items() if decision(records, deal)]

    def sign(self, seats=None):
        """Lets a seat sign its list, or seldom a front of it."""
        stage = self.stage
        seats = seats or self.running(self.sets[stage.chance.randint(0, self.current)])
        if not seats:
            return
        seat = stage.chance.choice(seats)
        records = self.records(seat)
        length = stage.chance.randint(0, len(records)) if stage.likely(0.1) else len(records)
        records = records[:length]
        called, place = self.place(seat)
        known = self.signed.setdefault((called, records), {})
        if place in known or (not self.decided(records) and stage.likely(0.8)):
            return
        envelope = stage.signed("prefix", seat, length)
        if envelope is not None:
            known[place] = envelope

    def place(self, seat):
        """The set of a seat, and its place there."""
        for called in self.sets:
            seats = self.stage.seats(called)
            if seat in seats:
                return called, seats.index(seat)
        return None, None

    def quorum(self, called):
        return 2 * self.stage.house.sets[called].f + 1

    def _help(self, called, records, known, *act):
        """Lets deviating seats of a set sign too, where a log of the records can be said."""
        log = self.stage.log_of(records)
        for seat in self.stage.deviant(self.stage.seats(called)):
            _, place = self.place(seat)
            if log and place not in known:
                known[place] = self.stage.forge(seat, *(log if word is None else word for word in act))

    def claim(self, called, records, signatures):
        """The name of a new claim with all links to the set, if it can be said."""
        stage, log = self.stage, self.stage.log_of(records)
        if log is None:
            return None
        name = stage.fresh("k")
        stage.say("claim", name, log)
        for link in self.chain[: self.sets.index(called)]:
            stage.say("link", name, link.set, len(link.records))
            for place, envelope in link.signatures:
                stage.say("linkby", name, place, envelope)
        for place, envelope in signatures:
            stage.say("by", name, place, envelope)
        stage.claims.append(name)
        return name

    def certified(self):
        """The lists that enough seats have signed, or would with the deviating ones."""
        found = []
        for (called, records), known in self.signed.items():
            bad = len(self.stage.deviant(self.stage.seats(called)))
            if len(known) + bad >= self.quorum(called) and self.decided(records):
                found.append((called, records))
        return found

    def settle(self, deal=None, ledger=None):
        """Shows a ledger a claim whose list decides a deal, if there is one."""
        stage = self.stage
        lists = [key for key in self.certified() if deal is None or deal in self.decided(key[1])]
        if not lists:
            return
        key = stage.chance.choice(lists)
        deal = deal or stage.chance.choice(self.decided(key[1]))
        names = sorted({step.ledger for step in stage.deals[deal].steps})
        claim = self.ready.get(key) or self._claim_of(key)
        if claim is not None:
            stage.say("show", ledger or stage.chance.choice(names), deal, claim)

    def _claim_of(self, key):
        called, records = key
        known = self.signed[key]
        if len(known) < self.quorum(called) or self.stage.likely(0.3):
            self._help(called, records, known, "prefix", called, None)
        signatures = [(place, envelope) for place, envelope in known.items() if envelope]
        self.stage.chance.shuffle(signatures)
        claim = self.claim(called, records, signatures)
        if claim is not None and len(signatures) >= self.quorum(called):
            self.ready[key] = claim
        return claim

    def hand_over(self, are_level=True):
        """Lets the serving set hand over to the next, mostly at one length."""
        if self.current + 1 == len(self.sets):
            return
        called, following = self.sets[self.current : self.current + 2]
        while are_level and self.follow() and self.stage.likely(0.98):
            pass
        for seat in self.running(called):
            records = self.records(seat)
            envelope = self.stage.signed("handover", seat, following, len(records))
            if envelope is not None:
                _, place = self.place(seat)
                self.handed.setdefault((called, following, records), {})[place] = envelope
        for key in [key for key in self.handed if key[:2] == (called, following)]:
            self._link(*key)

    def _link(self, called, following, records):
        known = self.handed[called, following, records]
        self._help(called, records, known, "handover", called, None, following)
        signatures = [(place, envelope) for place, envelope in known.items() if envelope]
        is_next = self.sets[self.current] == called
        if is_next and len(signatures) >= self.quorum(called):
            self.chain.append(Link(following, records, signatures))
            self.current += 1
            self.order, rest = self.order[: len(records)], self.order[len(records) :]
            self.waiting += rest
            self.install()

    def install(self):
        """Lets the honest seats of the last set begin that have not."""
        stage, called = self.stage, self.sets[self.current]
        names = stage.honest(stage.seats(called))
        late = [seat for seat in names if stage.node(seat).began_at is None]
        claim = self.claim(called, self.chain[-1].records, []) if self.chain and late else None
        for seat in late if claim else []:
            deals = list(stage.deals) if stage.likely(0.95) else list(stage.deals)[1:]
            stage.say("install", seat, claim, *deals)
