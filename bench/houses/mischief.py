"""What deviating parties and seats do in a random house beside their plans, and what happens to the
keepers of nodes."""

from signing import number
from texts import ABORT, COMMIT, Start, Vote, write_act
from voting import START, Record

JUNK = ["00", "43434441435430", "4343444143543031", "434344414354303107", "43434441435430310300"]


class Mischief:
    """Everything that a script can say for holders without a node, drawn one by one."""

    def __init__(self, stage, board):
        self.stage, self.board = stage, board
        self.names = stage.deviant(stage.house.holders)
        self.has_own_deals = len(board.sets) == 1 and stage.likely(0.2)

    def _name(self):
        return self.stage.chance.choice(self.names)

    def _holder(self):
        return self.stage.chance.choice([*self.stage.house.holders])

    def _party(self):
        holders = self.stage.house.holders.values()
        return self.stage.chance.choice([h.name for h in holders if h.kind == "party"])

    def _deal(self):
        return self.stage.chance.choice([*self.stage.deals])

    def _ledger(self):
        return self.stage.chance.choice([*self.stage.house.ledgers])

    def _asset(self, ledger):
        rows = self.stage.house.ledgers[ledger]
        return self.stage.chance.choice(sorted({row[0] for row in rows}) or ["coin"])

    def _amount(self):
        return self.stage.chance.choice([0, 1, 1, 2, 3, 50, 2**63 - 1])

    def _deliver(self, envelope, ledger=None, times=1):
        for _ in range(times if envelope else 0):
            self.stage.say("deliver", ledger or self._ledger(), envelope)

    def _enter(self, envelope, at=None):
        """Hands an envelope to a seat at a place, mostly the next one."""
        seats = self.board.running(self.board.sets[self.board.current])
        before = len(self.board.order)
        if self.stage.likely(0.9):
            seats = [seat for seat in seats if len(self.board.records(seat)) == before]
        if seats and envelope:
            seat = self.stage.chance.choice(seats)
            length = len(self.board.records(seat))
            places = [length + 1, 2**32 - 1, *range(length)]
            at = self.stage.chance.choice(places) if at == "off" else length
            self.stage.say("enter", seat, at, envelope)
            if len(self.board.records(seat)) == before + 1 > length:
                self.board.order.append(envelope)

    def act(self):
        if not self.names:
            return self.by_anyone()
        acts = [self.by_anyone, self.pay, self.pay_away, self.escrow_wrongly, self.transfer_wrongly]
        acts += [self.key_again, self.junk, self.registers, self.kept_text]
        acts += [self.vote, self.votes_for_others, self.torn_log, self.foreign_prefix]
        acts += [self.bad_claim, self.bad_claim]
        return self.stage.chance.choice(acts)()

    def by_anyone(self):
        """What needs no key: envelopes and claims that are about, shown again and at wrong places."""
        stage, envelopes = self.stage, self.stage.envelopes
        kind = stage.chance.randrange(7)
        if kind == 6:
            return self.ask_seat()
        if kind == 0 and envelopes:
            self._deliver(stage.chance.choice(envelopes), times=stage.chance.randint(1, 2))
        elif kind == 1 and envelopes:
            self._deliver(stage.flip(stage.chance.choice(envelopes)))
        elif kind == 2 and envelopes:
            self._enter(stage.chance.choice(envelopes), stage.chance.choice([None, "off"]))
        elif kind == 3 and envelopes:
            self._enter(stage.flip(stage.chance.choice(envelopes)))
        elif kind == 4 and stage.claims:
            stage.say("show", self._ledger(), self._deal(), stage.chance.choice(stage.claims))
        elif kind == 5:
            stage.ask(self._ledger(), self._deal(), self._party())

    def ask_seat(self):
        """Asks a seat to sign what it has not, or to hand over to a set that does not follow."""
        seats = self.stage.honest(self.stage.house.seated)
        if not seats:
            return
        seat, ahead = self.stage.chance.choice(seats), self.stage.chance.randint(1, 2)
        if self.stage.likely(0.4):
            self.stage.signed("prefix", seat, len(self.board.records(seat)) + ahead)
        else:
            length = len(self.board.records(seat)) + self.stage.chance.choice([0, -1, 1])
            called = self.stage.chance.choice(self.board.sets)
            following = called == self.board.sets[min(1, len(self.board.sets) - 1)]
            if not (following and self.stage.likely(0.9)):
                self.stage.signed("handover", seat, called, max(0, length))

    def pay(self):
        ledger = self._ledger()
        act = ("pay", ledger, self._holder(), self._asset(ledger), self._amount())
        at = ledger if self.stage.likely(0.8) else None
        self._deliver(self.stage.forge(self._name(), *act), at, self.stage.chance.randint(1, 2))

    def pay_away(self):
        """Pays all that is free of an asset to another, seldom, so that escrows fall short."""
        name, ledger = self._name(), self._ledger()
        account = self.stage.house.holders[name].account
        free = self.stage.node(ledger).free
        rows = [(asset, amount) for (of, asset), amount in free.items() if of == account and amount]
        if rows and self.stage.likely(0.15):
            paid = self.stage.forge(name, "pay", ledger, self._holder(), *rows[0])
            self._deliver(paid, ledger)

    def escrow_wrongly(self):
        """Escrows beside the plan: too much, nothing, at another deal or ledger; sometimes a little."""
        ledger = self._ledger()
        act = ("escrow", self._deal(), ledger, self._asset(ledger), self._amount())
        self._deliver(self.stage.forge(self._name(), *act), ledger if self.stage.likely(0.8) else None)

    def transfer_wrongly(self):
        """Transfers out of turn, to itself or to others, more than there is; seldom what there is."""
        stage, ledger, deal, name = self.stage, self._ledger(), self._deal(), self._name()
        account = stage.house.holders[name].account
        turn = stage.node(ledger).moves.get((stage.world.ids[deal], account), 0)
        turn = turn if stage.likely(0.2) else turn + stage.chance.choice([1, 2, 2**32 - 1 - turn])
        act = ("transfer", deal, ledger, turn, self._holder(), self._asset(ledger), self._amount())
        self._deliver(stage.forge(name, *act), ledger)

    def key_again(self):
        """Another text under a key that has been used, here or there."""
        name, ledger = self._name(), self._ledger()
        used = self.stage.chance.randrange(max(1, min(4, self.stage.house.holders[name].size)))
        act = ("pay", ledger, self._holder(), self._asset(ledger), 1)
        self._deliver(self.stage.forge(name, *act, q=used), ledger, 2)

    def junk(self):
        """Bytes that are no act, and acts that no line of the script names."""
        text = self.stage.chance.choice(JUNK)
        envelope = self.stage.forge(self._name(), "bytes", text)
        self._deliver(envelope)
        self._enter(envelope)

    def registers(self):
        """A registration or a start by whoever it is, given to ledgers and seats alike."""
        word = self.stage.chance.choice(["register", "register", "start"])
        envelope = self.stage.forge(self._name(), word, self._deal())
        self._deliver(envelope)
        self._enter(envelope)
        if word == "start":
            self.board.post(envelope)
        if self.has_own_deals and self.stage.likely(0.5):
            self._own_deal()

    def _own_deal(self):
        """Registers and starts a deal that the script does not declare, a changed text of one."""
        name, called = self._name(), self._deal()
        text = self.stage.world.texts[called].replace(b"deal " + called.encode(), b"deal own", 1)
        register = b"CCDACT01\x01" + number(len(text), 4) + text
        self._deliver(self.stage.forge(name, "bytes", register.hex()))
        self.board.post(self.stage.forge(name, "bytes", write_act(Start(text)).hex()))

    def vote(self):
        """A vote of either kind by whoever it is, to a seat, the order, or a ledger."""
        if self.stage.likely(0.4):
            choice = self.stage.chance.choice(["commit", "commit", "abort"])
            envelope = self.stage.forge(self._name(), "vote", self._deal(), choice)
            self._deliver(envelope) if self.stage.likely(0.3) else self.board.post(envelope)

    def votes_for_others(self):
        """A vote with the index of another party."""
        called = self._deal()
        index = self.stage.chance.choice([0, 1, len(self.stage.house.deals[called][0]), 65535])
        own = self.stage.house.deals[called][0][index : index + 1]
        name = self._name()
        if own != (name,):
            act = Vote(self.stage.world.ids[called], index, self.stage.chance.choice([COMMIT, ABORT]))
            self._enter(self.stage.forge(name, "bytes", write_act(act).hex()))

    def kept_text(self):
        """The very envelope of a compliant holder again, forged from a text that it has signed."""
        holders = [h for h in self.stage.house.holders.values() if h.is_honest and h.kept]
        if holders:
            holder = self.stage.chance.choice(holders)
            q = self.stage.chance.randrange(len(holder.kept))
            words = self.stage.words_of(holder.kept[q])
            envelope = words and self.stage.forge(holder.name, *words, q=q)
            self._deliver(envelope)
            self._enter(envelope)

    def torn_log(self):
        """Deviating seats sign a log of their own, and show what it would decide."""
        called = self.board.sets[self.stage.chance.randint(0, self.board.current)]
        deal = self._deal()
        parties = self.stage.house.deals[deal][0]
        own = self.stage.world.ids[deal]
        votes = [Record(self.stage.chance.choice([COMMIT, COMMIT, COMMIT, ABORT]), index, own)
                 for index in range(len(parties))]  # fmt: skip
        records = (Record(START, len(parties), own), *votes)
        signatures = self._signatures(called, records)
        claim = self.board.claim(called, records, signatures)
        if claim:
            self.stage.say("show", self._ledger(), deal, claim)

    def _signatures(self, called, records):
        """Signatures of deviating seats at all places, their own and those of others."""
        log, seats = self.stage.log_of(records), self.stage.seats(called)
        bad = self.stage.deviant(seats) or self.stage.deviant(self.stage.house.seated)
        if log is None or not bad:
            return []
        found = []
        for place in range(2 * self.stage.house.sets[called].f + 1):
            seat = seats[place] if seats[place] in bad else self.stage.chance.choice(bad)
            found.append((place, self.stage.forge(seat, "prefix", called, log)))
        return found

    def foreign_prefix(self):
        """Texts of seats under keys of parties, and a handover that nobody asked for."""
        stage, logs = self.stage, [*self.stage.logs.values()]
        if not logs:
            return
        called, log = stage.chance.choice(self.board.sets), stage.chance.choice(logs)
        envelope = stage.forge(self._name(), "prefix", called, log)
        self._deliver(envelope)
        following = stage.chance.choice(self.board.sets)
        other = stage.forge(self._name(), "handover", called, log, following)
        claim = stage.fresh("k")
        stage.say("claim", claim, log)
        stage.say("link", claim, following, stage.chance.randint(0, 3))
        stage.say("linkby", claim, stage.chance.randint(0, 3), other)
        stage.say("by", claim, stage.chance.randint(0, 3), envelope)
        stage.say("show", self._ledger(), self._deal(), claim)
        self._install(claim)

    def _install(self, claim):
        seats = self.stage.honest(self.stage.house.seated)
        if seats:
            self.stage.say("install", self.stage.chance.choice(seats), claim, *self.stage.deals)

    def bad_claim(self):
        """A claim of signed records that is spoilt in one way."""
        if not self.board.signed:
            return
        stage, chance = self.stage, self.stage.chance
        called, records = chance.choice([*self.board.signed])
        signatures = [(p, e) for p, e in self.board.signed[called, records].items() if e]
        kind = chance.randrange(7)
        if kind == 0:
            signatures = signatures[: self.board.quorum(called) - 1]
        elif kind == 1 and signatures:
            signatures.append(signatures[0])
        elif kind == 2:
            signatures = [(place + 1, envelope) for place, envelope in signatures]
        elif kind == 3 and signatures:
            signatures[-1] = signatures[-1][0], stage.flip(signatures[-1][1])
        elif kind == 4 and stage.envelopes:
            signatures.append((chance.randint(0, 9), chance.choice(stage.envelopes)))
        elif kind == 5:
            called = chance.choice(self.board.sets)
        claim = self.board.claim(called, records, signatures)
        if claim and kind == 6:
            stage.say("cut", claim)
        if claim:
            stage.say("show", self._ledger(), self._deal(), claim)
        if claim and stage.likely(0.2):
            self._install(claim)


class Trouble:
    """Keepers that fail and stop, and nodes that are opened again."""

    def __init__(self, stage):
        self.stage = stage

    def strike(self):
        name = self.stage.chance.choice([*self.stage.world.nodes])
        moment = self.stage.chance.choice([None, "before", "after"])
        self.stage.say("fail", name) if moment is None else self.stage.say("stop", name, moment)

    def mend(self, share=1.0):
        """Opens stopped nodes again, and seldom one that runs."""
        for name in self.stage.world.nodes:
            if self.stage.likely(share if self.stage.is_stopped(name) else 0.01 * share):
                self.stage.say("reopen", name)
