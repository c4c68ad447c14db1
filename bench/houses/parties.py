"""Parties of a deal in a random house: compliant ones, which act through their agents, and deviating
ones, which forge what they like."""


class Party:
    """What both have: envelopes that some ledgers are still to be given."""

    def __init__(self, stage, board, name, deal):
        self.stage, self.board, self.name, self.called = stage, board, name, deal
        self.deal = stage.deals[deal]
        self.index = stage.house.deals[deal][0].index(name)
        self.ledgers = sorted({step.ledger for step in self.deal.steps})
        self.outbox = []

    def send(self, envelope, ledger=None):
        """Has an envelope delivered, a registration to every ledger of the deal."""
        for name in self.ledgers if ledger is None else [ledger]:
            if envelope is not None:
                self.outbox.append((name, envelope))

    def deliver(self):
        place = 0 if self.stage.likely(0.6) else self.stage.chance.randrange(len(self.outbox))
        ledger, envelope = self.outbox.pop(place)
        reply = self.stage.say("deliver", ledger, envelope)
        is_done = reply is not None and reply.startswith("done")
        if not is_done or self.stage.likely(0.03):
            self.outbox.append((ledger, envelope))

    def has_started(self):
        return any(self.deal.id == record.deal for seat in self.board.running(self.board.sets[0])
                   for record in self.board.records(seat))  # fmt: skip


class Compliant(Party):
    """A compliant party: its lines come in any order, since its agent refuses what would harm it."""

    def __init__(self, *where):
        super().__init__(*where)
        chance = self.stage.chance
        self.deadline = chance.choice([40, 100, 200, 400, 400, 900])
        self.is_nervous = chance.random() < 0.06
        self.is_joined = self.is_done = self.has_asked = False
        self.votes, self.tries = set(), 0

    def turn(self, now):
        if not self.is_joined:
            return self.join() if self.tries < 4 or self.stage.likely(0.1) else None
        if self.is_nervous and self.stage.likely(0.05):
            return self.vote("abort", self.called)
        if self.stage.likely(0.04):
            return self.wander(now)
        if not self.is_done and self.stage.likely(0.5):
            return self.next()
        if self.outbox and self.stage.likely(0.9):
            return self.deliver()
        if not self.has_asked and self.stage.likely(0.5):
            return self.start()
        if self.is_done and not self.votes:
            return self.hear_and_commit()
        if now >= self.deadline:
            return self.vote("tick", self.called, now)
        return None

    def join(self):
        terms = [self._terms()] if self.stage.likely(0.3) else []
        reply = self.stage.say("join", self.name, self.called, self.deadline, *terms)
        self.is_joined = reply == "joined"
        self.tries += 1

    def _terms(self):
        """The name of terms that name what the deal needs and owes, now and then a little else."""
        name, deal, chance = self.stage.fresh("t"), self.deal, self.stage.chance
        for ledger, asset in deal.pairs():
            given = deal.need(self.index, ledger, asset) - chance.choice([0] * 30 + [1])
            wanted = deal.due(self.index, ledger, asset) + chance.choice([0] * 30 + [1])
            self.stage.say("term", name, "give", ledger, asset, max(0, given))
            self.stage.say("term", name, "get", ledger, asset, wanted)
        return name

    def next(self):
        name = self.stage.signed("next", self.name, self.called)
        if name is None:
            self.is_done = self.stage.reply == "none"
            return
        words = self.stage.words_of(self.stage.message(name))
        self.send(name, None if words[0] == "register" else words[2])

    def start(self):
        self.has_asked = True
        if not self.has_started():
            self.board.post(self.stage.signed("start", self.name, self.called))

    def vote(self, *words):
        """Posts the vote, if the agent gives one; what was posted is seldom posted again."""
        kind = "commit" if words[0] == "commit" else "abort"
        if kind in self.votes and self.stage.likely(0.95):
            return
        name = self.stage.signed(words[0], self.name, *words[1:])
        if name is not None:
            self.votes.add(kind)
            self.board.post(name)

    def hear_and_commit(self):
        for ledger in self.ledgers:
            if self.stage.likely(0.95):
                name = self.stage.ask(ledger, self.called, self.name)
                if name is not None:
                    self.stage.say("hear", self.name, name)
        self.vote("commit", self.called)

    def wander(self, now):
        """A line that does not help, and may do no harm."""
        kind = self.stage.chance.randrange(5)
        if kind == 0:
            name = self.stage.signed("again", self.name, self.called, self.stage.chance.randrange(4))
            self.send(name, self.stage.chance.choice(self.ledgers))
        elif kind == 1 and self.stage.statements:
            self.stage.say("hear", self.name, self.stage.chance.choice(self.stage.statements))
        elif kind == 2:
            self.vote("tick", self.called, self.stage.chance.randint(0, now))
        elif kind == 3:
            self.vote("commit", self.called)
        else:
            self.board.post(self.stage.signed("start", self.name, self.called))


class Deviating(Party):
    """A deviating party: it keeps to its plan as long as it likes to, and votes as it likes to."""

    def __init__(self, *where):
        super().__init__(*where)
        chance = self.stage.chance
        self.temper = chance.choice(["loyal", "loyal", "loyal", "hasty", "lazy", "hostile"])
        self.plan = self.deal.plan(self.index)
        if self.temper == "hasty":
            chance.shuffle(self.plan)
        if self.temper == "lazy":
            self.plan = self.plan[: chance.randint(0, len(self.plan))]
        votes = {"hostile": ["abort", "commit", "abort"], "lazy": chance.choice([[], ["commit"]])}
        self.votes = votes.get(self.temper, ["commit"])

    def turn(self, _now):
        likely = self.stage.likely
        if self.plan and likely(0.5):
            act = self.plan.pop(0)
            name = self.stage.forge(self.name, *self.stage.words_of_act(act))
            return self.send(name, getattr(act, "ledger", None))
        if self.outbox and likely(0.8):
            return self.deliver()
        if self.votes and (self.temper in ("hasty", "hostile") or not (self.plan or self.outbox)):
            if likely(0.1 if self.temper == "hostile" else 0.4):
                vote = self.stage.forge(self.name, "vote", self.called, self.votes.pop(0))
                return self.board.post(vote)
        if likely(0.1) and not self.has_started():
            return self.board.post(self.stage.forge(self.name, "start", self.called))
        return None
