"""Ledgers, seats and agents over keepers that fail and stop where they are told to."""

from collections import namedtuple

from signing import check, digest
from texts import ABORT, COMMIT, LEDGER_KINDS, Escrow, Pay, Register, Start, Vote, read_act
from texts import read_deal, write_act
from voting import KINDS, START, Log, decision, heads, may_follow

MOST_ACTS = 1000000
MOST_OPEN = 64


class KeeperFault(Exception):
    """The keeper failed, or stopped."""


class Keeper:
    def __init__(self):
        self.armed, self.is_stopped = None, False

    def look(self):
        if self.armed == "fail":
            self.armed = None
            raise KeeperFault

    def commit(self, change):
        """Makes the change, unless the keeper fails or stops before it."""
        self.look()
        moment, self.armed = self.armed, None
        if moment != "before":
            change()
        if moment is not None:
            self.is_stopped = True
            raise KeeperFault

    def restart(self):
        self.armed, self.is_stopped = None, False


class Refusal(Exception):
    """Why a node refuses a call: a number, a name and fields."""


Registered = namedtuple("Registered", "registrant deal outcome")
Accepted = namedtuple("Accepted", "at message")
Statement = namedtuple("Statement", "house ledger deal party at moves rows outcome")


class Ledger:
    """A ledger; amounts stand by account and asset, or by deal, account and asset."""

    def __init__(self, name, genesis, rows):
        self.name, self.genesis, self.keeper = name, genesis, Keeper()
        self.free = {(account, asset): amount for asset, account, amount in rows}
        self.if_commit, self.if_abort, self.moves = {}, {}, {}
        self.deals, self.accepted, self.entries = {}, {}, 0

    def submit(self, envelope):
        try:
            return f"done {self._submit(envelope)}"
        except KeeperFault:
            return "refused 15 Store 1 Keeper"
        except Refusal as refusal:
            return f"refused {refusal}"

    def _submit(self, envelope):
        said, fault = check(envelope)
        if fault:
            raise Refusal(f"1 BadEnvelope {fault}")
        act, fault = read_act(LEDGER_KINDS, envelope.message)
        if fault:
            raise Refusal(f"2 BadAct {fault}")
        self.keeper.look()
        message = digest(envelope.message)
        if said in self.accepted:
            kept = self.accepted[said]
            if kept.message != message:
                raise Refusal(f"3 KeyReused {kept.message.hex()}")
            return kept.at
        change = self._change(said.account, act)
        if len(self.accepted) >= MOST_ACTS:
            raise Refusal(f"14 LedgerFull {MOST_ACTS}")

        def accept():
            change()
            self.entries += 1
            self.accepted[said] = Accepted(self.entries, message)

        self.keeper.commit(accept)
        return self.entries

    def _change(self, account, act):
        """What the act changes, or its refusal."""
        if isinstance(act, Register):
            return self._registration(account, act)
        if act.ledger != self.name:
            raise Refusal(f"4 WrongLedger {act.ledger}")
        if isinstance(act, Pay):
            return self._payment(account, act)
        if act.deal not in self.deals:
            raise Refusal("7 UnknownDeal")
        return (self._escrow if isinstance(act, Escrow) else self._transfer)(account, act)

    def _registration(self, account, act):
        deal, fault = read_deal(act.text)
        if fault:
            raise Refusal(f"5 BadDeal {fault}")
        self._ask_house(deal.house)
        self._ask_party(account, deal)
        if deal.id in self.deals:
            return lambda: None
        own = [kept for kept in self.deals.values() if kept.registrant == account]
        held = sum(1 for kept in own if kept.outcome is None)
        if held >= MOST_OPEN:
            raise Refusal(f"9 DealsFull {held}")
        return lambda: self.deals.update({deal.id: Registered(account, deal, None)})

    def _ask_house(self, house):
        if house != self.genesis.id:
            raise Refusal(f"6 WrongHouse {house.hex()}")

    def _ask_party(self, account, deal):
        if account not in deal.accounts():
            raise Refusal(f"8 NotAParty {account.hex()}")

    def _ask_open(self, deal):
        if self.deals[deal].outcome is not None:
            raise Refusal(f"10 DealSettled {self.deals[deal].outcome}")

    def _payment(self, account, act):
        self._ask_house(act.house)
        return self._move(self.free, (account, act.asset), (act.to, act.asset), act.amount)

    def _ask_amount(self, held, amount):
        if amount == 0:
            raise Refusal("12 ZeroOrSelf")
        if held < amount:
            raise Refusal(f"13 Short {held}")

    def _move(self, amounts, giver, taker, amount):
        if giver == taker:
            raise Refusal("12 ZeroOrSelf")
        self._ask_amount(amounts.get(giver, 0), amount)

        def move():
            amounts[giver] -= amount
            amounts[taker] = amounts.get(taker, 0) + amount

        return move

    def _escrow(self, account, act):
        self._ask_party(account, self.deals[act.deal].deal)
        self._ask_open(act.deal)
        free, row = (account, act.asset), (act.deal, account, act.asset)
        self._ask_amount(self.free.get(free, 0), act.amount)

        def escrow():
            self.free[free] -= act.amount
            for amounts in (self.if_commit, self.if_abort):
                amounts[row] = amounts.get(row, 0) + act.amount

        return escrow

    def _transfer(self, account, act):
        for party in (account, act.to):
            self._ask_party(party, self.deals[act.deal].deal)
        self._ask_open(act.deal)
        made = self.moves.get((act.deal, account), 0)
        if act.turn != made:
            raise Refusal(f"11 WrongTurn {made}")
        giver, taker = (act.deal, account, act.asset), (act.deal, act.to, act.asset)
        move = self._move(self.if_commit, giver, taker, act.amount)

        def transfer():
            move()
            self.moves[act.deal, account] = made + 1

        return transfer

    def claim(self, deal, claim):
        try:
            return self._claim(deal, claim)
        except KeeperFault:
            return "refused 4 Store 1 Keeper"

    def _claim(self, deal, claim):
        self.keeper.look()
        kept = self.deals.get(deal)
        if kept is None:
            return "refused 1 UnknownDeal"
        if kept.outcome is not None:
            return f"already {kept.outcome}"
        fault = claim.fault(self.genesis)
        if fault:
            return f"refused 2 BadClaim {fault}"
        decided = decision(claim.records, deal)
        if decided is None:
            return f"refused 3 Undecided {len(claim.records)}"
        self.keeper.commit(lambda: self._settle(deal, decided.outcome))
        return f"settled {decided.outcome}"

    def _settle(self, deal, outcome):
        self.deals[deal] = self.deals[deal]._replace(outcome=outcome)
        self.entries += 1
        paid = self.if_commit if outcome == "commit" else self.if_abort
        for (of_deal, account, asset), amount in paid.items():
            if of_deal == deal:
                self.free[account, asset] = self.free.get((account, asset), 0) + amount

    def statement(self, deal, party):
        """A statement with its reply, or nothing with a refusal."""
        try:
            self.keeper.look()
        except KeeperFault:
            return None, "refused 3 Store 1 Keeper"
        kept = self.deals.get(deal)
        if kept is None:
            return None, "refused 1 UnknownDeal"
        if party not in kept.deal.accounts():
            return None, f"refused 2 NotAParty {party.hex()}"
        held = self.if_commit.items()
        rows = sorted((row[2], amount) for row, amount in held if row[:2] == (deal, party) and amount)
        moves = self.moves.get((deal, party), 0)
        told = Statement(
            self.genesis.id, self.name, deal, party, self.entries, moves, rows, kept.outcome
        )
        listed = "".join(f" {asset} {amount}" for asset, amount in rows)
        return told, f"statement {told.at} moves {moves}{listed} {kept.outcome or 'open'}"


class Signing:
    """A node that keeps each text before it gives its envelope."""

    def sign(self, text, reserve=0):
        holder = self.holder
        if text not in holder.kept:
            if len(holder.kept) >= holder.size - reserve:
                raise Refusal(f"7 KeysSpent {len(holder.kept)} {holder.size}")
            self.keeper.commit(lambda: holder.kept.append(text))
        return holder.envelope(holder.kept.index(text), text)

    def call(self, function, *arguments):
        """What a call gives with its reply, or nothing with its refusal."""
        try:
            return function(*arguments)
        except KeeperFault:
            return None, f"refused {self.STORE} Store 1 Keeper"
        except Refusal as refusal:
            return None, f"refused {refusal}"


Closing = namedtuple("Closing", "text set")


class Seat(Signing):
    STORE = 18

    def __init__(self, holder, genesis, own_set):
        self.holder, self.genesis, self.set, self.keeper = holder, genesis, own_set, Keeper()
        self.log, self.closing = Log(genesis.id), None
        self.began_at = 0 if own_set.id == genesis.id else None

    def _ask_begun(self):
        if self.began_at is None:
            raise Refusal("1 NotBegun")

    def enter(self, at, envelope):
        self._ask_begun()
        if self.closing:
            raise Refusal(f"2 Closed {self.closing.set.hex()}")
        posting, fault = self.log.post(envelope)
        if fault:
            raise Refusal(f"5 Log {fault}")
        length = len(self.log.records)
        if at > length:
            raise Refusal(f"3 Gap {length}")
        if at < length:
            kept = self.log.records[at]
            if posting.record == kept:
                return None, f"already {at}"
            raise Refusal(f"4 Fork {KINDS[kept.kind]} {kept.number} {kept.deal.hex()}")
        fault = self.log.refusal(posting)
        if fault:
            raise Refusal(f"5 Log {fault}")
        self.keeper.commit(lambda: self.log.take(posting))
        return None, f"entered {at}"

    def _head(self, length):
        return heads(self.genesis.id, self.log.records)[length]

    def prefix(self, length):
        self._ask_begun()
        if length > len(self.log.records):
            raise Refusal(f"6 TooLong {len(self.log.records)}")
        has_handed = self.closing is not None and self.closing.text in self.holder.kept
        text = self.set.prefix_text(length, self._head(length))
        return self.sign(text, 0 if has_handed else 1), "given"

    def handover(self, following, length):
        self._ask_begun()
        if following.epoch != self.set.epoch + 1:
            raise Refusal(f"9 WrongEpoch {self.set.epoch + 1} {following.epoch}")
        if self.closing and self.closing.set != following.id:
            raise Refusal(f"10 ClosedOtherwise {self.closing.set.hex()}")
        if length != len(self.log.records):
            raise Refusal(f"11 LenDiffers {len(self.log.records)}")
        text = self.set.handover_text(length, self._head(length), following.id)
        if self.closing is None:
            self.keeper.commit(lambda: setattr(self, "closing", Closing(text, following.id)))
        return self.sign(text), "given"

    def install(self, claim, texts):
        if self.began_at is not None:
            raise Refusal(f"12 BegunAlready {self.began_at}")
        last, fault = claim.last_set(self.genesis)
        if fault:
            raise Refusal(f"13 BadChain {fault}")
        if last.id != self.set.id:
            raise Refusal(f"14 NotSeated {last.id.hex()}")
        named = claim.links[-1].length
        if len(claim.records) != named:
            raise Refusal(f"15 WrongLength {named} {len(claim.records)}")
        log = self._rebuilt(claim.records, texts)

        def begin():
            self.log, self.began_at = log, len(log.records)

        self.keeper.commit(begin)
        return None, f"installed {self.began_at}"

    def _rebuilt(self, records, texts):
        log = Log(self.genesis.id)
        for at, record in enumerate(records):
            if not may_follow(log.records, record):
                raise Refusal(f"16 BadRecords {at}")
            log.records.append(record)
        for deal, _ in map(read_deal, texts):
            if deal is not None and log.keeps(deal):
                log.deals[deal.id] = deal
        for at, record in enumerate(records):
            is_open = record.kind == START and decision(records, record.deal) is None
            if is_open and record.deal not in log.deals:
                raise Refusal(f"17 TextMissing {at}")
        return log


Joined = namedtuple("Joined", "deal index deadline")


class Agent(Signing):
    STORE = 17

    def __init__(self, holder, house):
        self.holder, self.house, self.keeper = holder, house, Keeper()
        self.joined, self.heard = {}, {}

    def _joined(self, deal):
        if deal not in self.joined:
            raise Refusal("1 NotJoined")
        return self.joined[deal]

    def _acts(self, joined):
        return [write_act(act) for act in joined.deal.plan(joined.index)]

    def _vote(self, joined, choice):
        return write_act(Vote(joined.deal.id, joined.index, choice))

    def _unsigned(self, joined):
        votes = [self._vote(joined, choice) for choice in (COMMIT, ABORT)]
        texts = self._acts(joined) + [write_act(Start(joined.deal.text))] + votes
        return [text for text in texts if text not in self.holder.kept]

    def join(self, text, deadline, terms):
        deal, fault = read_deal(text)
        if fault:
            raise Refusal(f"3 BadDeal {fault}")
        if deal.house != self.house:
            raise Refusal(f"4 OtherHouse {deal.house.hex()}")
        if deal.id in self.joined:
            raise Refusal("2 JoinedAlready")
        if self.holder.account not in deal.accounts():
            raise Refusal("5 NotAParty")
        joined = Joined(deal, deal.accounts().index(self.holder.account), deadline)
        if terms is not None:
            self._ask_terms(joined, terms)
        owing = sum(len(self._unsigned(other)) for other in self.joined.values())
        left = self.holder.size - len(self.holder.kept) - owing
        needed = 3 + len(self._acts(joined))
        if left < needed:
            raise Refusal(f"7 KeysShort {left} {needed}")
        self.keeper.commit(lambda: self.joined.update({deal.id: joined}))
        return None, "joined"

    def _ask_terms(self, joined, terms):
        deal, index = joined.deal, joined.index
        for ledger, asset in deal.pairs():
            gives = (t for t in terms if t[:3] == ("give", ledger, asset))
            asked, allowed = deal.need(index, ledger, asset), sum(term[3] for term in gives)
            if asked > allowed:
                raise Refusal(f"6 Terms 1 GivesMore {ledger} {asset} {asked} {allowed}")
        for side, ledger, asset, wanted in terms:
            offered = deal.due(index, ledger, asset)
            if side == "get" and offered < wanted:
                raise Refusal(f"6 Terms 2 GetsLess {ledger} {asset} {offered} {wanted}")

    def next(self, deal):
        joined = self._joined(deal)
        if any(self._vote(joined, choice) in self.holder.kept for choice in (COMMIT, ABORT)):
            raise Refusal("8 Voted")
        for act in joined.deal.plan(joined.index):
            if write_act(act) not in self.holder.kept:
                return self.sign(write_act(act)), f"act {type(act).__name__.lower()}"
        return None, "none"

    def again(self, deal, place):
        acts = self._acts(self._joined(deal))
        issued = [text for text in acts if text in self.holder.kept]
        if place >= len(issued):
            raise Refusal(f"9 NotIssued {len(issued)}")
        return self.sign(issued[place]), "given"

    def start(self, deal):
        return self.sign(write_act(Start(self._joined(deal).deal.text))), "given"

    def abort(self, deal):
        return self.sign(self._vote(self._joined(deal), ABORT)), "given"

    def commit(self, deal):
        joined = self._joined(deal)
        if self._vote(joined, ABORT) in self.holder.kept:
            raise Refusal("10 AbortSigned")
        if self._vote(joined, COMMIT) not in self.holder.kept:
            left = sum(1 for text in self._acts(joined) if text not in self.holder.kept)
            if left:
                raise Refusal(f"11 ActsOpen {left}")
            for ledger in sorted({step.ledger for step in joined.deal.steps}):
                self._ask_seen(joined, ledger)
        return self.sign(self._vote(joined, COMMIT)), "given"

    def _ask_seen(self, joined, ledger):
        deal, index = joined.deal, joined.index
        dues = [(asset, deal.due(index, ledger, asset)) for of, asset in deal.pairs() if of == ledger]
        dues = [(asset, due) for asset, due in dues if due > 0]
        kept = self.heard.get((deal.id, ledger))
        if not dues:
            return
        if kept is None:
            raise Refusal(f"13 NotValidated {ledger} {dues[0][0]} 0 {dues[0][1]}")
        if kept.outcome is not None:
            raise Refusal(f"12 Settled {ledger} {kept.outcome}")
        own = deal.turns(index, ledger)
        if kept.moves != own:
            raise Refusal(f"14 MovesOpen {ledger} {kept.moves} {own}")
        for asset, due in dues:
            seen = next((amount for listed, amount in kept.rows if listed == asset), 0)
            if seen < due:
                raise Refusal(f"13 NotValidated {ledger} {asset} {seen} {due}")

    def tick(self, deal, now):
        joined = self._joined(deal)
        told = [kept for (of_deal, _), kept in self.heard.items() if of_deal == deal]
        if now < joined.deadline or any(kept.outcome is not None for kept in told):
            return None, "none"
        return self.abort(deal)

    def hear(self, statement):
        if statement.house != self.house:
            raise Refusal(f"4 OtherHouse {statement.house.hex()}")
        joined = self._joined(statement.deal)
        if statement.party != self.holder.account:
            raise Refusal(f"15 NotMine {statement.party.hex()}")
        if statement.ledger not in [step.ledger for step in joined.deal.steps]:
            raise Refusal(f"16 NotOfDeal {statement.ledger}")
        key = (statement.deal, statement.ledger)
        if key in self.heard and statement.at < self.heard[key].at:
            return None, f"older {self.heard[key].at}"
        self.heard[key] = statement
        return None, "kept"

    def forget(self):
        self.heard = {}
