#!/usr/bin/env python3
"""Judges the report of a house script by the script and the report alone.

`judge.py SCRIPT REPORT` prints each fault that it finds, and ends with 1 if there is one. With the
word `test` before them it changes one thing of the report after another, and each change has to be
found. It makes the acts that the report says were taken on books of its own, and asks whether all
that the report says fits together, whether no two ledgers settle a deal differently, whether no
compliant party is cheated, whether nothing is lost, and whether each claim is answered as its
certificate asks. It shares no code with the rehearsal, and knows neither hashes nor signatures."""

import re
import sys
from collections import defaultdict, namedtuple

from certificates import Certificates, Said, own_text

BUILDING = "forge flip log rec take claim cut link linkby by term".split()
RULES = [
    "BadLine", "NameTwice", "UnknownName", "BadDeal", "BadSet", "TooManyDeviants",
    "BadOpening", "NotANode", "TooMany", "OutOfRange", "TooLarge", "NotBuilt",
]  # fmt: skip
ACTS = ("register", "pay", "escrow", "transfer")
# Where the name of the node stands in an event's words, if it isn't the first.
NODE_AT = {"ask": 1}
# Refusals whose field is judged.
KNOWN_FIELDS = r"\d+ refused (10 DealSettled|11 WrongTurn|13 Short|3 Undecided) "
OTHER = {"commit": "abort", "abort": "commit", "open": "commit"}


ValidatorSet = namedtuple("ValidatorSet", "name epoch f seats")


class Wrong(Exception):
    """A fault of the report."""


def ask(is_so, why):
    if not is_so:
        raise Wrong(why)


class Deal:
    """A declared deal: its parties in order and its steps, and what a party needs and is owed."""

    def __init__(self, parties):
        self.parties, self.steps = parties, []

    def need(self, party, ledger, asset):
        """The most that the party has given away beyond what it got, over the steps."""
        given = [0]
        for giver, taker, at, what, amount in self.steps:
            if (at, what) == (ledger, asset):
                given.append(given[-1] + amount * ((giver == party) - (taker == party)))
        return max(given)

    def due(self, party, ledger, asset):
        rows = [step for step in self.steps if step[2:4] == (ledger, asset)]
        came = sum(row[4] for row in rows if row[1] == party)
        went = sum(row[4] for row in rows if row[0] == party)
        return self.need(party, ledger, asset) + came - went

    def pairs(self):
        return sorted({step[2:4] for step in self.steps})

    def plan(self, name, party):
        """What the agent of a party signs, one act after another."""
        acts = [("register", name)]
        for ledger, asset in self.pairs():
            if self.need(party, ledger, asset):
                acts.append(("escrow", name, ledger, asset, self.need(party, ledger, asset)))
        turns = defaultdict(int)
        for giver, taker, ledger, asset, amount in self.steps:
            if giver == party:
                acts.append(("transfer", name, ledger, turns[ledger], taker, asset, amount))
                turns[ledger] += 1
        return acts


class Script:
    """What a script declares, and its lines behind `begin` with their numbers."""

    def __init__(self, text):
        self.honest, self.parties, self.deals, self.opens = {}, set(), {}, {}
        self.sets, self.seated = {}, {}
        self.lines, has_begun = [], False
        for number, line in enumerate(text.split("\n"), 1):
            words = line.split(" ")
            if has_begun and line and not line.startswith("#"):
                self.lines.append((number, words))
            elif line == "begin":
                has_begun = True
            else:
                self._declare(words)
        self.last = text.count("\n")

    def _declare(self, words):
        if words[0] in ("party", "seat"):
            self.honest[words[1]] = words[2] == "honest"
            if words[0] == "party":
                self.parties.add(words[1])
        elif words[0] == "set":
            own = ValidatorSet(words[1], int(words[2]), int(words[3]), words[4:])
            self.sets[words[1]] = own
            self.seated.update(dict.fromkeys(words[4:], own))
        elif words[0] == "ledger":
            self.opens[words[1]] = []
        elif words[0] == "open":
            self.opens[words[1]].append((words[2], words[3], int(words[4])))
        elif words[0] == "deal":
            self.deals[words[1]] = Deal(words[2:])
        elif words[0] == "step":
            self.deals[words[1]].steps.append((*words[2:6], int(words[6])))

    def compliant(self, deal):
        """The compliant parties of a declared deal."""
        parties = self.deals[deal].parties if deal in self.deals else []
        return [party for party in parties if self.honest[party]]


class Books:
    """One ledger's amounts, made from the opening rows and the acts that the report says were taken."""

    def __init__(self, name, script):
        self.name, self.script, self.count = name, script, 0
        self.free, self.commit, self.abort = defaultdict(int), defaultdict(int), defaultdict(int)
        self.escrowed, self.came = defaultdict(int), defaultdict(int)
        self.moves, self.deals, self.taken = defaultdict(int), {}, {}
        self.totals = defaultdict(int)
        for asset, party, amount in script.opens[name]:
            self.free[party, asset] += amount
            self.totals[asset] += amount
        self.opening = dict(self.free)

    def done(self, at, key, act):
        """An act that was taken under that number, now or before."""
        if key in self.taken:
            ask(self.taken[key] == (at, act), f"{act} is not the act taken under {at}")
            return
        ask(at == self.count + 1, f"number {at} behind {self.count}")
        self.take(key, act)

    def take(self, key, act):
        ask(key and act, "an envelope that says no act was taken")
        ask(key not in self.taken, f"{act} was taken twice")
        getattr(self, "_" + act[0])(key[0], *act[1:])
        self.count += 1
        self.taken[key] = (self.count, act)

    def _ask_party(self, deal, *names):
        ask(deal in self.deals, f"{deal} is not registered")
        ask(self.deals[deal] is None, f"{deal} is settled")
        for name in names:
            ask(name in self.script.deals[deal].parties, f"{name} is no party of {deal}")

    def _move(self, amounts, giver, taker, amount):
        ask(0 < amount <= amounts[giver], f"{giver} has no {amount}")
        ask(giver != taker, f"{giver} gives to itself")
        amounts[giver] -= amount
        amounts[taker] += amount

    def _register(self, holder, deal):
        if deal in self.script.deals:
            ask(holder in self.script.deals[deal].parties, f"{holder} is no party of {deal}")
        self.deals.setdefault(deal, None)

    def _pay(self, holder, ledger, taker, asset, amount):
        ask(ledger == self.name, "an act of another ledger was taken")
        ask(not (holder in self.script.parties and self.script.honest[holder]), "an agent paid")
        self._move(self.free, (holder, asset), (taker, asset), amount)
        self.came[holder, asset] -= amount
        self.came[taker, asset] += amount

    def _escrow(self, holder, deal, ledger, asset, amount):
        ask(ledger == self.name, "an act of another ledger was taken")
        self._ask_party(deal, holder)
        ask(0 < amount <= self.free[holder, asset], f"{holder} has no {amount} {asset}")
        self.free[holder, asset] -= amount
        for amounts in (self.commit, self.abort, self.escrowed):
            amounts[deal, asset, holder] += amount

    def _transfer(self, holder, deal, ledger, turn, taker, asset, amount):
        ask(ledger == self.name, "an act of another ledger was taken")
        self._ask_party(deal, holder, taker)
        ask(turn == self.moves[deal, holder], f"turn {turn} of {holder} was taken out of turn")
        self._move(self.commit, (deal, asset, holder), (deal, asset, taker), amount)
        self.moves[deal, holder] += 1

    def settle(self, deal, outcome):
        ask(deal in self.deals, f"{deal} is settled and was not registered")
        ask(self.deals[deal] is None, f"{deal} is settled twice")
        self.deals[deal] = outcome
        self.count += 1
        for (of, asset, holder), amount in self.paid(deal).items():
            if of == deal:
                self.free[holder, asset] += amount

    def paid(self, deal):
        return dict(self.commit if self.deals[deal] == "commit" else self.abort)

    def held(self, act, holder):
        """What a refused act could have used."""
        if act[0] == "transfer":
            return self.commit[act[1], act[5], holder]
        return self.free[holder, act[3]]

    def statement(self, deal, party):
        rows = sorted((asset, amount) for (of, asset, holder), amount in self.commit.items()
                      if (of, holder) == (deal, party) and amount)  # fmt: skip
        listed = "".join(f" {asset} {amount}" for asset, amount in rows)
        moves = self.moves[deal, party]
        return f"statement {self.count} moves {moves}{listed} {self.deals[deal] or 'open'}"

    def table(self):
        """The lines of the final table."""
        lines = [f"ledger {self.name}"]
        rows = sorted((asset, holder, n) for (holder, asset), n in self.free.items() if n)
        lines += [f"free {asset} {holder} {amount}" for asset, holder, amount in rows]
        for deal in sorted(self.deals):
            lines.append(f"deal {deal} {self.deals[deal] or 'open'}")
            for of, asset, holder in sorted(self.commit):
                if of == deal:
                    lines += self._row(deal, asset, holder)
        return lines

    def _row(self, *row):
        about, commit, abort = " ".join(row), self.commit[row], self.abort[row]
        if self.deals[row[0]] is None:
            return [f"hold {about} {commit} {abort}"] if commit or abort else []
        paid = commit if self.deals[row[0]] == "commit" else abort
        return [f"paid {about} {paid}"] if paid else []


class Agent:
    """What the report says that an agent has signed at a deal."""

    def __init__(self, plan):
        self.plan, self.issued, self.may_have_committed = plan, 0, False


class Judge:
    """Goes through a script with its report."""

    def __init__(self, script, replies):
        self.script, self.replies = script, replies
        self.books = {name: Books(name, script) for name in script.opens}
        self.agents, self.envelopes, self.statements = {}, {}, {}
        self.certificates = Certificates(script)
        self.armed, self.heard = {}, {}
        self.settled, self.place = defaultdict(set), 0

    def go(self):
        for number, words in self.script.lines:
            if words[0] in BUILDING:
                self._build(*words)
                continue
            ask(self.place < len(self.replies), f"line {number} has no reply")
            told, reply = self.replies[self.place]
            self.place += 1
            ask(told == number, f"reply {told} stands for line {number}")
            self._reply(number, words, reply)
        ask(self.place == len(self.replies), "replies to no line")

    def _reply(self, number, words, reply):
        try:
            node = words[1 + NODE_AT.get(words[0], 0)]
            was_kept = "Store 1 Keeper" in reply and self.armed.pop(node, None) == "after"
            if reply != "stopped":
                getattr(self, "_on_" + words[0])(reply, was_kept, *words[1:])
        except Wrong as wrong:
            raise Wrong(f"line {number}: {wrong}") from wrong

    def _build(self, word, name, *rest):
        self.certificates.build(word, name, *rest)
        if word == "forge":
            self.envelopes[name] = self._forged(*rest)
        elif word == "flip":
            key, act = self.envelopes[rest[0]]
            self.envelopes[name] = act if key is None else (None, (key, act))

    def _forged(self, holder, q, word, *fields):
        """The holder with what tells its envelopes apart, and the act where it is one of ledgers."""
        act = tuple(int(field) if field.isdigit() else field for field in fields)
        act = (word, *act) if word in ACTS else None
        if word == "bytes":
            text = own_text(fields[0])
            act = text if text and text[0] in ACTS else None
        return (holder, act if self.script.honest[holder] else int(q)), act

    def _agent(self, party, deal):
        if (party, deal) not in self.agents:
            self.agents[party, deal] = Agent(self.script.deals[deal].plan(deal, party))
        return self.agents[party, deal]

    def _gives(self, holder, text, envelope):
        """An envelope of an agent or a seat."""
        act = text if text[0] in ACTS else None
        self.envelopes[envelope] = ((holder, act), act)
        self.certificates.said[envelope] = Said(holder, text)

    def _on_deliver(self, reply, was_kept, ledger, envelope):
        books, (key, act) = self.books[ledger], self.envelopes[envelope]
        if reply.startswith("done "):
            books.done(int(reply[5:]), key, act)
        elif was_kept:
            books.take(key, act)
        elif key is not None and act is not None:
            self._ask_refusal(books, key[0], act, reply)

    def _ask_refusal(self, books, holder, act, reply):
        """Fields of refusals that the books know."""
        number, _, *fields = reply.split(" ")[1:]
        told = " ".join(fields)
        if number == "10":
            ask(told == books.deals.get(act[1]), f"{act[1]} is not settled by {told}")
        if number == "11":
            ask(told == str(books.moves[act[1], holder]), f"{holder} has not made {told} moves")
        if number == "13":
            held = books.held(act, holder)
            ask(told == str(held) and held < act[-1], f"{holder} holds {held} for {act}")

    def _on_show(self, reply, was_kept, ledger, deal, claim):
        books, (word, *rest) = self.books[ledger], reply.split(" ")
        if word in ("settled", "already"):
            ask(rest in (["commit"], ["abort"]), f"{deal} is settled by {rest}")
            self.settled[deal].add(rest[0])
            self._ask_signed(deal, rest[0])
        answer = self.certificates.answer(claim, deal)
        if deal not in books.deals:
            answer = "refused 1 UnknownDeal"
        elif books.deals[deal] is not None:
            answer = f"already {books.deals[deal]}"
        elif answer.startswith("settled") and (word == "settled" or was_kept):
            books.settle(deal, answer.split(" ")[-1])
        is_answer = reply == answer or (reply.startswith(answer + " ") and "BadClaim" in answer)
        ask(is_answer or "Store 1 Keeper" in reply, f"{reply} to a claim, not {answer}")
        ask(not was_kept or answer.startswith("settled"), f"a keeper is used by a claim: {answer}")

    def _ask_signed(self, deal, outcome):
        """Each compliant party has signed its commit where a deal commits."""
        for party in self.script.compliant(deal) if outcome == "commit" else []:
            agent = self.agents.get((party, deal))
            ask(agent and agent.may_have_committed, f"{party} has not committed to {deal}")

    def _on_ask(self, reply, _, name, ledger, deal, party):
        books = self.books[ledger]
        if reply.startswith("statement "):
            ask(reply == books.statement(deal, party), f"the statement is {reply}")
            self.statements[name] = (ledger, deal, party, reply)

    def _on_hear(self, reply, _, party, name):
        ledger, deal, of, told = self.statements[name]
        at = int(told.split(" ")[1])
        word, *rest = reply.split(" ")
        before = int(self.heard.get((party, ledger, deal), "statement 0").split(" ")[1])
        if word == "kept":
            ask(of == party and at >= before, f"{party} keeps a statement of {of} at {at}")
            self.heard[party, ledger, deal] = told
        elif word == "older":
            ask(rest == [str(before)] and at < before, f"{before} is not older than {at}")

    def _on_join(self, reply, _, party, deal, *_rest):
        if reply == "joined":
            ask(party in self.script.deals[deal].parties, f"{party} is no party of {deal}")

    def _on_next(self, reply, was_kept, party, deal, envelope):
        agent = self._agent(party, deal)
        left = agent.plan[agent.issued :]
        if reply == "none":
            ask(not left, f"{party} has {left} left")
        elif reply.startswith("act "):
            ask(left and reply == f"act {left[0][0]}", f"{party} has {left} left")
            self._gives(party, left[0], envelope)
        agent.issued += was_kept or reply.startswith("act ")

    def _on_again(self, reply, _, party, deal, place, envelope):
        agent = self._agent(party, deal)
        if reply == "given":
            ask(int(place) < agent.issued, f"{party} has issued {agent.issued}")
            self._gives(party, agent.plan[int(place)], envelope)

    def _on_start(self, reply, _, party, deal, envelope):
        if reply == "given":
            self._gives(party, ("start", deal), envelope)

    def _on_abort(self, reply, _, party, deal, envelope):
        if reply == "given":
            self._gives(party, self.certificates.vote(party, deal, "abort"), envelope)

    def _on_tick(self, reply, was_kept, party, deal, _now, envelope):
        self._on_abort(reply, was_kept, party, deal, envelope)

    def _on_commit(self, reply, was_kept, party, deal, envelope):
        if reply == "given":
            self._gives(party, self.certificates.vote(party, deal, "commit"), envelope)
        if reply == "given" or was_kept:
            agent = self._agent(party, deal)
            ask(agent.issued == len(agent.plan), f"{party} commits before its plan is done")
            if not agent.may_have_committed:
                self._ask_seen(party, deal)
            agent.may_have_committed = True

    def _ask_seen(self, party, name):
        """Each ledger told the party that it has made its moves and holds what it is owed."""
        deal = self.script.deals[name]
        for ledger, asset in deal.pairs():
            due = deal.due(party, ledger, asset)
            if due > 0:
                _, _, _, moves, *rows, outcome = self._told(party, ledger, name)
                made = sum(1 for step in deal.steps if (step[0], step[2]) == (party, ledger))
                held = dict(zip(rows[::2], map(int, rows[1::2]))).get(asset, 0)
                is_seen = int(moves) == made and held >= due and outcome == "open"
                ask(is_seen, f"{party} commits to {name} and was told {moves} moves, {held} {asset}")

    def _told(self, party, ledger, deal):
        heard = self.heard.get((party, ledger, deal))
        ask(heard, f"{party} commits to {deal} and heard nothing of {ledger}")
        return heard.split(" ")

    def _on_prefix(self, reply, _, seat, length, envelope):
        if reply == "given":
            self._gives(seat, self.certificates.signed(seat, "prefix", length), envelope)

    def _on_handover(self, reply, _, seat, following, length, envelope):
        if reply == "given":
            text = self.certificates.signed(seat, "handover", length, following)
            self._gives(seat, text, envelope)

    def _on_enter(self, reply, was_kept, seat, at, envelope):
        word, *rest = reply.split(" ")
        if word == "already":
            records, (_, record) = self.certificates.lists[seat], self.certificates.record(envelope)
            ask(rest == [at] and records[int(at)] == record, f"{record} is not at {at}")
        if word == "entered" or was_kept:
            length = len(self.certificates.lists[seat])
            why = self.certificates.may_enter(seat, envelope)
            ask(was_kept or rest == [str(length)] == [at], f"entered {rest} behind {length}")
            ask(why is None, f"{seat} takes what it may not: {why}")
            self.certificates.enter(seat, envelope)

    def _on_install(self, reply, was_kept, seat, claim, *_deals):
        word, *rest = reply.split(" ")
        last = self.certificates.last_set(claim)
        if word == "installed" or was_kept:
            length = len(self.certificates.claims[claim].records)
            ask(was_kept or rest == [str(length)], f"begins at {rest}, not {length}")
            ask(last == self.script.seated.get(seat), f"{seat} is no seat of {last}")
            self.certificates.install(seat, claim)

    def _on_fail(self, _reply, _, node):
        self.armed[node] = "fail"

    def _on_stop(self, _reply, _, node, moment):
        self.armed[node] = moment

    def _on_reopen(self, reply, _, node):
        ask(reply == "opened", f"reopened with {reply}")
        self.armed.pop(node, None)
        for key in [key for key in self.heard if key[0] == node]:
            del self.heard[key]


class Table:
    """A ledger's table as it stands in the report."""

    def __init__(self, name):
        self.name, self.lines, self.free, self.deals = name, [f"ledger {name}"], {}, {}
        self.held, self.paid = {}, {}

    def add(self, line):
        self.lines.append(line)
        word, *rest = line.split(" ")
        if word == "free" and len(rest) == 3:
            self.free[rest[1], rest[0]] = int(rest[2])
        elif word == "deal" and len(rest) == 2:
            self.deals[rest[0]] = None if rest[1] == "open" else rest[1]
        elif word == "hold" and len(rest) == 5:
            self.held[tuple(rest[:3])] = (int(rest[3]), int(rest[4]))
        elif word == "paid" and len(rest) == 4:
            self.paid[tuple(rest[:3])] = int(rest[3])
        else:
            raise Wrong(f"no line of a table: {line}")

    def ask_totals(self, books):
        """Each asset's free amounts, with what open deals hold for either outcome, are as at first."""
        for side in (0, 1):
            totals = defaultdict(int)
            for (_, asset), amount in self.free.items():
                totals[asset] += amount
            for (_, asset, _), amounts in self.held.items():
                totals[asset] += amounts[side]
            found = {asset: amount for asset, amount in totals.items() if amount}
            ask(found == dict(books.totals), f"{self.name} holds {found}, not {dict(books.totals)}")

    def ask_fair(self, books, script):
        """No compliant party gets less than what it is owed, or another escrow than its own back."""
        due = defaultdict(int)
        for deal, outcome in self.deals.items():
            for party in script.compliant(deal):
                for asset in self._assets(books, deal, party):
                    due[party, asset] += self._ask_paid(books, script, deal, outcome, party, asset)
        for holder in [name for name in script.parties if script.honest[name]]:
            for asset in books.totals:
                free, least = self.free.get((holder, asset), 0), self._kept(books, holder, asset)
                least += due[holder, asset]
                ask(free >= least, f"{holder} has {free} {asset} on {self.name}, not {least}")

    def _assets(self, books, deal, party):
        rows = [*books.escrowed, *self.paid]
        own = {asset for of, asset, holder in rows if (of, holder) == (deal, party)}
        steps = books.script.deals[deal].pairs()
        return own | {asset for ledger, asset in steps if ledger == self.name}

    def _kept(self, books, holder, asset):
        """What the holder has beside its deals."""
        went = sum(n for (_, what, who), n in books.escrowed.items() if (who, what) == (holder, asset))
        return books.opening.get((holder, asset), 0) + books.came[holder, asset] - went

    def _ask_paid(self, books, script, deal, outcome, party, asset):
        """What a party has to get at a deal in an asset, which it got."""
        need = script.deals[deal].need(party, self.name, asset)
        due = script.deals[deal].due(party, self.name, asset)
        escrow, paid = books.escrowed[deal, asset, party], self.paid.get((deal, asset, party), 0)
        ask(escrow in (0, need), f"{party} has escrowed {escrow} {asset} at {deal}, not {need}")
        if outcome == "commit":
            ask(paid >= due, f"{party} is paid {paid} {asset} by {deal} and is owed {due}")
            return due
        if outcome == "abort":
            ask(paid == escrow, f"{party} is paid {paid} {asset} back, and escrowed {escrow}")
            return escrow
        return 0


def read(report):
    """The replies of a report with their numbers, and its tables; a stopped ledger's is nothing."""
    replies, tables, table = [], {}, None
    ask(report.endswith("\n"), "the report's last line is not ended")
    for line in report[:-1].split("\n"):
        reply = re.fullmatch(r"(\d+) (.+)", line)
        ledger = re.fullmatch(r"ledger (\S+)( stopped)?", line)
        if reply and not tables:
            replies.append((int(reply[1]), reply[2]))
        elif ledger:
            ask(ledger[1] not in tables, f"{ledger[1]} has two tables")
            table = None if ledger[2] else Table(ledger[1])
            tables[ledger[1]] = table
        else:
            ask(table is not None, f"no line of a report: {line}")
            table.add(line)
    return replies, tables


def judge(script, report):
    replies, tables = read(report)
    judged = Judge(script, replies)
    judged.go()
    ask([*tables] == sorted(script.opens), "not one table a ledger, in order")
    for name, table in tables.items():
        for deal, outcome in table.deals.items() if table else []:
            judged.settled[deal] |= {outcome} - {None}
    for deal, outcomes in judged.settled.items():
        ask(len(outcomes) < 2, f"{deal} commits and aborts")
    ask(judged.certificates.torn() is None, "two certified lists, neither of which begins the other")
    for name, table in tables.items():
        if table:
            books = judged.books[name]
            table.ask_totals(books)
            table.ask_fair(books, script)
            expected = books.table()
            wrong = [pair for pair in zip(table.lines, expected) if pair[0] != pair[1]]
            ask(table.lines == expected, f"the table of {name} is another: {wrong[:1]}")


def stopped(script, report):
    """Judges the one line of a script that a rule or a forgery stopped."""
    found = re.fullmatch(r"line (\d+) (rule|forgery) (\S+) (\S+)\n", report)
    ask(found, "no line of a stopped script")
    number = int(found[1])
    ask(number <= script.last, "behind the script's end")
    if found[2] == "rule":
        ask(found[3].isdigit() and RULES[int(found[3]) - 1 :][:1] == [found[4]], "no such rule")
        return
    ask(script.honest.get(found[3]), f"{found[3]} is not compliant")
    words = next((words for line, words in script.lines if line == number), [])
    ask(words[:1] and words[0] in ("deliver", "enter", "show", "install"), "delivers nothing")
    forged = {words[1]: words[2:4] for _, words in script.lines if words[0] == "forge"}
    is_own = forged.get(words[-1]) == [found[3], found[4]]
    ask(is_own or words[0] in ("show", "install"), f"{found[3]} and {found[4]} are not its key")


def faults(text, report):
    """The first fault of a report, if it has one."""
    try:
        script = Script(text)
        (stopped if report.startswith("line ") else judge)(script, report)
        return []
    except Wrong as wrong:
        return [str(wrong)]
    except (LookupError, ValueError) as stumble:
        return [f"a later line uses what the report says was not given: {stumble!r}"]


def changes(text, report):
    """Reports with one thing changed, each with what it was: numbers, outcomes, lines, and a coin."""
    lines, found = report.split("\n")[:-1], []
    for at, line in enumerate(lines):
        words = line.split(" ")
        is_refusal = words[1:2] == ["refused"] and not re.match(KNOWN_FIELDS, line)
        for place, word in enumerate(words[:1] if is_refusal else words):
            if is_unjudged(words, place):
                continue
            for other in [str(int(word) + 1)] if word.isdigit() else [OTHER.get(word)]:
                if other:
                    changed = " ".join(words[:place] + [other] + words[place + 1 :])
                    found.append((f"{line} -> {changed}", lines[:at] + [changed] + lines[at + 1 :]))
        found.append((f"without {line}", lines[:at] + lines[at + 1 :]))
    found += stolen(lines)
    return [(what, "".join(line + "\n" for line in changed)) for what, changed in found]


def is_unjudged(words, place):
    """Whether a word is a refusal's number or name, or tells which line breaks a rule."""
    is_rule = words[0] == "line" and words[2:3] == ["rule"] and place == 1
    return is_rule or (words[1:2] == ["refused"] and 2 <= place < 4)


def stolen(lines):
    """One coin is taken from one row of a table and given to another of the same kind and asset."""
    found, heads = [], [re.fullmatch(r"(free|paid \S+) (\S+) (\S+) (\d+)", line) for line in lines]
    for at, (head, following) in enumerate(zip(heads, heads[1:])):
        if head and following and head.group(1, 2) == following.group(1, 2):
            less = f"{head[1]} {head[2]} {head[3]} {int(head[4]) - 1}"
            more = f"{following[1]} {following[2]} {following[3]} {int(following[4]) + 1}"
            found.append((f"stolen from {lines[at]}", lines[:at] + [less, more] + lines[at + 2 :]))
    return found


def passed(text, report):
    """The changes that the judge doesn't find."""
    return [what for what, changed in changes(text, report) if not faults(text, changed)]


def main():
    words = sys.argv[1:]
    is_test = words[:1] == ["test"]
    if len(words) != 2 + is_test:
        print(__doc__)
        sys.exit(1)
    with open(words[-2], encoding="utf-8") as script, open(words[-1], encoding="utf-8") as report:
        text, told = script.read(), report.read()
    found = faults(text, told)
    if is_test:
        print(f"{len(changes(text, told))} changes")
        found += [f"not found: {what}" for what in passed(text, told)]
    print("\n".join(found) if found else "no fault")
    sys.exit(1 if found else 0)


if __name__ == "__main__":
    main()
