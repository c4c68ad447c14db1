"""A house script while it is written. Each line is tried at once in the rehearsal, so that a name is
used only where it is bound; a line that a rule or a forgery would stop is left out."""

from collections import Counter

from scripts import BUILDING, Forged, Refused, World, is_line, read, rules_behind
from texts import LEDGER_KINDS, LOG_KINDS, COMMIT, Register, Start, Transfer, Escrow, Pay, Vote
from texts import read_act, read_deal
from voting import KINDS, START


def as_script(lines):
    return "".join(line + "\n" for line in lines)


class Stage:
    """The lines so far, the world that they made, and what was said in it."""

    def __init__(self, chance, declared):
        self.chance, self.lines = chance, declared + ["begin"]
        self.house, _ = read(as_script(self.lines).encode())
        self.world = World(self.house)
        self.deals = {name: read_deal(text)[0] for name, text in self.world.texts.items()}
        self.envelopes, self.statements, self.claims = [], [], []
        self.names, self.keys, self.logs = Counter(), Counter(), {}
        self.is_ended, self.reply = False, None

    def likely(self, share):
        return self.chance.random() < share

    def fresh(self, stem):
        self.names[stem] += 1
        return f"{stem}{self.names[stem]}"

    def say(self, *words):
        """The reply to a line, empty for a building line; nothing where the line was left out."""
        line = " ".join(map(str, words))
        word, *rest = line.split(" ")
        self.reply = None
        if self.is_ended or not is_line(word, rest) or rules_behind(self.house, word, rest, None):
            return None
        try:
            self.reply = self._happen(word, rest)
        except (Forged, Refused):
            return None
        self.lines.append(line)
        return self.reply

    def _happen(self, word, words):
        line = len(self.lines) + 1
        if word in BUILDING:
            self.world.build(line, word, words)
            return ""
        return self.world.step(line, word, words)

    def end(self, *words):
        """Ends the script with a line that a rule or a forgery stops."""
        line = " ".join(map(str, words))
        if not self.is_ended and self.say(*words) is None:
            self.lines.append(line)
            self.is_ended = True

    def signed(self, *words):
        """The name of the envelope that a call of an agent or a seat gave, if it gave one."""
        name = self.fresh("e")
        self.say(*words, name)
        return self._keep(name)

    def forge(self, holder, *act, q=None):
        """The name of an envelope under the holder's next key, or under one again if none is left."""
        size = self.house.holders[holder].size
        if q is None:
            q = self.keys[holder] if self.keys[holder] < size else self.chance.randrange(size)
            self.keys[holder] += 1
        name = self.fresh("f")
        self.say("forge", name, holder, q, *act)
        return self._keep(name)

    def flip(self, envelope):
        name = self.fresh("x")
        self.say("flip", name, envelope)
        return self._keep(name)

    def _keep(self, name):
        if name not in self.world.bound:
            return None
        self.envelopes.append(name)
        return name

    def ask(self, ledger, deal, party):
        """The name of a statement, if the ledger gave one."""
        name = self.fresh("s")
        self.say("ask", name, ledger, deal, party)
        if name not in self.world.bound:
            return None
        self.statements.append(name)
        return name

    def message(self, envelope):
        return self.world.bound[envelope][1].message

    def node(self, name):
        return self.world.nodes[name]

    def is_stopped(self, name):
        return self.node(name).keeper.is_stopped

    def honest(self, names):
        return [name for name in names if self.house.holders[name].is_honest]

    def deviant(self, names):
        return [name for name in names if not self.house.holders[name].is_honest]

    def seats(self, called):
        """The names of a set's seats in their order."""
        own = self.house.sets[called]
        return [name for name, seated in self.house.seated.items() if seated is own]

    def name_of(self, account):
        holders = self.house.holders.values()
        return next((holder.name for holder in holders if holder.account == account), None)

    def called(self, deal):
        return next((name for name, known in self.world.ids.items() if known == deal), None)

    def words_of(self, text):
        """The words by which a script forges that text, if it can say it."""
        kinds = {**LEDGER_KINDS, **LOG_KINDS}
        act, _ = read_act(kinds, text)
        if isinstance(act, (Register, Start)):
            name = next((name for name, known in self.world.texts.items() if known == act.text), None)
            word = "register" if isinstance(act, Register) else "start"
            return name and [word, name]
        if act is None or isinstance(act, Pay) or self.called(act.deal) is None:
            return None
        return self.words_of_act(act)

    def words_of_act(self, act):
        """The words of an act at a deal of the script."""
        deal = self.called(act.deal) if hasattr(act, "deal") else None
        if isinstance(act, Register):
            return ["register", self.called(read_deal(act.text)[0].id)]
        if isinstance(act, Escrow):
            return ["escrow", deal, act.ledger, act.asset, act.amount]
        if isinstance(act, Transfer):
            to = self.name_of(act.to)
            return ["transfer", deal, act.ledger, act.turn, to, act.asset, act.amount]
        assert isinstance(act, Vote)
        return ["vote", deal, "commit" if act.choice == COMMIT else "abort"]

    def log_of(self, records):
        """The name of a log with these records, if the script can say it."""
        records = tuple(records)
        if records not in self.logs:
            name = self.fresh("l")
            if self._take(name, records) or self._write(name, records):
                self.logs[records] = name
        return self.logs.get(records)

    def _take(self, name, records):
        seats = [seat for seat in self.honest(self.house.seated) if not self.is_stopped(seat)]
        for seat in seats:
            if tuple(self.node(seat).log.records[: len(records)]) == records:
                return self.say("take", name, seat, len(records)) is not None
        return False

    def _write(self, name, records):
        if any(self.called(record.deal) is None for record in records):
            return False
        if self.say("log", name) is None:
            return False
        for kind, number, deal in records:
            parties = self.house.deals[self.called(deal)][0]
            party = [] if kind == START else [parties[number]]
            self.say("rec", name, KINDS[kind], self.called(deal), *party)
        return len(self.world.bound[name][1]) == len(records)
