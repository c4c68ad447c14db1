"""House scripts: reading them, letting them happen, and their reports."""

import re
import sys

from nodes import Agent, Ledger, Seat
from signing import MOST_AMOUNT, Holder, check, digest, flipped
from texts import ABORT, AMOUNT, COMMIT, NAME, Escrow, Pay, Register, Start, Transfer, Vote
from texts import is_connected, write_act
from voting import MOST_RECORDS, START, Claim, Link, Record, ValidatorSet, heads

RULES = [
    "BadLine", "NameTwice", "UnknownName", "BadDeal", "BadSet", "TooManyDeviants",
    "BadOpening", "NotANode", "TooMany", "OutOfRange", "TooLarge", "NotBuilt",
]  # fmt: skip
BAD_LINE, NAME_TWICE, UNKNOWN_NAME, BAD_DEAL, BAD_SET, TOO_MANY_DEVIANTS = range(1, 7)
BAD_OPENING, NOT_A_NODE, TOO_MANY, OUT_OF_RANGE, TOO_LARGE, NOT_BUILT = range(7, 13)

MOST_BYTES, MOST_LINES, MOST_MESSAGE = 2097152, 20000, 16384
NO_INDEX = 65535

# What stands behind the first word: a name, a number, an amount, a size, bytes, one of some words;
# `+` and `*` let the last one stand again.
NAMED = {
    "party": "N honest|deviant S", "seat": "N honest|deviant S", "set": "N n n N+",
    "ledger": "N", "open": "N N N A", "deal": "N N N+", "step": "N N N N N A",
}  # fmt: skip
BUILT_OF = {
    "flip": "N N", "log": "N", "take": "N N n", "claim": "N N", "cut": "N", "link": "N N n",
    "linkby": "N n N", "by": "N n N", "term": "N give|get N N A",
}  # fmt: skip
HAPPENS = {
    "deliver": "N N", "show": "N N N", "ask": "N N N N", "next": "N N N", "again": "N N n N",
    "start": "N N N", "commit": "N N N", "abort": "N N N", "tick": "N N n N", "hear": "N N",
    "enter": "N n N", "prefix": "N n N", "handover": "N N n N", "install": "N N N*",
    "fail": "N", "stop": "N before|after", "reopen": "N",
}  # fmt: skip
FORGED = {
    "register": "N", "pay": "N N N A", "escrow": "N N N A", "transfer": "N N n N N A",
    "start": "N", "vote": "N commit|abort", "prefix": "N N", "handover": "N N N", "bytes": "H",
}  # fmt: skip
FORMS = {word: form.split() for word, form in {**NAMED, **BUILT_OF, **HAPPENS}.items()}
BUILDING = {"forge", "rec", *BUILT_OF}


class Refused(Exception):
    """The first line that breaks a rule, with the rule."""

    def __init__(self, line, rules):
        self.line, self.rule = line, min(rules)


class Forged(Exception):
    """The first line that delivers a forgery, with whose it is."""

    def __init__(self, line, name, q):
        self.line, self.name, self.q = line, name, q


def is_word(form, word):
    if form == "N":
        return re.fullmatch(NAME, word)
    if form == "n":
        return re.fullmatch(AMOUNT, word)
    if form == "A":
        return re.fullmatch(AMOUNT, word) and int(word) <= MOST_AMOUNT
    if form == "S":
        return re.fullmatch(AMOUNT, word) or word in ("t5", "t6")
    if form == "H":
        return re.fullmatch("([0-9a-f]{2})+", word)
    return word in form.split("|")


def are_words(forms, words):
    last = forms[-1]
    if last[-1] in "+*":
        if len(words) < len(forms) - (last[-1] == "*"):
            return False
        forms = forms[:-1] + [last[:-1]] * (len(words) - len(forms) + 1)
    return len(forms) == len(words) and all(map(is_word, forms, words))


def is_line(word, words):
    if word == "forge":
        act = words[3] if len(words) > 3 else None
        return act in FORGED and are_words(["N", "N", "n", act] + FORGED[act].split(), words)
    if word == "rec":
        return are_words("N start N".split(), words) or are_words("N commit|abort N N".split(), words)
    if word == "join":
        return are_words("N N n".split(), words) or are_words("N N n N".split(), words)
    return word in FORMS and are_words(FORMS[word], words)


class House:
    """What a script declares."""

    def __init__(self):
        self.kinds, self.holders, self.sets, self.seated = {}, {}, {}, {}
        self.ledgers, self.deals = {}, {}

    def count(self, kind):
        return sum(1 for other in self.kinds.values() if other == kind)

    def genesis(self):
        return next(iter(self.sets.values()))

    def text(self, deal):
        parties, steps = self.deals[deal]
        lines = [f"deal {deal}", f"house {self.genesis().id.hex()}"]
        lines += [f"party {name} {self.holders[name].account.hex()}" for name in parties]
        lines += ["step " + " ".join(map(str, step)) for step in steps]
        return "".join(line + "\n" for line in lines).encode()

    def unknown(self, *names):
        """Whether a name is none of the kinds that stand with it."""
        return {UNKNOWN_NAME for name, *kinds in names if self.kinds.get(name) not in kinds}

    def not_a_node(self, name, kind):
        if self.kinds.get(name) != kind:
            return {UNKNOWN_NAME}
        is_node = self.holders[name].is_honest and (kind == "party" or name in self.seated)
        return set() if is_node else {NOT_A_NODE}

    def declare(self, word, words):
        """The rules that a declaration breaks; where it breaks none, it is declared."""
        broken, declare = getattr(self, "_" + word)(*words)
        if word not in ("open", "step") and words[0] in self.kinds:
            broken.add(NAME_TWICE)
        if not broken:
            declare()
        return broken

    def _bind(self, name, kind, things, thing):
        def bind():
            self.kinds[name] = kind
            things[name] = thing()

        return bind

    def _holder(self, kind, most, name, honesty, size):
        if size in ("t5", "t6"):
            broken = {NOT_BUILT}
        else:
            broken = {TOO_MANY} if not 1 <= int(size) <= 64 else set()
        if self.count(kind) >= most:
            broken.add(TOO_MANY)
        new = lambda: Holder(name, honesty == "honest", int(size), kind)
        return broken, self._bind(name, kind, self.holders, new)

    def _party(self, *words):
        return self._holder("party", 256, *words)

    def _seat(self, *words):
        return self._holder("seat", 64, *words)

    def _set(self, name, epoch, f, *seats):
        epoch, f = int(epoch), int(f)
        broken = self.unknown(*((seat, "seat") for seat in seats))
        if len(seats) != 3 * f + 1 or f > 5 or (not self.sets and epoch != 0):
            broken.add(BAD_SET)
        if len(set(seats)) != len(seats) or any(seat in self.seated for seat in seats):
            broken.add(BAD_SET)
        known = {seat for seat in seats if self.kinds.get(seat) == "seat"}
        if sum(1 for seat in known if not self.holders[seat].is_honest) > f:
            broken.add(TOO_MANY_DEVIANTS)
        if self.count("set") >= 8 or epoch > 64:
            broken.add(TOO_MANY)

        def declare():
            self.kinds[name] = "set"
            accounts = [self.holders[seat].account for seat in seats]
            self.sets[name] = ValidatorSet(epoch, f, accounts)
            self.seated.update({seat: self.sets[name] for seat in seats})

        return broken, declare

    def _ledger(self, name):
        broken = {TOO_MANY} if self.count("ledger") >= 8 else set()
        return broken, self._bind(name, "ledger", self.ledgers, list)

    def _open(self, ledger, asset, party, amount):
        broken, amount = self.unknown((ledger, "ledger"), (party, "party")), int(amount)
        rows = self.ledgers.get(ledger, [])
        total = sum(row[2] for row in rows if row[0] == asset) + amount
        is_known = any(row[:2] == (asset, party) for row in rows)
        is_bad = amount == 0 or is_known or len(rows) >= 1024 or total > MOST_AMOUNT
        if ledger in self.ledgers and is_bad:
            broken.add(BAD_OPENING)
        if sum(map(len, self.ledgers.values())) >= 1024:
            broken.add(TOO_MANY)
        return broken, lambda: rows.append((asset, party, amount))

    def _deal(self, name, *parties):
        broken = self.unknown(*((party, "party") for party in parties))
        if self.count("deal") >= 64 or len(parties) > 16:
            broken.add(TOO_MANY)
        return broken, self._bind(name, "deal", self.deals, lambda: (parties, []))

    def _step(self, deal, giver, taker, ledger, asset, amount):
        names = ((deal, "deal"), (giver, "party"), (taker, "party"), (ledger, "ledger"))
        broken, step = self.unknown(*names), (giver, taker, ledger, asset, int(amount))
        parties, steps = self.deals.get(deal, ((), []))
        if deal in self.deals and not is_good_step(parties, steps, step):
            broken.add(BAD_DEAL)
        return broken, lambda: steps.append(step)

    def begin(self):
        """The rules that the line `begin` breaks."""
        broken = set() if self.sets else {BAD_SET}
        for parties, steps in self.deals.values():
            ways = [Way(parties.index(step[0]), parties.index(step[1])) for step in steps]
            is_whole = len(set(parties)) == len(parties) and steps
            if not is_whole or is_connected(len(parties), ways) is not None:
                broken.add(BAD_DEAL)
        return broken


class Way:
    def __init__(self, giver, taker):
        self.giver, self.taker = giver, taker


def is_good_step(parties, steps, step):
    giver, taker, ledger, asset, amount = step
    total = sum(other[4] for other in steps if other[2:4] == (ledger, asset)) + amount
    are_known = giver in parties and taker in parties
    ledgers = {other[2] for other in steps} | {ledger}
    has_room = len(steps) < 64 and len(ledgers) <= 8 and total <= MOST_AMOUNT
    return are_known and giver != taker and amount > 0 and has_room


def rules_behind(house, word, words, built):
    """The rules that a line behind `begin` breaks where it is read."""
    broken = _names_behind(house, word, words)
    form = word
    if word == "forge":
        form = "forge " + words[3]
        if words[3] == "bytes" and len(words[4]) > 2 * MOST_MESSAGE:
            broken.add(TOO_MANY)
    if built is not None and form not in built:
        broken.add(NOT_BUILT)
    return broken


def _names_behind(house, word, words):
    party, seat = ("party",), ("party", "seat")
    if word == "forge":
        known = house.unknown((words[1], *seat))
        act, fields = words[3], words[4:]
        kinds = {
            "register": ["deal"], "start": ["deal"], "vote": ["deal"], "pay": ["ledger", seat],
            "escrow": ["deal", "ledger"], "transfer": ["deal", "ledger", None, seat],
            "prefix": ["set"], "handover": ["set", None, "set"], "bytes": [],
        }[act]  # fmt: skip
        pairs = [(n, *((k,) if isinstance(k, str) else k)) for n, k in zip(fields, kinds) if k]
        return known | house.unknown(*pairs)
    if word == "rec":
        return house.unknown((words[2], "deal"), *((name, *party) for name in words[3:]))
    if word == "link":
        return house.unknown((words[1], "set"))
    if word == "term":
        return house.unknown((words[2], "ledger"))
    if word == "deliver":
        return house.unknown((words[0], "ledger"))
    if word == "show":
        return house.unknown((words[0], "ledger"), (words[1], "deal"))
    if word == "ask":
        return house.unknown((words[1], "ledger"), (words[2], "deal"), (words[3], "party"))
    if word == "hear":
        return house.not_a_node(words[0], "party")
    if word in ("join", "next", "again", "start", "commit", "abort", "tick"):
        return house.not_a_node(words[0], "party") | house.unknown((words[1], "deal"))
    if word == "take":
        return house.not_a_node(words[1], "seat")
    if word in ("enter", "prefix"):
        return house.not_a_node(words[0], "seat")
    if word == "handover":
        return house.not_a_node(words[0], "seat") | house.unknown((words[1], "set"))
    if word == "install":
        return house.not_a_node(words[0], "seat") | house.unknown(*((d, "deal") for d in words[2:]))
    if word in ("fail", "stop", "reopen"):
        kind = house.kinds.get(words[0])
        return house.not_a_node(words[0], kind) if kind in seat else house.unknown((words[0], "ledger"))
    return set()


def read(script, built=None):
    """What a script declares, and its lines behind `begin`; `built` are the forms that are built."""
    if len(script) > MOST_BYTES:
        raise Refused(0, {TOO_LARGE})
    *lines, rest = script.split(b"\n")
    house, happens, place = House(), [], "head"
    for line, raw in enumerate(lines + [rest] * bool(rest), 1):
        is_ended = line <= len(lines)
        if is_ended and (raw == b"" or raw.startswith(b"#")):
            continue
        word, *words = raw.decode("latin-1").split(" ")
        broken = set()
        if not is_ended:
            broken = {BAD_LINE}
        elif place == "head":
            broken, place = set() if raw == b"house" else {BAD_LINE}, "declarations"
        elif place == "declarations" and raw == b"begin":
            broken, place = house.begin(), "events"
        elif (word in NAMED) != (place == "declarations") or not is_line(word, words):
            broken = {BAD_LINE}
        elif place == "declarations":
            broken = house.declare(word, words) if line <= MOST_LINES else {TOO_MANY}
        else:
            broken = rules_behind(house, word, words, built)
            happens.append((line, word, words))
        if line > MOST_LINES:
            broken.add(TOO_MANY)
        if broken:
            raise Refused(line, broken)
    if place == "declarations":
        raise Refused(len(lines) + 1, {BAD_LINE})
    return house, happens


class World:
    """All nodes of a house, and what the names of envelopes, logs, claims and terms stand for."""

    def __init__(self, house):
        self.house, self.genesis = house, house.genesis()
        self.texts = {name: house.text(name) for name in house.deals}
        self.ids = {name: digest(text) for name, text in self.texts.items()}
        self.ledgers = {name: self._ledger(name, rows) for name, rows in house.ledgers.items()}
        self.nodes = dict(self.ledgers)
        self.compliant = {}
        for name, holder in house.holders.items():
            if holder.is_honest:
                self.compliant[holder.account] = holder
                if holder.kind == "party":
                    self.nodes[name] = Agent(holder, self.genesis.id)
                elif name in house.seated:
                    self.nodes[name] = Seat(holder, self.genesis, house.seated[name])
        self.bound = {}

    def _ledger(self, name, rows):
        accounts = [(asset, self.house.holders[p].account, amount) for asset, p, amount in rows]
        return Ledger(name, self.genesis, accounts)

    def _account(self, name):
        return self.house.holders[name].account

    def _ask(self, line, new=None, used=(), rules=()):
        """Names of the second group first, then what else the line may break."""
        if new in self.bound:
            raise Refused(line, {NAME_TWICE})
        if any(self.bound.get(name, (None,))[0] != kind for name, kind in used):
            raise Refused(line, {UNKNOWN_NAME})
        broken = {rule for rule, is_broken in rules if is_broken()}
        if broken:
            raise Refused(line, broken)

    def _get(self, name):
        return self.bound[name][1]

    def build(self, line, word, words):
        getattr(self, "_build_" + word)(line, *words)

    def _build_forge(self, line, name, holder, q, act, *fields):
        holder = self.house.holders[holder]
        logs = [(fields[1], "log")] if act in ("prefix", "handover") else []
        turn = int(fields[2]) if act == "transfer" else 0
        is_beyond = lambda: int(q) >= holder.size or turn >= 2**32
        self._ask(line, name, logs, [(OUT_OF_RANGE, is_beyond)])
        text = self._forged(holder, act, fields)
        self.bound[name] = ("envelope", holder.envelope(int(q), text))

    def _forged(self, holder, act, fields):
        if act == "bytes":
            return bytes.fromhex(fields[0])
        if act in ("prefix", "handover"):
            records, own = self._get(fields[1]), self.house.sets[fields[0]]
            head = heads(self.genesis.id, records)[-1]
            if act == "prefix":
                return own.prefix_text(len(records), head)
            return own.handover_text(len(records), head, self.house.sets[fields[2]].id)
        if act == "pay":
            ledger, to, asset, amount = fields
            return write_act(Pay(self.genesis.id, ledger, self._account(to), asset, int(amount)))
        deal = self.ids[fields[0]]
        if act == "register":
            return write_act(Register(self.texts[fields[0]]))
        if act == "start":
            return write_act(Start(self.texts[fields[0]]))
        if act == "escrow":
            return write_act(Escrow(deal, fields[1], fields[2], int(fields[3])))
        if act == "transfer":
            _, ledger, turn, to, asset, amount = fields
            return write_act(
                Transfer(deal, ledger, int(turn), self._account(to), asset, int(amount))
            )
        parties = self.house.deals[fields[0]][0]
        index = parties.index(holder.name) if holder.name in parties else NO_INDEX
        return write_act(Vote(deal, index, COMMIT if fields[1] == "commit" else ABORT))

    def _build_flip(self, line, name, envelope):
        self._ask(line, name, [(envelope, "envelope")])
        self.bound[name] = ("envelope", flipped(self._get(envelope)))

    def _build_log(self, line, name):
        self._ask(line, name)
        self.bound[name] = ("log", [])

    def _build_rec(self, line, log, kind, deal, *party):
        parties = self.house.deals[deal][0]
        is_full = lambda: len(self._get(log)) >= MOST_RECORDS
        is_stranger = lambda: bool(party) and party[0] not in parties
        self._ask(line, None, [(log, "log")], [(TOO_MANY, is_full), (OUT_OF_RANGE, is_stranger)])
        number = parties.index(party[0]) if party else len(parties)
        kind = {"start": START, "commit": COMMIT, "abort": ABORT}[kind]
        record = Record(kind, number, self.ids[deal])
        self.bound[log] = ("log", self._get(log) + [record])

    def _build_take(self, line, log, seat, length):
        node, length = self.nodes[seat], int(length)
        is_beyond = lambda: length > len(node.log.records)
        rules = [(NOT_A_NODE, lambda: node.keeper.is_stopped), (OUT_OF_RANGE, is_beyond)]
        self._ask(line, log, (), rules)
        self.bound[log] = ("log", node.log.records[:length])

    def _build_claim(self, line, name, log):
        self._ask(line, name, [(log, "log")])
        records = self._get(log)
        self.bound[name] = ("claim", Claim(records, heads(self.genesis.id, records)[-1]))

    def _build_cut(self, line, claim):
        is_empty = lambda: not self._get(claim).records
        self._ask(line, None, [(claim, "claim")], [(OUT_OF_RANGE, is_empty)])
        self._get(claim).records.pop()

    def _build_link(self, line, name, to, length):
        length = int(length)
        is_full = lambda: len(self._get(name).links) >= 64
        is_beyond = lambda: length > len(self._get(name).records)
        self._ask(line, None, [(name, "claim")], [(TOO_MANY, is_full), (OUT_OF_RANGE, is_beyond)])
        claim = self._get(name)
        head = heads(self.genesis.id, claim.records)[length]
        claim.links.append(Link(self.house.sets[to], length, head, []))

    def _build_linkby(self, line, claim, seat, envelope):
        links = lambda: self._get(claim).links
        signatures = lambda: links()[-1].signatures if links() else []
        self._sign(line, claim, seat, envelope, signatures, lambda: not links())

    def _build_by(self, line, claim, seat, envelope):
        self._sign(line, claim, seat, envelope, lambda: self._get(claim).signatures, lambda: False)

    def _sign(self, line, claim, seat, envelope, signatures, lacks_place):
        is_beyond = lambda: int(seat) > 15 or lacks_place()
        rules = [(TOO_MANY, lambda: len(signatures()) >= 16), (OUT_OF_RANGE, is_beyond)]
        self._ask(line, None, [(claim, "claim"), (envelope, "envelope")], rules)
        signatures().append((int(seat), self._get(envelope)))

    def _build_term(self, line, name, side, ledger, asset, amount):
        kind, terms = self.bound.get(name, ("terms", []))
        if kind != "terms":
            raise Refused(line, {NAME_TWICE})
        self.bound[name] = ("terms", terms + [(side, ledger, asset, int(amount))])

    # For each event: where its node is named, the kind and the place of the name that it uses, the
    # place of the name that it binds, and of a number with its bits.
    SHAPES = {
        "deliver": (0, ("envelope", 1), None, None), "show": (0, ("claim", 2), None, None),
        "ask": (1, None, 0, None), "join": (0, ("terms", 3), None, (2, 64)),
        "next": (0, None, 2, None), "again": (0, None, 3, (2, 16)), "start": (0, None, 2, None),
        "commit": (0, None, 2, None), "abort": (0, None, 2, None), "tick": (0, None, 3, (2, 64)),
        "hear": (0, ("statement", 1), None, None), "enter": (0, ("envelope", 2), None, (1, 32)),
        "prefix": (0, None, 2, (1, 32)), "handover": (0, None, 3, (2, 32)),
        "install": (0, ("claim", 1), None, None), "fail": (0, None, None, None),
        "stop": (0, None, None, None), "reopen": (0, None, None, None),
    }  # fmt: skip

    def step(self, line, word, words):
        """The reply of an event."""
        place, use, binds, counts = self.SHAPES[word]
        node = self.nodes[words[place]]
        used = [(words[use[1]], use[0])] if use and len(words) > use[1] else []
        new = None if binds is None else words[binds]
        is_beyond = lambda: counts is not None and int(words[counts[0]]) >= 2 ** counts[1]
        self._ask(line, new, used, [(OUT_OF_RANGE, is_beyond)])
        if word == "reopen":
            return self._reopen(node)
        if node.keeper.is_stopped:
            return "stopped"
        thing = self._get(used[0][0]) if used else None
        if word in ("deliver", "enter", "show", "install"):
            self._ask_unforged(line, thing.envelopes() if isinstance(thing, Claim) else [thing])
        given, reply = self._call(node, word, words, thing)
        if given is not None:
            self.bound[new] = ("statement" if word == "ask" else "envelope", given)
        return reply

    def _reopen(self, node):
        node.keeper.restart()
        if isinstance(node, Agent):
            node.forget()
        return "opened"

    def _ask_unforged(self, line, envelopes):
        for envelope in envelopes:
            said, _ = check(envelope)
            holder = self.compliant.get(said.account) if said else None
            if holder and holder.kept[said.q : said.q + 1] != [envelope.message]:
                raise Forged(line, holder.name, said.q)

    def _call(self, node, word, words, thing):
        """What the call gives, if it gives anything, and its reply."""
        if word in ("fail", "stop"):
            node.keeper.armed = "fail" if word == "fail" else words[1]
            return None, "armed"
        if word == "deliver":
            return None, node.submit(thing)
        if word == "show":
            return None, node.claim(self.ids[words[1]], thing)
        if word == "ask":
            return node.statement(self.ids[words[2]], self._account(words[3]))
        if word == "hear":
            return node.call(node.hear, thing)
        if word == "join":
            return node.call(node.join, self.texts[words[1]], int(words[2]), thing)
        if word == "enter":
            return node.call(node.enter, int(words[1]), thing)
        if word == "prefix":
            return node.call(node.prefix, int(words[1]))
        if word == "handover":
            return node.call(node.handover, self.house.sets[words[1]], int(words[2]))
        if word == "install":
            return node.call(node.install, thing, [self.texts[deal] for deal in words[2:]])
        numbers = [int(words[2])] if word in ("again", "tick") else []
        return node.call(getattr(node, word), self.ids[words[1]], *numbers)

    def tables(self):
        """The final tables, all orders by the printed text."""
        lines = []
        for name, ledger in sorted(self.ledgers.items()):
            if ledger.keeper.is_stopped:
                lines.append(f"ledger {name} stopped")
                continue
            lines.append(f"ledger {name}")
            free = [(key, amount) for key, amount in ledger.free.items() if amount]
            rows = sorted((asset, self._named(account), amount) for (account, asset), amount in free)
            lines += [f"free {asset} {account} {amount}" for asset, account, amount in rows]
            for deal, called in sorted(self._deals(ledger), key=lambda pair: pair[1]):
                lines += self._deal_lines(ledger, deal, called)
        return lines

    def _named(self, account):
        names = (h.name for h in self.house.holders.values() if h.account == account)
        return next(names, account.hex())

    def _deals(self, ledger):
        names = {deal: name for name, deal in self.ids.items()}
        return [(deal, names.get(deal, deal.hex())) for deal in ledger.deals]

    def _deal_lines(self, ledger, deal, called):
        outcome = ledger.deals[deal].outcome
        lines = [f"deal {called} {outcome or 'open'}"]
        rows = [row for row in ledger.if_commit if row[0] == deal]
        for row in sorted(rows, key=lambda row: (row[2], self._named(row[1]))):
            commit, abort = ledger.if_commit[row], ledger.if_abort.get(row, 0)
            about = f"{called} {row[2]} {self._named(row[1])}"
            paid = commit if outcome == "commit" else abort
            if outcome is None and (commit or abort):
                lines.append(f"hold {about} {commit} {abort}")
            elif outcome is not None and paid:
                lines.append(f"paid {about} {paid}")
        return lines


def rehearse(script, built=None):
    """The status of a rehearsal, and what it prints."""
    try:
        house, happens = read(script, built)
        if not house.kinds and not happens:
            return 0, ""
        world, lines = World(house), []
        for line, word, words in happens:
            if word in BUILDING:
                world.build(line, word, words)
            else:
                lines.append(f"{line} {world.step(line, word, words)}")
        return 0, "".join(line + "\n" for line in lines + world.tables())
    except Refused as refused:
        return 2, f"line {refused.line} rule {refused.rule} {RULES[refused.rule - 1]}\n"
    except Forged as forged:
        return 8, f"line {forged.line} forgery {forged.name} {forged.q}\n"


if __name__ == "__main__":
    status, report = rehearse(sys.stdin.buffer.read())
    sys.stdout.write(report)
    sys.exit(status)
