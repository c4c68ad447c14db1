#!/usr/bin/env python3
"""Courses of a house, worked out by hand as changes of the broker's deal: their scripts, and by the
outside rehearsal their reports. `courses.py NAME` prints a script, `courses.py NAME report` its
report; without a name it lists the courses."""

import sys

from scripts import rehearse

DECLARED = """house
party alice honest 8
party bob honest 8
party carol honest 8
seat s0 honest 4
seat s1 honest 4
seat s2 honest 4
seat s3 deviant 4
set one 0 1 s0 s1 s2 s3
ledger coins
ledger tickets
open coins coin carol 101
open tickets ticket bob 1
deal d alice bob carol
step d bob alice tickets ticket 1
step d alice carol tickets ticket 1
step d carol alice coins coin 101
step d alice bob coins coin 100""".splitlines()

JOINED = [f"join {party} d 50" for party in ("alice", "bob", "carol")]
ESCROWED = """next alice d ra
deliver coins ra
deliver tickets ra
next bob d rb
next carol d rc
next bob d eb
deliver tickets eb
next carol d ec
deliver coins ec
next bob d tb
deliver tickets tb
next carol d tc
deliver coins tc""".splitlines()
BROKERED = """next alice d t1
deliver tickets t1
next alice d t2
deliver coins t2""".splitlines()
ALICE_HEARS = ["ask sa coins d alice", "hear alice sa"]
OTHERS_HEAR = """ask sb coins d bob
hear bob sb
ask sc tickets d carol
hear carol sc""".splitlines()
STARTED = ["start alice d st"]
COMMITTED = ["commit alice d ca", "commit bob d cb", "commit carol d cc"]
SEATS = ("s0", "s1", "s2")

VALIDATED = JOINED + ESCROWED + BROKERED + ALICE_HEARS + OTHERS_HEAR
VOTED = VALIDATED + STARTED + COMMITTED

SECOND_SET = """seat t0 honest 4
seat t1 honest 4
seat t2 honest 4
seat t3 deviant 4
set two 1 1 t0 t1 t2 t3""".splitlines()
THIRD_SET = """seat u0 honest 4
seat u1 honest 4
seat u2 honest 4
seat u3 deviant 4
set three 2 1 u0 u1 u2 u3""".splitlines()


def house(*more, **changed):
    """The broker's declarations with changed lines of parties and seats, and further lines."""
    lines = []
    for line in DECLARED:
        words = line.split()
        lines.append(changed.get(words[1], line) if len(words) > 1 else line)
    return lines + list(more) + ["begin"]


def entered(*envelopes, at=0):
    """Each envelope to each of the seats at the next place."""
    places = enumerate(envelopes, at)
    return [f"enter {seat} {place} {envelope}" for place, envelope in places for seat in SEATS]


def prefixes(length, names="p", seats=SEATS):
    return [f"prefix {seat} {length} {names}{k}" for k, seat in enumerate(seats)]


def claimed(claim, log, names="p", seats=(0, 1, 2)):
    return [f"claim {claim} {log}"] + [f"by {claim} {k} {names}{k}" for k in seats]


ENTERED = entered("st", "ca", "cb", "cc")
SIGNED = VOTED + ENTERED + prefixes(4) + ["take l s0 4"]
SHOWN = ["show coins d k", "show tickets d k"]
HANDED = [f"handover s{k} two 4 h{k}" for k in range(3)]
LINKED = [f"linkby {{}} {k} h{k}" for k in range(3)]


def linked(claim, to="two"):
    return [f"claim {claim} l", f"link {claim} {to} 4"] + [line.format(claim) for line in LINKED]


def handed_over(to="two"):
    """The second set begins where the first ends, and certifies the same records."""
    begun = [f"install t{k} m" for k in range(3)] + prefixes(4, "q", ("t0", "t1", "t2"))
    signed = [f"by n {k} q{k}" for k in range(3)]
    return HANDED + linked("m") + begun + linked("n", to) + signed


def forged_deal():
    """All parties deviate, and vote as they like; certificates alone count."""
    forged = """forge ra alice 0 register d
deliver coins ra
forge st alice 1 start d
forge ca alice 2 vote d commit
forge cb bob 0 vote d commit
forge cc carol 0 vote d commit""".splitlines()
    shown = claimed("k", "l", seats=(0, 1)) + ["show coins d k", "by k 1 p1", "show coins d k"]
    shown += claimed("k2", "l") + ["show coins d k2", "show tickets d k2"]
    parties = {name: f"party {name} deviant 8" for name in ("alice", "bob", "carol")}
    return house(**parties) + forged + ENTERED + prefixes(4) + ["take l s0 4"] + shown


def deviant_bob():
    """Bob's agent is left out; he forges his acts, and two that a ledger refuses."""
    forged = {
        "next bob d eb": "forge eb bob 0 escrow d tickets ticket 1",
        "next bob d tb": "forge tb bob 1 transfer d tickets 0 alice ticket 1",
        "commit bob d cb": "forge cb bob 2 vote d commit",
    }
    left_out = ("join bob d 50", "next bob d rb", "ask sb coins d bob", "hear bob sb")
    refused = """forge z bob 3 transfer d tickets 1 carol ticket 1
deliver tickets z
forge y bob 4 transfer d tickets 0 carol ticket 1
deliver tickets y""".splitlines()
    lines = VALIDATED + refused + STARTED + COMMITTED + ENTERED + prefixes(4) + ["take l s0 4"]
    lines = [forged.get(line, line) for line in lines if line not in left_out]
    return house(bob="party bob deviant 8") + lines + claimed("k", "l") + SHOWN


def carol_never_pays():
    before = JOINED[:2] + ESCROWED[:4] + ["next bob d eb", "deliver tickets eb", "start bob d st"]
    ticks = ["tick bob d 49 x", "tick bob d 50 ab"]
    after = entered("st", "ab") + prefixes(2) + ["take l s0 2"] + claimed("k", "l") + SHOWN
    return house(carol="party carol deviant 8") + before + ticks + after


def moves_open():
    lines = JOINED + ESCROWED + ALICE_HEARS + BROKERED + OTHERS_HEAR + STARTED
    return house() + lines + ["commit alice d ca"]


def undecided_then_settled():
    lines = VOTED + ENTERED + prefixes(3, "j") + ["take lj s0 3"] + claimed("j", "lj", "j")
    shown = ["show coins d j"] + prefixes(4) + ["take l s0 4"] + claimed("k", "l")
    return house() + lines + shown + ["show coins d k", "show coins d k"]


def seat_key_reserve():
    lines = VOTED + ENTERED + ["prefix s0 2 y", "prefix s0 3 z", "prefix s0 4 p0"]
    lines += ["stop s0 after", "handover s0 two 4 h0", "reopen s0", "handover s0 two 4 h0"]
    return house(*SECOND_SET, s0="seat s0 honest 3") + lines + ["prefix s0 1 w", "enter s0 4 cc"]


def handover_refusals():
    lines = SIGNED + claimed("k", "l") + SHOWN[:1]
    asked = ["handover s0 two 3 h0", "handover s0 two 4 h0", "handover s0 two 4 h1"]
    asked += ["handover s0 one 4 h2", "enter s0 4 cc", "prefix s0 3 q"]
    return house(*SECOND_SET) + lines + asked


def repeated_pay():
    lines = ["forge e dave 0 pay coins bob coin 3"] + 3 * ["deliver coins e"]
    lines += ["forge e2 dave 0 pay coins bob coin 4", "deliver coins e2"]
    return house("party dave deviant 4", "open coins coin dave 10") + lines


def amounts_at_the_limit():
    more = f"""party rich deviant 8
open coins gold rich {2**63 - 1}
deal e rich bob
step e rich bob coins gold 1
step e bob rich coins coin 1""".splitlines()
    lines = f"""forge r rich 0 register e
deliver coins r
forge a rich 1 escrow e coins gold {2**63 - 1}
deliver coins a
forge b rich 2 escrow e coins gold 1
deliver coins b""".splitlines()
    return house(*more) + lines


COURSES = {
    "broker_deal": lambda: house() + SIGNED + claimed("k", "l") + SHOWN,
    "carol_never_pays": carol_never_pays,
    "abort_after_decision": lambda: house() + VOTED + ENTERED + ["abort carol d xa", "enter s0 4 xa"],
    "abort_before_last_commit": lambda: house() + VOTED + ["abort carol d xa"]
    + entered("st", "ca", "cb", "xa") + ["enter s0 4 cc"] + prefixes(4) + ["take l s0 4"]
    + claimed("k", "l") + SHOWN,
    "handover_then_claim": lambda: house(*SECOND_SET) + SIGNED + claimed("k", "l") + SHOWN[:1]
    + handed_over() + ["show tickets d n"],
    "claim_by_old_set": lambda: house(*SECOND_SET) + SIGNED + claimed("k", "l") + SHOWN[:1]
    + handed_over() + ["show tickets d k"],
    "moves_open": moves_open,
    "deviant_bob_same_result": deviant_bob,
    "flipped_signature": lambda: house() + SIGNED + claimed("k", "l", seats=(0, 1))
    + ["flip f2 p2", "by k 2 f2"] + SHOWN,
    "seat_twice": lambda: house() + SIGNED + claimed("k", "l", seats=(0, 1)) + ["by k 1 p1"] + SHOWN,
    "too_few": lambda: house() + SIGNED + claimed("k", "l", seats=(0, 1)) + SHOWN,
    "skipped_epoch": lambda: house(*SECOND_SET, *THIRD_SET) + SIGNED + claimed("k", "l") + SHOWN[:1]
    + handed_over("three") + ["show tickets d n"],
    "cut_records": lambda: house() + SIGNED + claimed("k", "l") + ["cut k"] + SHOWN,
    "undecided_then_settled": undecided_then_settled,
    "repeated_pay": repeated_pay,
    "seat_key_reserve": seat_key_reserve,
    "amounts_at_the_limit": amounts_at_the_limit,
    "failed_commit": lambda: house() + SIGNED + claimed("k", "l") + ["fail coins"] + 2 * SHOWN[:1]
    + SHOWN[1:],
    "forgery_stops": lambda: house() + ["forge e alice 0 pay coins bob coin 1", "deliver coins e"],
    "too_many_deviants": lambda: house(s2="seat s2 deviant 4") + SIGNED,
    "forged_deal_settles": forged_deal,
    "handover_refusals": handover_refusals,
    "ledger_stops_at_claim": lambda: house() + SIGNED + claimed("k", "l") + SHOWN[:1]
    + ["stop tickets after"] + 2 * SHOWN[1:] + ["reopen tickets"] + SHOWN[1:],
    "agent_stops_at_commit": lambda: house() + VALIDATED + STARTED
    + ["stop alice before", "commit alice d ca", "reopen alice", "commit alice d ca", "hear alice sa"]
    + ["commit alice d ca"],
}  # fmt: skip


def script(name):
    return "".join(line + "\n" for line in COURSES[name]())


def main():
    if len(sys.argv) < 2:
        print("\n".join(COURSES))
        return
    text = script(sys.argv[1])
    sys.stdout.write(rehearse(text.encode())[1] if sys.argv[2:] == ["report"] else text)


if __name__ == "__main__":
    main()
