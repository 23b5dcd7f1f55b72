#!/usr/bin/env python3
"""What the example host is to show: each line that is sent, and what document 01 says of each answer.

    host.py FILE            writes FILE
    host.py --check FILE    fails if FILE is not the table's

The lines are composed here from their fields. Answers, what goes out, and supporters are written by hand, each by a rule of document 01, with
N=4, f=1 (a quorum is 3, f+1 is 2). What was read there, part by part:

1. FAST of view 0 comes from 0 mod 4, ballot 1 is above 0: taken, no answer. PROPOSE in the fast ballot appends and answers VERIFY, which is
   its site's own entry already but proves nothing yet; so site 2 has three equal entries with the VERIFY of site 1, sites 0 and 1 with that
   of site 2, and the VERIFY after that finds it proven. P2B has these entries as its mask. A learner's supporters are the sites whose entry
   extends the vote; the third vote is learned. C and D don't conflict (RAISE, RAISE), so C,D and D,C have one canonical order, A,C,D. A VERIFY
   that is shorter than the entry is accepted without effect; one that is longer and extends it is stored.
2. B and E conflict (slot 7, REVOKE and RAISE). Canonical of A,C,D,B,E is A,C,B,D,E, of A,C,D,E,B that itself, since B waits for E. Each has two
   entries at every site: no P2B. Of the liar's votes two fail the host's verification; the third has two ones: PROOF.
3. PROPOSE at a leader takes any ballot and answers nothing. P1A answers P1B with what is proven (ballot 1, mask 0007) and what is held. On the
   third report the leader takes A,C,D, appends B and E of site 0, finds those of 1 and 2 present, appends pending F: canonical A,F,C,B,D,E. In a
   new ballot nobody has signed, so site 1 may take B,E though it held E,B: P2A must extend the proven history only.
4. One suspicion is below f+1; a VIEWCHANGE with one proof is PROOF. With site 1's own suspicion the mask is 000a, the target 1 with its own bit.
   The SUSPICION of site 1 does the same at sites 0 and 2. Site 2 has three changes with the VIEWCHANGE of site 0, sites 0 and 1 with that of site
   2, which at site 2 itself isn't above its view any more: STALE. LEADER carries the target mask; the first is taken, the others are not above
   the leader's view: STALE. The old leader may open ballot 3 in its own view, but P1A of view 0 is STALE at all sites. FAST of view 1 comes from
   1 mod 4. G conflicts with F only and stands last.
"""
import sys

sys.dont_write_bytecode = True
from site_lines import A, B, C, D, change, command, fast, leader, p1a, p1b, p2a, p2b, propose, suspicion, verify

E = command(3, 3, 2, 7, 2)
F = command(1, 1, 3, 11, 0)
G = command(4, 2, 1, 11, 0)

KINDS = ["", "P1A", "FAST", "P1B", "PROPOSE", "P2A", "VERIFY", "P2B", "SUSPICION", "VIEWCHANGE", "LEADER"]
WORDS = {A: "enrol 7", B: "revoke 7", C: "raise 9 by 1", D: "raise 9 by 5", E: "raise 7 by 2", F: "enrol 11", G: "revoke 11"}

shown = []


def show(text):
    shown.append(text + "\n")


def words(digits):
    """Commands in words."""
    return ", ".join(WORDS[digits[i : i + 16]] for i in range(0, len(digits), 16))


def said(line):
    """What a line says: of each kind, the fields that it uses."""
    kind, n = int(line[:2], 16), int(line[32:34], 16)
    first, second = words(line[36 : 36 + 16 * n]), words(line[36 + 16 * n : -1])
    text = f"{KINDS[kind]} of {'client' if kind == 4 else 'site'} {int(line[2:4], 16)}"
    if kind not in (3, 4, 7):
        text += f", view {int(line[4:12], 16)}"
    if kind < 8:
        text += f", ballot {int(line[12:20], 16)}"
    mask = int(line[28:32], 16)
    if mask:
        text += ", proofs of " + " ".join(str(i) for i in range(4) if mask >> i & 1)
    if kind == 3:
        text += f", proven in ballot {int(line[20:28], 16)}"
    text += f": {first}" if first else ""
    return text + (f"; held: {second}" if second else "")


def row(line, *results):
    """A line, and for each receiver what it answers."""
    show(f"\n{line}    {said(line)}\n    {'; '.join(results)}")


def sites(line, *answers, at=(0, 1, 2), who="site"):
    """A line at some sites. An answer may have the kind that goes out after it."""
    row(line, *(f"{who} {i}: {a}" for i, a in zip(at, answers)))


def vote(line, supporters):
    """An accepted vote, at the learners; three supporters are a quorum."""
    learned = ", learned" if supporters == 3 else ""
    row(line, *(f"learner {i}: 0, {supporters} behind it{learned}" for i in range(3)))


def verified(view, ballot, *history):
    """Three equal VERIFYs, and the votes that follow: site 2 is the first to have three."""
    sites(verify(0, view, ballot, *history), "0", "0", "0")
    sites(verify(1, view, ballot, *history), "0", "0", "0, sends P2B")
    sites(verify(2, view, ballot, *history), "0, sends P2B", "0, sends P2B", "0")
    for supporters, site in enumerate((2, 0, 1), 1):
        vote(p2b(site, ballot, 0x0007, *history), supporters)


VERIFIES = ["0, sends VERIFY"] * 3


def fast_ballot():
    show("\n=== 1. A fast ballot: clients send their commands straight to the sites")
    show("\n* Client 1 enrols slot 7. Each site signs what it holds by a VERIFY; three equal ones prove it, and the site votes.")
    show("\n    leader 0 opens fast ballot 1: 0, sends FAST")
    sites(fast(0, 0, 1), "0", "0", "0")
    sites(propose(1, 1, A), *VERIFIES)
    verified(0, 1, A)
    show("\n* Two raises of slot 9 reach the sites in different orders. They don't conflict, so all sites come to one history.")
    sites(propose(1, 1, C), *VERIFIES, at=(0, 2))
    sites(propose(3, 1, D), *VERIFIES, at=(1,))
    sites(propose(1, 1, C), *VERIFIES, at=(1,))
    sites(propose(3, 1, D), *VERIFIES, at=(0, 2))
    for line in (verify(0, 0, 1, A, C), verify(2, 0, 1, A, C), verify(1, 0, 1, A, D), verify(1, 0, 1, A, C, D)):
        sites(line, "0", "0", "0")
    sites(verify(0, 0, 1, A, C, D), "0", "0", "0, sends P2B")
    sites(verify(2, 0, 1, A, C, D), "0, sends P2B", "0, sends P2B", "0")
    for supporters, site in enumerate((2, 0, 1), 1):
        vote(p2b(site, 1, 0x0007, A, C, D), supporters)


def conflict():
    one, other = (A, C, B, D, E), (A, C, D, E, B)
    show("\n=== 2. A conflict, and lies")
    show("\n* Revoke and raise of slot 7 conflict. Sites 0 and 2 take one order, site 1 and the liar the other: no three agree.")
    sites(propose(2, 1, B), *VERIFIES, at=(0, 2))
    sites(propose(3, 1, E), *VERIFIES, at=(1,))
    sites(propose(2, 1, B), *VERIFIES, at=(1,))
    sites(propose(3, 1, E), *VERIFIES, at=(0, 2))
    sites(verify(3, 0, 1, *other), "0", "0", "0")
    sites(verify(0, 0, 1, A, C, B, D), "0", "0", "0")
    sites(verify(2, 0, 1, A, C, B, D), "0", "0", "0")
    sites(verify(1, 0, 1, A, C, D, E), "0", "0", "0")
    sites(verify(1, 0, 1, *other), "0", "0", "0")
    sites(verify(0, 0, 1, *one), "0", "0", "0")
    sites(verify(2, 0, 1, *one), "0", "0", "0")
    show("\n* Site 3 lies: a vote in site 1's name; one with a proof that site 0 never gave; one with the two that exist.")
    row(p2b(1, 1, 0x000B, *other), "dropped by the hosts: not signed by its sender")
    row(p2b(3, 1, 0x000B, *other), "dropped by the hosts: a bit of its mask has no proof")
    sites(p2b(3, 1, 0x000A, *other), "5 PROOF", "5 PROOF", "5 PROOF", who="learner")


def classic_ballot():
    one, other, proven = (A, C, B, D, E), (A, C, D, E, B), (A, C, D)
    show("\n=== 3. A classic ballot: the leader settles the order")
    show("\n* Client 1 sends a command to the leader, where it is pending.")
    row(propose(1, 0, F), "leader 0: 0")
    show("\n* Sites report what is proven and what they hold. The leader takes what is proven, adds the rest, and asks for that.")
    show("\n    leader 0 opens classic ballot 2: 0, sends P1A")
    sites(p1a(0, 0, 2), *["0, sends P1B"] * 3)
    row(p1b(0, 2, 1, 0x0007, proven, one), "leader 0: 0")
    row(p1b(1, 2, 1, 0x0007, proven, other), "leader 0: 0")
    row(p1b(2, 2, 1, 0x0007, proven, one), "leader 0: 0, sends P2A")
    sites(p2a(0, 0, 2, A, F, C, B, D, E), *VERIFIES)
    verified(0, 2, A, F, C, B, D, E)


def view_change():
    show("\n=== 4. A view change")
    show("\n* A liar alone cannot depose a leader: it takes f + 1 = 2 suspicions.")
    sites(suspicion(3, 0), "0", "0", "0")
    sites(change(3, 1, 0x0008), "5 PROOF", "5 PROOF", "5 PROOF")
    show("\n* Leader 0 is silent. On the second suspicion sites change; three changes make view 1, which site 1 leads.")
    show("\n    the host of site 1 suspects view 0: 0, sends VIEWCHANGE")
    sites(suspicion(1, 0), *["0, sends VIEWCHANGE"] * 2, at=(0, 2))
    sites(change(1, 1, 0x000A), "0", "0", "0")
    sites(change(0, 1, 0x000A), "0", "0", "0, sends LEADER")
    sites(change(2, 1, 0x000A), "0, sends LEADER", "0, sends LEADER", "4 STALE")
    row(leader(2, 1, 0x0007), "leader 1: 0")
    row(leader(0, 1, 0x0007), "leader 1: 4 STALE")
    row(leader(1, 1, 0x0007), "leader 1: 4 STALE")
    show("\n* The old leader wakes up too late.")
    show("\n    leader 0 opens classic ballot 3: 0, sends P1A")
    sites(p1a(0, 0, 3), "4 STALE", "4 STALE", "4 STALE")
    show("\n* The new leader opens a fast ballot, and client 4 revokes slot 11.")
    show("\n    leader 1 opens fast ballot 4: 0, sends FAST")
    sites(fast(1, 1, 4), "0", "0", "0")
    sites(propose(4, 4, G), *VERIFIES)
    verified(1, 4, A, F, C, B, D, E, G)


def main():
    arguments = [a for a in sys.argv[1:] if a != "--check"]
    if len(arguments) != 1:
        sys.exit(__doc__)
    show("Four sites, one of which may lie. Below each line: what it says, and what its receivers answer.")
    fast_ballot()
    conflict()
    classic_ballot()
    view_change()
    show("\n=== What the learners learned")
    for i in range(3):
        show(f"learner {i}: {words(A + F + C + B + D + E + G)}")
    text = "".join(shown)
    if "--check" not in sys.argv:
        with open(arguments[0], "w", encoding="utf-8") as file:
            file.write(text)
        return
    with open(arguments[0], encoding="utf-8") as file:
        if file.read() != text:
            sys.exit(f"{arguments[0]} is not the table's")


main()
