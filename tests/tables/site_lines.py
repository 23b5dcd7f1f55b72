#!/usr/bin/env python3
"""The table that the program `site_lines` runs: frames handed to one site, and ballots that its host opens, each with the answer and the
frame sent that document 01 asks for.

    site_lines.py CRATE            writes CRATE/stdin and CRATE/stdout
    site_lines.py --check CRATE    fails if these files are not the table's

Each row has what document 01 says, the line handed in, the answer, and the frame that goes out, if any. The answers were written by hand
from document 01, not taken from a run.
"""
import sys

P1A, FAST, P1B, PROPOSE, P2A, VERIFY, P2B, SUSPICION, VIEWCHANGE, LEADER = range(1, 11)
OK, CONFIG, FORM, SENDER, STALE, PROOF, COMMAND, HISTORY, BEHIND, REUSED, CONTRADICTION = range(11)
NOTHING, FULL = 12, 13
LAST = 4294967295

stdin, stdout = [], []


def frame(kind, sender, view=0, ballot=0, proven_ballot=0, mask=0, n=(), m=()):
    """A frame's line: its fields, then n commands, then m."""
    head = f"{kind:02x}{sender:02x}{view:08x}{ballot:08x}{proven_ballot:08x}{mask:04x}{len(n):02x}{len(m):02x}"
    return head + "".join(n) + "".join(m) + "\n"


def command(proposer, kind, serial, slot, argument):
    """A command's sixteen digits."""
    return f"{proposer:02x}{kind:02x}{serial:04x}{slot:04x}{argument:04x}"


def start(title, n, f, own):
    """A heading, and a fresh site."""
    stdin.append(f"# ---- {title}\n={n:02x}{f:02x}{own:02x}\n")
    stdout.append(f"# ---- {title}\n")


def more(line, answer, sent=None):
    """One more line under the sentence above."""
    stdin.append(line)
    stdout.append(f"{answer} {sent}" if sent else f"{answer}\n")


def row(text, line, answer, sent=None):
    """What document 01 says, the line handed in, the answer, and the frame that goes out."""
    stdin.append(f"# {text}\n")
    stdout.append(f"# {text}\n")
    more(line, answer, sent)


def suspicion(sender, view, **other):
    return frame(SUSPICION, sender, view=view, **other)


def change(sender, view, mask, **other):
    return frame(VIEWCHANGE, sender, view=view, mask=mask, **other)


def leader(sender, view, mask):
    return frame(LEADER, sender, view=view, mask=mask)


def p1a(sender, view, ballot, **other):
    return frame(P1A, sender, view=view, ballot=ballot, **other)


def fast(sender, view, ballot, **other):
    return frame(FAST, sender, view=view, ballot=ballot, **other)


def p1b(sender, ballot, proven_ballot=0, mask=0, n=(), m=()):
    return frame(P1B, sender, ballot=ballot, proven_ballot=proven_ballot, mask=mask, n=n, m=m)


def propose(sender, ballot, *commands, **other):
    return frame(PROPOSE, sender, ballot=ballot, n=commands, **other)


def p2a(sender, view, ballot, *commands, **other):
    return frame(P2A, sender, view=view, ballot=ballot, n=commands, **other)


def verify(sender, view, ballot, *commands, **other):
    return frame(VERIFY, sender, view=view, ballot=ballot, n=commands, **other)


def p2b(sender, ballot, mask, *commands):
    return frame(P2B, sender, ballot=ballot, mask=mask, n=commands)


def led(line):
    """A line for the leader."""
    return ">" + line


def opening(kind, ballot):
    """The host opens a ballot: a classic one with P1A, a fast one with FAST."""
    return "+" + frame(kind, 0, ballot=ballot)


# The sample commands: enrol 7, revoke 7, and two that raise 9.
A = command(1, 1, 1, 7, 0)
B = command(2, 2, 1, 7, 0)
C = command(1, 3, 2, 9, 1)
D = command(3, 3, 1, 9, 5)

# A's proposer and serial with another slot, and another new command by proposer 1.
A_OTHER = command(1, 1, 1, 8, 0)
E = command(1, 1, 3, 11, 0)

# Commands whose fields are wrong.
WRONG = [
    ("proposer not 0", command(0, 1, 1, 7, 0)),
    ("no kind 0", command(1, 0, 1, 7, 0)),
    ("no kind 4", command(1, 4, 1, 7, 0)),
    ("serial not 0", command(1, 1, 0, 7, 0)),
    ("ENROL, argument 0", command(1, 1, 1, 7, 1)),
    ("REVOKE, argument 0", command(1, 2, 1, 7, 1)),
    ("RAISE, argument at least 1", command(1, 3, 1, 7, 0)),
]

# Thirty-three commands by proposer 1 that raise slot 9: none conflicts with another, and their order is canonical.
MANY = [command(1, 3, serial, 9, 1) for serial in range(1, 34)]


def view_change():
    start("View change: suspicions, N=4, f=1, own number 0", 4, 1, 0)
    row("The host's own suspicion enters as a SUSPICION from itself; one is not f+1", suspicion(0, 0), OK)
    row("a site is one bit of the mask: the same suspicion again counts once", suspicion(0, 0), OK)
    row("SUSPICION needs the current view", suspicion(2, 1), STALE)
    row("at f+1 ones, no target set: target is view+1, and VIEWCHANGE goes out with the suspicion mask", suspicion(2, 0), OK, change(0, 1, 0x0005))
    row("a target is set: the suspicion is noted, nothing goes out", suspicion(3, 0), OK)
    row("an equal target adds the sender; the own bit is there already", change(0, 1, 0x0005), OK)
    row("an equal target adds the sender: two ones", change(1, 1, 0x0003), OK)
    row("ones are counted, not frames: the same again", change(1, 1, 0x0003), OK)
    row("at N-f ones LEADER goes out with the target mask", change(3, 1, 0x000c), OK, leader(0, 1, 0x000b))
    row("the view becomes the target: SUSPICION of the view before", suspicion(1, 0), STALE)
    row("VIEWCHANGE needs a view above its own", change(2, 1, 0x0003), STALE)
    row("suspicions clear: one suspicion of view 1", suspicion(2, 1), OK)
    row("target clears: f+1 suspicions set the next one, with the new suspicion mask", suspicion(1, 1), OK, change(0, 2, 0x0006))
    row("the target mask restarts with its own bit: one sender more makes two ones", change(3, 2, 0x0006), OK)
    row("and the next makes N-f", change(2, 2, 0x0006), OK, leader(0, 2, 0x000d))

    start("View change: new targets, N=4, f=1, own number 0", 4, 1, 0)
    row("A new target restarts the mask with sender and itself and sends its own VIEWCHANGE with the frame's mask", change(2, 3, 0x0006), OK, change(0, 3, 0x0006))
    row("VIEWCHANGE needs a view not below the target", change(1, 2, 0x0006), STALE)
    row("f+1 suspicions where a target is set: nothing goes out", suspicion(1, 0), OK)
    more(suspicion(2, 0), OK)
    row("a view above the target is a new target", change(1, 5, 0x000a), OK, change(0, 5, 0x000a))
    row("the target before is below this one", change(3, 3, 0x0006), STALE)
    row("the mask restarted with sender and itself: site 2, who wanted view 3, is not in it", change(1, 5, 0x000a), OK)
    row("N-f ones", change(3, 5, 0x0009), OK, leader(0, 5, 0x000b))
    row("suspicions clear: one suspicion of view 5", suspicion(1, 5), OK)
    row("a new target from itself: one bit", change(0, 9, 0x0003), OK, change(0, 9, 0x0003))
    row("an equal target adds the sender: two ones, then N-f", change(1, 9, 0x0003), OK)
    more(change(2, 9, 0x0003), OK, leader(0, 9, 0x0007))

    start("View change: f+1 is 6 and N-f is 11 with N=16, f=5, own number 15", 16, 5, 15)
    row("five suspicions", suspicion(0, 0), OK)
    for site in range(1, 5):
        more(suspicion(site, 0), OK)
    row("six", suspicion(5, 0), OK, change(15, 1, 0x003f))
    row("five ones in VIEWCHANGE are too few", change(0, 1, 0x001f), PROOF)
    row("VIEWCHANGE of nine sites: ten ones with its own", change(0, 1, 0x003f), OK)
    for site in range(1, 9):
        more(change(site, 1, 0xfc00), OK)
    row("eleven", change(9, 1, 0x003f), OK, leader(15, 1, 0x83ff))

    start("View change: the last view, N=4, f=1, own number 0", 4, 1, 0)
    row("a view can be 4,294,967,295", change(1, LAST, 0x0003), OK, change(0, LAST, 0x0003))
    more(change(2, LAST, 0x0003), OK, leader(0, LAST, 0x0007))
    row("VIEWCHANGE needs a view above its own", change(3, LAST, 0x0003), STALE)
    row("one suspicion of the last view", suspicion(1, LAST), OK)
    row("FULL: the view would pass 4,294,967,295", suspicion(2, LAST), FULL)
    row("a refusal keeps the state unchanged: site 2's suspicion is not kept, and site 1's is one", suspicion(1, LAST), OK)
    row("so any other site's is again the second", suspicion(3, LAST), FULL)


def view_change_refusals():
    for text, n, f in [("N=3", 3, 1), ("N=6 with f=2", 6, 2), ("f=0", 4, 0), ("N=17", 17, 5)]:
        start(f"View change: {text}", n, f, 0)
        row("CONFIG: roster outside the figures", suspicion(0, 0), CONFIG)
    start("View change: own number 4 of N=4", 4, 1, 4)
    row("CONFIG: own number is N", suspicion(0, 0), CONFIG)
    row("CONFIG comes before FORM", "08\n", CONFIG)

    start("View change: refusals, N=4, f=1, own number 3", 4, 1, 3)
    row("FORM: a kind this role doesn't take, LEADER", leader(0, 1, 0x0007), FORM)
    row("FORM: SUSPICION doesn't use ballot, proven ballot, mask, n and m", suspicion(0, 0, ballot=1), FORM)
    more(suspicion(0, 0, proven_ballot=1), FORM)
    more(suspicion(0, 0, mask=1), FORM)
    more(suspicion(0, 0, n=[A]), FORM)
    more(suspicion(0, 0, m=[A]), FORM)
    row("FORM: VIEWCHANGE doesn't use ballot, proven ballot, n and m", change(0, 1, 0x0003, ballot=1), FORM)
    more(change(0, 1, 0x0003, proven_ballot=1), FORM)
    more(change(0, 1, 0x0003, n=[A]), FORM)
    more(change(0, 1, 0x0003, m=[A]), FORM)
    row("FORM: length wrong, a digit less and a digit more", suspicion(0, 0)[:-2] + "\n", FORM)
    more(suspicion(0, 0)[:-1] + "0\n", FORM)
    row("FORM: a digit in upper case", change(0, 1, 0x000c)[:31] + "C0000\n", FORM)
    row("FORM: a carriage return before the line feed", suspicion(0, 0)[:-1] + "\r\n", FORM)
    row("FORM comes before SENDER", suspicion(4, 0, ballot=1), FORM)
    row("SENDER: sender is N or above", suspicion(4, 0), SENDER)
    more(change(255, 1, 0x0003), SENDER)
    row("SENDER comes before STALE", suspicion(4, 7), SENDER)
    row("STALE comes before PROOF", change(0, 0, 0x0000), STALE)
    row("PROOF: too few ones, none and f", change(0, 1, 0x0000), PROOF)
    more(change(0, 1, 0x0004), PROOF)
    row("PROOF: a mask bit at N, and at 15", change(0, 1, 0x0013), PROOF)
    more(change(0, 1, 0x8003), PROOF)
    row("a refusal keeps the state unchanged: no suspicion is there, and no target", suspicion(0, 0), OK)
    more(suspicion(1, 0), OK, change(3, 1, 0x0003))


def acceptor_ballots():
    start("Acceptor: P1A, N=4, f=1, own number 3", 4, 1, 3)
    row("Fresh: ballot 0. P1A: ballot greater than its own, else STALE", p1a(0, 0, 0), STALE)
    row("P1A answers P1B; nothing proven: proven ballot and mask are 0", p1a(0, 0, 2), OK, p1b(3, 2))
    row("an equal ballot, and a lower one", p1a(0, 0, 2), STALE)
    more(p1a(0, 0, 1), STALE)
    row("P1A: view equal, else STALE", p1a(1, 1, 3), STALE)
    more(p1a(0, 4, 3), STALE)
    row("SENDER: P1A not from the frame's view mod N", p1a(1, 0, 3), SENDER)
    more(p1a(0, 1, 3), SENDER)
    row("SENDER: sender is N or above", p1a(4, 4, 3), SENDER)
    row("SENDER comes before STALE", p1a(1, 0, 1), SENDER)
    row("the refused ones took no ballot", p1a(0, 0, 3), OK, p1b(3, 3))
    row("the last ballot", p1a(0, 0, LAST), OK, p1b(3, LAST))
    more(p1a(0, 0, LAST), STALE)

    start("Acceptor: FAST, N=4, f=1, own number 3", 4, 1, 3)
    row("FAST answers nothing", fast(0, 0, 1), OK)
    row("FAST: ballot greater than its own, else STALE", fast(0, 0, 1), STALE)
    more(fast(0, 0, 0), STALE)
    row("FAST: view equal, else STALE", fast(1, 1, 2), STALE)
    row("SENDER: FAST not from the frame's view mod N", fast(2, 0, 2), SENDER)
    row("P2A: classic, else STALE", p2a(0, 0, 1, A), STALE)
    row("a fast ballot was taken: P1A of the same ballot is not greater", p1a(0, 0, 1), STALE)
    row("a classic ballot after a fast one", p1a(0, 0, 2), OK, p1b(3, 2))
    more(p2a(0, 0, 2, A), OK, verify(3, 0, 2, A))

    start("Acceptor: the view is the one in the view-change record, N=4, f=1, own number 3", 4, 1, 3)
    row("ballot 5 in view 0", p1a(0, 0, 5), OK, p1b(3, 5))
    row("the view becomes 1", change(1, 1, 0x0003), OK, change(3, 1, 0x0003))
    more(change(2, 1, 0x0003), OK, leader(3, 1, 0x000e))
    row("view equal, else STALE", p1a(0, 0, 6), STALE)
    more(p2a(0, 0, 5, A), STALE)
    more(verify(0, 0, 5, A), STALE)
    row("the ballot is the one before", p1a(1, 1, 5), STALE)
    more(p2a(1, 1, 5, A), OK, verify(3, 1, 5, A))
    row("view 1 mod 4 is site 1", p1a(0, 1, 6), SENDER)
    more(p1a(1, 1, 6), OK, p1b(3, 6, m=[A]))
    row("VERIFY carries the view", p2a(1, 1, 6, A), OK, verify(3, 1, 6, A))


def acceptor_classic():
    start("Acceptor: P2A, N=4, f=1, own number 3", 4, 1, 3)
    row("a classic ballot", p1a(0, 0, 2), OK, p1b(3, 2))
    row("P2A: ballot equal, else STALE", p2a(0, 0, 1, A), STALE)
    more(p2a(0, 0, 3, A), STALE)
    row("P2A: view equal, else STALE", p2a(1, 1, 2, A), STALE)
    row("SENDER: P2A not from the frame's view mod N", p2a(1, 0, 2, A), SENDER)
    row("PROPOSE: fast, else STALE", propose(1, 2, A), STALE)
    row("the history becomes held; answers VERIFY", p2a(0, 0, 2, A), OK, verify(3, 0, 2, A))
    row("it signed in this ballot, and must extend the held one: B doesn't, and B,A doesn't", p2a(0, 0, 2, B), BEHIND)
    more(p2a(0, 0, 2, B, A), BEHIND)
    row("A,C extends A", p2a(0, 0, 2, A, C), OK, verify(3, 0, 2, A, C))
    row("A,B doesn't extend A,C; A doesn't", p2a(0, 0, 2, A, B), BEHIND)
    more(p2a(0, 0, 2, A), BEHIND)
    row("a history extends itself", p2a(0, 0, 2, A, C), OK, verify(3, 0, 2, A, C))
    row("A,C,B extends A,C", p2a(0, 0, 2, A, C, B), OK, verify(3, 0, 2, A, C, B))
    row("P1B carries the held history, nothing being proven", p1a(0, 0, 3), OK, p1b(3, 3, m=[A, C, B]))
    row("a new ballot forgets that it signed: any history will do", p2a(0, 0, 3, B), OK, verify(3, 0, 3, B))
    row("which is held instead", p1a(0, 0, 4), OK, p1b(3, 4, m=[B]))
    row("extension is no byte prefix: C, then A,C", p2a(0, 0, 4, C), OK, verify(3, 0, 4, C))
    more(p2a(0, 0, 4, A, C), OK, verify(3, 0, 4, A, C))

    start("Acceptor: ballot 0, N=4, f=1, own number 3", 4, 1, 3)
    row("Fresh: all 0. Ballot 0 is classic: a P2A of ballot 0 is accepted", p2a(0, 0, 0, A), OK, verify(3, 0, 0, A))
    row("and N-f entries that equal it prove it", verify(0, 0, 0, A), OK)
    more(verify(1, 0, 0, A), OK, p2b(3, 0, 0x000b, A))
    row("P1B carries it", p1a(0, 0, 1), OK, p1b(3, 1, proven_ballot=0, mask=0x000b, n=[A], m=[A]))


def acceptor_verify():
    start("Acceptor: VERIFY, N=4, f=1, own number 3", 4, 1, 3)
    row("a classic ballot", p1a(0, 0, 1), OK, p1b(3, 1))
    row("VERIFY: ballot equal, else STALE", verify(0, 0, 0, A), STALE)
    more(verify(0, 0, 2, A), STALE)
    row("VERIFY: view equal, else STALE", verify(0, 1, 1, A), STALE)
    row("SENDER: sender is N or above", verify(4, 0, 1, A), SENDER)
    row("VERIFY: stored", verify(0, 0, 1, A), OK)
    row("an equal one counts as stored; entries are counted, not frames", verify(0, 0, 1, A), OK)
    more(verify(0, 0, 1, A), OK)
    row("two entries", verify(1, 0, 1, A), OK)
    row("P2A: VERIFY replaces its own entry but proves nothing yet", p2a(0, 0, 1, A), OK, verify(3, 0, 1, A))
    row("a site's own VERIFY, handed back to it, can complete a quorum: P2B goes out, its mask those entries", verify(3, 0, 1, A), OK, p2b(3, 1, 0x000b, A))
    row("it is already proven in this ballot: no second P2B", verify(3, 0, 1, A), OK)
    more(verify(2, 0, 1, A), OK)
    row("P1B carries the proven history with its ballot and mask, and the held one", p1a(0, 0, 2), OK, p1b(3, 2, proven_ballot=1, mask=0x000b, n=[A], m=[A]))
    row("VERIFY of the ballot before", verify(1, 0, 1, A), STALE)
    row("a new ballot forgets the VERIFY table: one, two entries", verify(0, 0, 2, A), OK)
    more(verify(1, 0, 2, A), OK)
    row("N-f entries, not proven in this ballot: P2B again", verify(2, 0, 2, A), OK, p2b(3, 2, 0x0007, A))
    row("proven in ballot 2", p1a(0, 0, 3), OK, p1b(3, 3, proven_ballot=2, mask=0x0007, n=[A], m=[A]))
    row("P2A must extend the proven history, also where nothing is signed in this ballot", p2a(0, 0, 3, B), BEHIND)
    more(p2a(0, 0, 3, C), BEHIND)
    row("A,C,D extends A", p2a(0, 0, 3, A, C, D), OK, verify(3, 0, 3, A, C, D))
    row("its own entry, which P2A replaced, is one of N-f that equal it; site 0's is not", verify(0, 0, 3, A), OK)
    more(verify(1, 0, 3, A, C, D), OK)
    more(verify(2, 0, 3, A, C, D), OK, p2b(3, 3, 0x000e, A, C, D))
    row("an entry that grows to the proven history: no second P2B", verify(0, 0, 3, A, C, D), OK)
    row("a longer history that extends the proven one, in the same ballot", verify(0, 0, 3, A, C, B, D), OK)
    more(verify(1, 0, 3, A, C, B, D), OK)
    more(verify(2, 0, 3, A, C, B, D), OK, p2b(3, 3, 0x0007, A, C, B, D))
    row("proven: A,C,B,D; held: A,C,D", p1a(0, 0, 4), OK, p1b(3, 4, proven_ballot=3, mask=0x0007, n=[A, C, B, D], m=[A, C, D]))

    start("Acceptor: entries of VERIFY, N=4, f=1, own number 3", 4, 1, 3)
    row("a fast ballot", fast(0, 0, 1), OK)
    row("accepted without effect if the entry is longer and extends it: A after A,C", verify(0, 0, 1, A, C), OK)
    more(verify(0, 0, 1, A), OK)
    row("so two entries are A", verify(1, 0, 1, A), OK)
    more(verify(2, 0, 1, A), OK)
    row("CONTRADICTION: sender's stored history and this one, neither extends the other", verify(1, 0, 1, B), CONTRADICTION)
    more(verify(0, 0, 1, A, B), CONTRADICTION)
    more(verify(1, 0, 1, B, A), CONTRADICTION)
    row("Stored if it extends the site's entry: A,C after A", verify(1, 0, 1, A, C), OK)
    row("N-f entries equal A,C", verify(2, 0, 1, A, C), OK, p2b(3, 1, 0x0007, A, C))
    row("the sender's entry alone counts: site 3 had none", verify(3, 0, 1, B), OK)
    row("a new ballot forgets the table", fast(0, 0, 2), OK)
    more(verify(0, 0, 2, C), OK)
    row("A,C is no byte extension of C, and extends it: stored", verify(0, 0, 2, A, C), OK)
    row("stored, N-f entries equal it, and it doesn't extend the proven history: no answer", verify(1, 0, 2, A), OK)
    more(verify(2, 0, 2, A), OK)
    more(verify(3, 0, 2, A), OK)
    row("the proven history is A,C still; nothing is held", p1a(0, 0, 3), OK, p1b(3, 3, proven_ballot=1, mask=0x0007, n=[A, C]))
    row("N-f entries of A,C in ballot 3", verify(1, 0, 3, A), OK)
    more(verify(1, 0, 3, A, C), OK)
    more(verify(2, 0, 3, A, C), OK)
    more(verify(3, 0, 3, A, C), OK, p2b(3, 3, 0x000e, A, C))

    start("Acceptor: its own entry, N=4, f=1, own number 3", 4, 1, 3)
    row("VERIFY replaces its own entry, whatever that was", verify(3, 0, 0, B), OK)
    more(p2a(0, 0, 0, A), OK, verify(3, 0, 0, A))
    more(verify(3, 0, 0, B), CONTRADICTION)
    row("N-f entries equal A with its own one, and P2A proves nothing yet", p1a(0, 0, 1), OK, p1b(3, 1, m=[A]))
    more(verify(0, 0, 1, A), OK)
    more(verify(1, 0, 1, A), OK)
    more(p2a(0, 0, 1, A), OK, verify(3, 0, 1, A))
    row("the next VERIFY does: the mask has all four", verify(2, 0, 1, A), OK, p2b(3, 1, 0x000f, A))

    start("Acceptor: the quorum is 11 with N=16, f=5, own number 15", 16, 5, 15)
    row("ten entries", verify(0, 0, 0, A), OK)
    for site in range(1, 9):
        more(verify(site, 0, 0, A), OK)
    more(verify(15, 0, 0, A), OK)
    row("eleven", verify(9, 0, 0, A), OK, p2b(15, 0, 0x83ff, A))
    row("sender 16", verify(16, 0, 0, A), SENDER)


def acceptor_fast():
    start("Acceptor: PROPOSE, N=4, f=1, own number 3", 4, 1, 3)
    row("Fresh: ballot 0 is not fast", propose(1, 0, A), STALE)
    row("a fast ballot", fast(0, 0, 1), OK)
    row("PROPOSE: ballot equal, else STALE", propose(1, 0, A), STALE)
    more(propose(1, 2, A), STALE)
    row("SENDER: PROPOSE, sender 0", propose(0, 1, A), SENDER)
    row("COMMAND: in PROPOSE its proposer isn't the sender", propose(1, 1, B), COMMAND)
    more(propose(1, 1, A, B), COMMAND)
    row("HISTORY: n = 0", propose(1, 1), HISTORY)
    row("HISTORY: proposer and serial repeated", propose(1, 1, A, A), HISTORY)
    more(propose(1, 1, A, A_OTHER), HISTORY)
    row("Commands not held are appended, result canonical; answers VERIFY. PROPOSE need not be canonical: C,A", propose(1, 1, C, A), OK, verify(3, 0, 1, A, C))
    row("canonical of A,C,B is A,C,B", propose(2, 1, B), OK, verify(3, 0, 1, A, C, B))
    row("only what is not held: A is, E is not; canonical of A,C,B,E is A,E,C,B", propose(1, 1, A, E), OK, verify(3, 0, 1, A, E, C, B))
    row("REUSED: a command's proposer and serial are held with other bytes", propose(1, 1, A_OTHER), REUSED)
    more(propose(1, 1, C, A_OTHER), REUSED)
    row("HISTORY comes before REUSED", propose(1, 1, A_OTHER, A), HISTORY)
    row("NOTHING: all commands are held already", propose(1, 1, A), NOTHING)
    more(propose(1, 1, E, C, A), NOTHING)
    row("a proposer is no site: its number may be N or above", propose(200, 1, command(200, 3, 9, 9, 7)), OK, verify(3, 0, 1, A, E, C, B, command(200, 3, 9, 9, 7)))
    row("the held history stays when a ballot is taken", fast(0, 0, 2), OK)
    more(propose(2, 2, B), NOTHING)
    more(propose(3, 2, D), OK, verify(3, 0, 2, A, E, C, B, D, command(200, 3, 9, 9, 7)))

    start("Acceptor: a fast quorum, N=4, f=1, own number 3", 4, 1, 3)
    row("a fast ballot, and VERIFY from two sites", fast(0, 0, 1), OK)
    more(verify(0, 0, 1, A), OK)
    more(verify(1, 0, 1, A), OK)
    row("answers VERIFY as above: it replaces its own entry but proves nothing yet", propose(1, 1, A), OK, verify(3, 0, 1, A))
    row("its own VERIFY handed back", verify(3, 0, 1, A), OK, p2b(3, 1, 0x000b, A))
    row("its own entry is A,B then", propose(2, 1, B), OK, verify(3, 0, 1, A, B))
    row("an earlier VERIFY of its own is accepted without effect", verify(3, 0, 1, A), OK)
    row("its own entry is one of N-f", verify(0, 0, 1, A, B), OK)
    more(verify(2, 0, 1, A, B), OK, p2b(3, 1, 0x000d, A, B))

    start("Acceptor: PROPOSE behind the proven history, N=4, f=1, own number 3", 4, 1, 3)
    row("a fast ballot in which the others prove A; this site holds nothing", fast(0, 0, 1), OK)
    more(verify(0, 0, 1, A), OK)
    more(verify(1, 0, 1, A), OK)
    more(verify(2, 0, 1, A), OK, p2b(3, 1, 0x0007, A))
    row("The held history must extend the proven one (BEHIND)", propose(2, 1, B), BEHIND)
    more(propose(1, 1, A), BEHIND)
    row("a classic ballot brings it up", p1a(0, 0, 2), OK, p1b(3, 2, proven_ballot=1, mask=0x0007, n=[A]))
    more(p2a(0, 0, 2, A), OK, verify(3, 0, 2, A))
    row("and a fast one goes on", fast(0, 0, 3), OK)
    more(propose(2, 3, B), OK, verify(3, 0, 3, A, B))
    row("the others prove A,C: held A,B doesn't extend it; BEHIND comes before REUSED and NOTHING", verify(0, 0, 3, A, C), OK)
    more(verify(1, 0, 3, A, C), OK)
    more(verify(2, 0, 3, A, C), OK, p2b(3, 3, 0x0007, A, C))
    more(propose(1, 3, A_OTHER), BEHIND)
    more(propose(2, 3, B), BEHIND)

    start("Acceptor: FULL, N=4, f=1, own number 3", 4, 1, 3)
    row("a fast ballot, and 31 commands", fast(0, 0, 1), OK)
    more(propose(1, 1, *MANY[:31]), OK, verify(3, 0, 1, *MANY[:31]))
    row("FULL: the result would exceed 32 commands, by two new ones", propose(1, 1, *MANY[31:]), FULL)
    row("31 that are held and a new one make 32", propose(1, 1, *MANY[:32]), OK, verify(3, 0, 1, *MANY[:32]))
    row("33", propose(1, 1, MANY[32]), FULL)
    more(propose(1, 1, MANY[0], MANY[32]), FULL)
    row("NOTHING and REUSED come before FULL", propose(1, 1, *MANY[:32]), NOTHING)
    more(propose(1, 1, command(1, 1, 1, 9, 0), MANY[32]), REUSED)
    row("FORM: n over 32", propose(1, 1, *MANY), FORM)
    more(verify(0, 0, 1, *MANY), FORM)
    row("32 commands are proven", verify(3, 0, 1, *MANY[:32]), OK)
    more(verify(0, 0, 1, *MANY[:32]), OK)
    more(verify(1, 0, 1, *MANY[:32]), OK, p2b(3, 1, 0x000b, *MANY[:32]))
    row("the longest line: 1,061 bytes", p1a(0, 0, 2), OK, p1b(3, 2, proven_ballot=1, mask=0x000b, n=MANY[:32], m=MANY[:32]))


def acceptor_refusals():
    for text, n, f, own in [("N=3", 3, 1, 0), ("N=6 with f=2", 6, 2, 0), ("own number 4 of N=4", 4, 1, 4)]:
        start(f"Acceptor: {text}", n, f, own)
        row("CONFIG", p1a(0, 0, 1), CONFIG)
        row("CONFIG comes before FORM", "\n", CONFIG)

    start("Acceptor: FORM, N=4, f=1, own number 3", 4, 1, 3)
    row("a kind this role doesn't take: P1B, P2B", p1b(0, 0), FORM)
    more(p2b(0, 0, 0x0007, A), FORM)
    row("an unknown kind: 0, 11", frame(0, 0, ballot=1), FORM)
    more(frame(11, 0, ballot=1), FORM)
    row("P1A and FAST don't use proven ballot, mask, n and m", p1a(0, 0, 1, proven_ballot=1), FORM)
    more(p1a(0, 0, 1, mask=1), FORM)
    more(p1a(0, 0, 1, n=[A]), FORM)
    more(fast(0, 0, 1, m=[A]), FORM)
    row("PROPOSE doesn't use view, proven ballot, mask and m", propose(1, 0, A, view=1), FORM)
    more(propose(1, 0, A, proven_ballot=1), FORM)
    more(propose(1, 0, A, mask=1), FORM)
    more(propose(1, 0, A, m=[C]), FORM)
    row("P2A and VERIFY don't use proven ballot, mask and m", p2a(0, 0, 0, A, proven_ballot=1), FORM)
    more(p2a(0, 0, 0, A, mask=1), FORM)
    more(verify(0, 0, 0, A, m=[C]), FORM)
    row("length wrong: a digit less, a digit more, a command more than n says", p1a(0, 0, 1)[:-2] + "\n", FORM)
    more(p1a(0, 0, 1)[:-1] + "0\n", FORM)
    more(p2a(0, 0, 0, A)[:-1] + C + "\n", FORM)
    row("not such a line: empty, a word, upper case, a blank at the end", "\n", FORM)
    more("acceptor\n", FORM)
    more(p1a(0, 0, 10).replace("a", "A"), FORM)
    more(p1a(0, 0, 1)[:-1] + " \n", FORM)
    row("longer than any line", "0" * 1061 + "\n", FORM)
    more("05" * 1000 + "\n", FORM)
    row("FORM comes before SENDER", p1a(4, 0, 1, mask=1), FORM)
    row("a refusal keeps the state unchanged: ballot 0, nothing held", p1a(0, 0, 1), OK, p1b(3, 1))

    start("Acceptor: COMMAND and HISTORY, N=4, f=1, own number 3", 4, 1, 3)
    for text, wrong in WRONG:
        row(f"COMMAND: a command's fields are wrong: {text}", p2a(0, 0, 0, wrong), COMMAND)
    row("COMMAND also in VERIFY, and at any place", verify(0, 0, 0, A, WRONG[6][1]), COMMAND)
    row("HISTORY: n = 0 in P2A and VERIFY", p2a(0, 0, 0), HISTORY)
    more(verify(0, 0, 0), HISTORY)
    row("HISTORY: proposer and serial repeated", p2a(0, 0, 0, A, A_OTHER), HISTORY)
    more(verify(0, 0, 0, A, A), HISTORY)
    row("HISTORY: not canonical; canonical of B,C,A is C,B,A, and of D,C,A is A,C,D", p2a(0, 0, 0, B, C, A), HISTORY)
    more(verify(0, 0, 0, D, C, A), HISTORY)
    row("STALE comes before COMMAND", p2a(0, 0, 1, WRONG[0][1]), STALE)
    more(verify(0, 0, 1, WRONG[0][1]), STALE)
    row("SENDER comes before STALE", verify(4, 0, 1, A), SENDER)
    row("COMMAND comes before HISTORY", p2a(0, 0, 0, A, A, WRONG[1][1]), COMMAND)
    row("C,B,A and B,A stand", p2a(0, 0, 0, C, B, A), OK, verify(3, 0, 0, C, B, A))
    more(verify(1, 0, 0, B, A), OK)
    row("HISTORY comes before BEHIND and CONTRADICTION", p2a(0, 0, 0, B, C), HISTORY)
    more(verify(1, 0, 0, C, A, B, A), HISTORY)
    row("COMMAND and HISTORY in a fast ballot's PROPOSE", fast(0, 0, 1), OK)
    for _, wrong in WRONG[1:]:
        more(propose(1, 1, wrong), COMMAND)
    row("SENDER comes before COMMAND: a command by proposer 0 from 0", propose(0, 1, WRONG[0][1]), SENDER)
    row("COMMAND comes before HISTORY: A twice, not from its proposer", propose(2, 1, A, A), COMMAND)


def leader_views():
    start("Leader: LEADER, N=4, f=1, own number 1", 4, 1, 1)
    row("The host opens a ballot, its view mod N being its own number, else STALE. Fresh: view 0, which is site 0's", opening(P1A, 1), STALE)
    more(opening(FAST, 1), STALE)
    row("A LEADER frame needs view mod N its own number, else STALE", led(leader(0, 2, 0x0007)), STALE)
    more(led(leader(0, 4, 0x0007)), STALE)
    row("SENDER: sender is N or above, which comes before STALE", led(leader(4, 1, 0x0007)), SENDER)
    more(led(leader(255, 2, 0x0007)), SENDER)
    row("N-f ones: PROOF for none and for two", led(leader(0, 1, 0x0000)), PROOF)
    more(led(leader(0, 1, 0x0006)), PROOF)
    row("PROOF: a mask bit at N, and at 15", led(leader(0, 1, 0x0017)), PROOF)
    more(led(leader(0, 1, 0x8007)), PROOF)
    row("STALE comes before PROOF", led(leader(0, 2, 0x0000)), STALE)
    row("the refused ones took no view: it is site 0's still", opening(P1A, 1), STALE)
    row("the leader takes that view; nothing goes out, and the sender may be any site", led(leader(3, 5, 0x000e)), OK)
    row("a view above its own, else STALE: an equal one, and a lower one", led(leader(3, 5, 0x000e)), STALE)
    more(led(leader(3, 1, 0x000e)), STALE)
    row("P1A goes out, in that view", opening(P1A, 1), OK, p1a(1, 5, 1))
    row("pending A; reports of sites 0 and 2", led(propose(1, 0, A)), OK)
    more(led(p1b(0, 1)), OK)
    more(led(p1b(2, 1)), OK)
    row("the leader takes view 9, nothing else changes", led(leader(2, 9, 0x000f)), OK)
    row("not the ballot", opening(P1A, 1), STALE)
    row("not the reports: site 0's second, and then report N-f, in view 9", led(p1b(0, 1)), STALE)
    more(led(p1b(3, 1)), OK, p2a(1, 9, 1, A))
    row("the last view of site 1, the last ballot", led(leader(0, LAST - 2, 0x0007)), OK)
    more(opening(FAST, LAST), OK, fast(1, LAST - 2, LAST))
    more(opening(P1A, LAST), STALE)


def leader_ballots():
    start("Leader: ballots, N=4, f=1, own number 0", 4, 1, 0)
    row("Fresh: ballot 0, no classic ballot open: P1B must be for the open classic ballot, else STALE", led(p1b(1, 0)), STALE)
    row("The host opens a ballot greater than the leader's last, else STALE", opening(P1A, 0), STALE)
    more(opening(FAST, 0), STALE)
    row("P1A goes out; view 0 mod 4 is site 0", opening(P1A, 2), OK, p1a(0, 0, 2))
    row("an equal ballot, and a lower one", opening(P1A, 2), STALE)
    more(opening(FAST, 2), STALE)
    more(opening(P1A, 1), STALE)
    row("the classic ballot is open: a report, which sends nothing", led(p1b(1, 2)), OK)
    row("FAST goes out", opening(FAST, 3), OK, fast(0, 0, 3))
    row("a fast ballot closes the classic one: P1B for either is STALE", led(p1b(2, 2)), STALE)
    more(led(p1b(2, 3)), STALE)
    row("a fast ballot is a last ballot, too", opening(P1A, 3), STALE)
    row("a classic ballot after a fast one, and two reports, one of them its own", opening(P1A, 4), OK, p1a(0, 0, 4))
    more(led(p1b(0, 4, m=[A])), OK)
    more(led(p1b(1, 4, m=[A])), OK)
    row("reports are forgotten: the same sites' are again the first and the second, and what they held is gone", opening(P1A, 5), OK, p1a(0, 0, 5))
    more(led(p1b(0, 5)), OK)
    more(led(p1b(1, 5)), OK)
    row("P1B for the ballot before", led(p1b(2, 4)), STALE)
    row("On report N-f: if not empty, a P2A goes out. It is empty: none", led(p1b(2, 5)), OK)
    row("P1B before N-f came, else STALE", led(p1b(3, 5)), STALE)
    row("in a new ballot it is the first again", opening(P1A, 6), OK, p1a(0, 0, 6))
    more(led(p1b(3, 6)), OK)


def leader_pending():
    start("Leader: PROPOSE, N=4, f=1, own number 0", 4, 1, 0)
    row("PROPOSE, with any ballot; nothing goes out", led(propose(1, 0, A)), OK)
    more(led(propose(2, 77, B)), OK)
    more(led(propose(1, LAST, C)), OK)
    row("SENDER: PROPOSE, sender 0", led(propose(0, 0, A)), SENDER)
    row("COMMAND: its proposer isn't the sender", led(propose(1, 0, D)), COMMAND)
    more(led(propose(3, 0, D, A)), COMMAND)
    row("COMMAND: a command's fields are wrong", led(propose(1, 0, WRONG[1][1])), COMMAND)
    for _, wrong in WRONG[2:]:
        more(led(propose(1, 0, wrong)), COMMAND)
    row("SENDER comes before COMMAND", led(propose(0, 0, WRONG[0][1])), SENDER)
    row("HISTORY: n = 0; proposer and serial repeated", led(propose(1, 0)), HISTORY)
    more(led(propose(1, 0, E, E)), HISTORY)
    row("COMMAND comes before HISTORY, and that before REUSED", led(propose(3, 0, A, A)), COMMAND)
    more(led(propose(1, 0, A_OTHER, A)), HISTORY)
    row("REUSED is read against pending", led(propose(1, 0, A_OTHER)), REUSED)
    more(led(propose(1, 0, E, A_OTHER)), REUSED)
    row("NOTHING is read against pending", led(propose(1, 0, A)), NOTHING)
    more(led(propose(1, 0, C, A)), NOTHING)
    row("appends commands not pending: A is, E is not; no refused one was", led(propose(1, 0, A, E)), OK)
    row("a ballot's opening keeps pending", opening(FAST, 1), OK, fast(0, 0, 1))
    more(opening(P1A, 2), OK, p1a(0, 0, 2))
    row("pending goes out on report N-f; canonical of A,B,C,E is A,E,C,B", led(p1b(0, 2)), OK)
    more(led(p1b(1, 2)), OK)
    more(led(p1b(2, 2)), OK, p2a(0, 0, 2, A, E, C, B))
    row("Pending keeps what the result doesn't hold, nothing: so no P2A in the next ballot", opening(P1A, 3), OK, p1a(0, 0, 3))
    more(led(p1b(0, 3)), OK)
    more(led(p1b(1, 3)), OK)
    more(led(p1b(2, 3)), OK)
    row("what isn't pending can be proposed again, and changed; a proposer may be N or above", led(propose(2, 0, B)), OK)
    more(led(propose(1, 0, A_OTHER, C)), OK)
    more(led(propose(200, 0, command(200, 1, 9, 8, 0))), OK)
    row("all of it goes out: two on slot 8 in the order they came", opening(P1A, 4), OK, p1a(0, 0, 4))
    more(led(p1b(1, 4)), OK)
    more(led(p1b(2, 4)), OK)
    more(led(p1b(3, 4)), OK, p2a(0, 0, 4, A_OTHER, C, B, command(200, 1, 9, 8, 0)))
    row("pending has the order in which the commands came, which no rule makes canonical: B, then A", led(propose(2, 0, B)), OK)
    more(led(propose(1, 0, A)), OK)
    more(opening(P1A, 5), OK, p1a(0, 0, 5))
    more(led(p1b(1, 5)), OK)
    more(led(p1b(2, 5)), OK)
    more(led(p1b(3, 5)), OK, p2a(0, 0, 5, B, A))
    row("a PROPOSE after report N-f waits for the next ballot", led(propose(3, 5, D)), OK)
    more(opening(P1A, 6), OK, p1a(0, 0, 6))
    more(led(p1b(1, 6)), OK)
    more(led(p1b(2, 6)), OK)
    more(led(p1b(3, 6)), OK, p2a(0, 0, 6, D))

    start("Leader: FULL, N=4, f=1, own number 0", 4, 1, 0)
    row("31 commands pending", led(propose(1, 0, *MANY[:31])), OK)
    row("FULL is read against pending (at most 32): two new ones", led(propose(1, 0, *MANY[31:])), FULL)
    row("31 that are pending and a new one make 32", led(propose(1, 0, *MANY[:32])), OK)
    row("33", led(propose(1, 0, MANY[32])), FULL)
    more(led(propose(2, 0, B)), FULL)
    row("REUSED and NOTHING come before FULL", led(propose(1, 0, MANY[32], A)), REUSED)
    more(led(propose(1, 0, *MANY[:32])), NOTHING)
    row("32 go out", opening(P1A, 1), OK, p1a(0, 0, 1))
    more(led(p1b(0, 1)), OK)
    more(led(p1b(1, 1)), OK)
    more(led(p1b(3, 1)), OK, p2a(0, 0, 1, *MANY[:32]))
    row("and there is room again", led(propose(1, 0, MANY[32])), OK)


def leader_reports():
    start("Leader: P1B refused, N=4, f=1, own number 0", 4, 1, 0)
    row("an open classic ballot", opening(P1A, 2), OK, p1a(0, 0, 2))
    row("SENDER: sender is N or above, which comes before STALE", led(p1b(4, 2)), SENDER)
    more(led(p1b(4, 1)), SENDER)
    row("P1B must be for the open classic ballot: a lower one, and a greater one", led(p1b(1, 1)), STALE)
    more(led(p1b(1, 3)), STALE)
    row("STALE comes before PROOF", led(p1b(1, 1, mask=0x0007)), STALE)
    row("An empty proven history needs proven ballot 0 and mask 0, else PROOF", led(p1b(1, 2, proven_ballot=1)), PROOF)
    more(led(p1b(1, 2, mask=0x0007)), PROOF)
    more(led(p1b(1, 2, proven_ballot=1, mask=0x0007, m=[A])), PROOF)
    row("another needs N-f ones, else PROOF: none, two", led(p1b(1, 2, proven_ballot=1, n=[A])), PROOF)
    more(led(p1b(1, 2, proven_ballot=1, mask=0x000a, n=[A])), PROOF)
    row("PROOF: a mask bit at N, and at 15", led(p1b(1, 2, proven_ballot=1, mask=0x0017, n=[A])), PROOF)
    more(led(p1b(1, 2, proven_ballot=1, mask=0x8007, n=[A])), PROOF)
    for text, wrong in WRONG:
        row(f"COMMAND: a command's fields are wrong, in the proven and in the held history: {text}", led(p1b(1, 2, proven_ballot=1, mask=0x0007, n=[wrong])), COMMAND)
        more(led(p1b(1, 2, m=[D, wrong])), COMMAND)
    row("PROOF comes before COMMAND", led(p1b(1, 2, proven_ballot=1, m=[WRONG[0][1]])), PROOF)
    row("HISTORY: proposer and serial repeated, in the proven and in the held history", led(p1b(1, 2, proven_ballot=1, mask=0x0007, n=[A, A_OTHER])), HISTORY)
    more(led(p1b(1, 2, m=[A, A])), HISTORY)
    row("HISTORY: not canonical; canonical of B,C,A is C,B,A, and of D,C,A is A,C,D", led(p1b(1, 2, proven_ballot=1, mask=0x0007, n=[B, C, A])), HISTORY)
    more(led(p1b(1, 2, m=[D, C, A])), HISTORY)
    row("COMMAND comes before HISTORY", led(p1b(1, 2, proven_ballot=1, mask=0x0007, n=[D, C, A], m=[WRONG[6][1]])), COMMAND)
    row("none of these was a report: three others are N-f, and the third brings the P2A", led(p1b(0, 2, m=[C, B, A])), OK)
    row("three ones pass, and proven ballot 0; a command may be in both histories", led(p1b(2, 2, proven_ballot=0, mask=0x000e, n=[C], m=[C])), OK)
    row("the first from its site, else STALE", led(p1b(2, 2)), STALE)
    more(led(p1b(2, 2, proven_ballot=0, mask=0x000e, n=[C], m=[C])), STALE)
    more(led(p1b(1, 2)), OK, p2a(0, 0, 2, C, B, A))
    row("P1B before N-f came, else STALE; that comes before PROOF, COMMAND and HISTORY", led(p1b(3, 2)), STALE)
    more(led(p1b(3, 2, proven_ballot=1, m=[A, A, WRONG[0][1]])), STALE)


def leader_proposals():
    start("Leader: the longest proven history, N=4, f=1, own number 0", 4, 1, 0)
    row("On report N-f it takes the longest proven history: A,C of site 2", opening(P1A, 1), OK, p1a(0, 0, 1))
    more(led(p1b(1, 1, proven_ballot=1, mask=0x0007, n=[A])), OK)
    more(led(p1b(2, 1, proven_ballot=1, mask=0x0007, n=[A, C])), OK)
    more(led(p1b(3, 1)), OK, p2a(0, 0, 1, A, C))
    row("the longest came first, from the highest site: C,B; A, which is proven elsewhere, is not in the result", opening(P1A, 2), OK, p1a(0, 0, 2))
    more(led(p1b(3, 2, proven_ballot=1, mask=0x0007, n=[C, B])), OK)
    more(led(p1b(0, 2, proven_ballot=1, mask=0x0007, n=[A])), OK)
    more(led(p1b(1, 2, proven_ballot=1, mask=0x0007, n=[A])), OK, p2a(0, 0, 2, C, B))
    row("of equals, the lowest site's, whichever came first and whatever the proven ballot: A of site 1", opening(P1A, 9), OK, p1a(0, 0, 9))
    more(led(p1b(3, 9, proven_ballot=8, mask=0x000f, n=[B])), OK)
    more(led(p1b(2, 9, proven_ballot=8, mask=0x000f, n=[D])), OK)
    more(led(p1b(1, 9, proven_ballot=1, mask=0x0007, n=[A])), OK, p2a(0, 0, 9, A))

    start("Leader: held histories, then pending, N=4, f=1, own number 0", 4, 1, 0)
    row("Then it appends the held histories by rising site, not as they came: A of site 1, C of 2, B of 3", opening(P1A, 1), OK, p1a(0, 0, 1))
    more(led(p1b(3, 1, m=[B])), OK)
    more(led(p1b(1, 1, m=[A])), OK)
    more(led(p1b(2, 1, m=[C])), OK, p2a(0, 0, 1, A, C, B))
    row("B of site 0, A of site 2", opening(P1A, 2), OK, p1a(0, 0, 2))
    more(led(p1b(2, 2, m=[A])), OK)
    more(led(p1b(0, 2, m=[B])), OK)
    more(led(p1b(1, 2)), OK, p2a(0, 0, 2, B, A))
    row("held histories come after the proven one, whatever their sites: B is proven, A is held", opening(P1A, 3), OK, p1a(0, 0, 3))
    more(led(p1b(0, 3, m=[A])), OK)
    more(led(p1b(1, 3)), OK)
    more(led(p1b(3, 3, proven_ballot=2, mask=0x0007, n=[B])), OK, p2a(0, 0, 3, B, A))
    row("then pending: A is pending, B is held", led(propose(1, 0, A)), OK)
    more(opening(P1A, 4), OK, p1a(0, 0, 4))
    more(led(p1b(0, 4)), OK)
    more(led(p1b(1, 4)), OK)
    more(led(p1b(3, 4, m=[B])), OK, p2a(0, 0, 4, B, A))

    start("Leader: proposer and serial present, N=4, f=1, own number 0", 4, 1, 0)
    row("pending: A with slot 8, C, B", led(propose(1, 0, A_OTHER, C)), OK)
    more(led(propose(2, 0, B)), OK)
    row("skipping any proposer and serial present: A is proven, so A with slot 8 is skipped, held or pending; C and B are there", opening(P1A, 1), OK, p1a(0, 0, 1))
    more(led(p1b(0, 1, m=[A_OTHER, E])), OK)
    more(led(p1b(1, 1, m=[A, C, B])), OK)
    more(led(p1b(2, 1, proven_ballot=1, mask=0x0007, n=[A])), OK, p2a(0, 0, 1, A, E, C, B))
    row("Pending keeps what the result doesn't hold: A with slot 8 is pending, C and B are not", led(propose(1, 0, A_OTHER)), NOTHING)
    more(led(propose(1, 0, A)), REUSED)
    more(opening(P1A, 2), OK, p1a(0, 0, 2))
    more(led(p1b(0, 2)), OK)
    more(led(p1b(1, 2)), OK)
    more(led(p1b(2, 2)), OK, p2a(0, 0, 2, A_OTHER))
    row("now it isn't", led(propose(1, 0, A)), OK)

    start("Leader: stopping at 32, N=4, f=1, own number 0", 4, 1, 0)
    row("pending: D, B", led(propose(3, 0, D)), OK)
    more(led(propose(2, 0, B)), OK)
    row("stopping at 32: 30 are proven, 31 with site 1's, 32 with the first of site 2's two", opening(P1A, 1), OK, p1a(0, 0, 1))
    more(led(p1b(0, 1, proven_ballot=1, mask=0x0007, n=MANY[:30])), OK)
    more(led(p1b(1, 1, m=MANY[29:31])), OK)
    more(led(p1b(2, 1, m=MANY[31:33])), OK, p2a(0, 0, 1, *MANY[:32]))
    row("Pending keeps what the result doesn't hold, D and B: 31 are held, and D, which came first, makes 32", opening(P1A, 2), OK, p1a(0, 0, 2))
    more(led(p1b(0, 2)), OK)
    more(led(p1b(1, 2, m=MANY[:31])), OK)
    more(led(p1b(2, 2)), OK, p2a(0, 0, 2, *MANY[:31], D))
    row("Pending keeps B", opening(P1A, 3), OK, p1a(0, 0, 3))
    more(led(p1b(0, 3)), OK)
    more(led(p1b(1, 3)), OK)
    more(led(p1b(2, 3)), OK, p2a(0, 0, 3, B))
    row("the longest line: 32 proven, 32 held", opening(P1A, 4), OK, p1a(0, 0, 4))
    more(led(p1b(1, 4, proven_ballot=3, mask=0x000f, n=MANY[1:33], m=MANY[:32])), OK)
    more(led(p1b(2, 4, m=[D])), OK)
    more(led(p1b(3, 4)), OK, p2a(0, 0, 4, *MANY[1:33]))

    start("Leader: the quorum is 11 with N=16, f=5, own number 15", 16, 5, 15)
    row("LEADER: ten ones are too few, eleven pass", led(leader(0, 15, 0x03ff)), PROOF)
    more(led(leader(0, 15, 0x83ff)), OK)
    row("pending A; a ballot", led(propose(1, 0, A)), OK)
    more(opening(P1A, 1), OK, p1a(15, 15, 1))
    row("a report's proof: ten ones are too few, eleven pass", led(p1b(15, 1, proven_ballot=1, mask=0x03ff, n=[C])), PROOF)
    more(led(p1b(15, 1, proven_ballot=1, mask=0xffe0, n=[C])), OK)
    row("ten reports", led(p1b(9, 1, m=[B])), OK)
    for site in range(8):
        more(led(p1b(site, 1)), OK)
    row("sender 16", led(p1b(16, 1)), SENDER)
    row("eleven", led(p1b(8, 1)), OK, p2a(15, 15, 1, C, B, A))
    more(led(p1b(10, 1)), STALE)


def leader_refusals():
    for text, n, f, own in [("N=3", 3, 1, 0), ("N=6 with f=2", 6, 2, 0), ("f=0", 4, 0, 0), ("N=17", 17, 5, 0), ("own number 4 of N=4", 4, 1, 4)]:
        start(f"Leader: {text}", n, f, own)
        row("CONFIG", led(propose(1, 0, A)), CONFIG)
        row("CONFIG comes before FORM", led("\n"), CONFIG)
        row("CONFIG when the host opens a ballot, before STALE", opening(P1A, 1), CONFIG)
        more(opening(FAST, 0), CONFIG)

    start("Leader: FORM, N=4, f=1, own number 0", 4, 1, 0)
    row("an open classic ballot", opening(P1A, 1), OK, p1a(0, 0, 1))
    row("a kind this role doesn't take: P1A, FAST, P2A, VERIFY, P2B, SUSPICION, VIEWCHANGE", led(p1a(0, 0, 2)), FORM)
    more(led(fast(0, 0, 2)), FORM)
    more(led(p2a(0, 0, 1, A)), FORM)
    more(led(verify(1, 0, 1, A)), FORM)
    more(led(p2b(1, 1, 0x0007, A)), FORM)
    more(led(suspicion(1, 0)), FORM)
    more(led(change(1, 4, 0x0007)), FORM)
    row("an unknown kind: 0, 11", led(frame(0, 1, ballot=1)), FORM)
    more(led(frame(11, 1, ballot=1)), FORM)
    row("LEADER doesn't use ballot, proven ballot, n and m", led(frame(LEADER, 1, view=4, mask=0x0007, ballot=1)), FORM)
    more(led(frame(LEADER, 1, view=4, mask=0x0007, proven_ballot=1)), FORM)
    more(led(frame(LEADER, 1, view=4, mask=0x0007, n=[A])), FORM)
    more(led(frame(LEADER, 1, view=4, mask=0x0007, m=[A])), FORM)
    row("PROPOSE doesn't use view, proven ballot, mask and m", led(propose(1, 0, A, view=1)), FORM)
    more(led(propose(1, 0, A, proven_ballot=1)), FORM)
    more(led(propose(1, 0, A, mask=1)), FORM)
    more(led(propose(1, 0, A, m=[C])), FORM)
    row("P1B doesn't use view", led(frame(P1B, 1, view=1, ballot=1)), FORM)
    row("n or m over 32", led(propose(1, 0, *MANY)), FORM)
    more(led(p1b(1, 1, proven_ballot=1, mask=0x0007, n=MANY)), FORM)
    more(led(p1b(1, 1, m=MANY)), FORM)
    row("length wrong: a digit less, a digit more, a command more than n and m say", led(p1b(1, 1)[:-2] + "\n"), FORM)
    more(led(p1b(1, 1)[:-1] + "0\n"), FORM)
    more(led(p1b(1, 1, m=[A])[:-1] + C + "\n"), FORM)
    row("longer than any line", led(p1b(1, 1, proven_ballot=1, mask=0x0007, n=MANY[:32], m=MANY[:32])[:-1] + "0\n"), FORM)
    row("not such a line: empty, a word, upper case", led("\n"), FORM)
    more(led("leader\n"), FORM)
    more(led(leader(0, 4, 0x0007).replace("a", "A")), FORM)
    row("FORM comes before SENDER", led(frame(P1B, 4, view=1, ballot=1)), FORM)
    row("a refusal keeps the state unchanged: nothing is pending, and nobody reported", led(p1b(0, 1)), OK)
    more(led(p1b(1, 1)), OK)
    more(led(p1b(2, 1)), OK)


def all_roles():
    start("One site in its three roles, N=4, f=1, own number 1", 4, 1, 1)
    row("the view becomes 1, and LEADER goes to view mod N, which is itself", change(2, 1, 0x0005), OK, change(1, 1, 0x0005))
    more(change(3, 1, 0x0009), OK, leader(1, 1, 0x000e))
    more(led(leader(1, 1, 0x000e)), OK)
    row("its P1A goes to its acceptor, and the P1B that this answers goes back to the leader", opening(P1A, 1), OK, p1a(1, 1, 1))
    more(p1a(1, 1, 1), OK, p1b(1, 1))
    more(led(p1b(1, 1)), OK)
    row("a PROPOSE that leader and acceptor get: pending in the one, STALE in a classic ballot for the other", led(propose(1, 1, A)), OK)
    more(propose(1, 1, A), STALE)
    row("the P2A of N-f reports goes to its acceptor, too", led(p1b(2, 1, m=[D])), OK)
    more(led(p1b(3, 1)), OK, p2a(1, 1, 1, A, D))
    more(p2a(1, 1, 1, A, D), OK, verify(1, 1, 1, A, D))


def unfinished():
    start("The end of the input, N=4, f=1, own number 3", 4, 1, 3)
    row("an unfinished line is no line", p1a(0, 0, 2)[:-1], FORM)


def main():
    arguments = [a for a in sys.argv[1:] if a != "--check"]
    if len(arguments) != 1:
        sys.exit(__doc__)
    # document 01's whole example
    assert p2b(2, 1, 0x0007, A) == "0702000000000000000100000000000701000101000100070000\n"
    views = (view_change, view_change_refusals)
    acceptors = (acceptor_ballots, acceptor_classic, acceptor_verify, acceptor_fast, acceptor_refusals)
    leaders = (leader_views, leader_ballots, leader_pending, leader_reports, leader_proposals, leader_refusals)
    for part in (*views, *acceptors, *leaders, all_roles, unfinished):
        part()
    for name, lines in (("stdin", stdin), ("stdout", stdout)):
        path = f"{arguments[0]}/{name}"
        text = "".join(lines).encode()
        if "--check" not in sys.argv:
            with open(path, "wb") as file:
                file.write(text)
            continue
        with open(path, "rb") as file:
            if file.read() != text:
                sys.exit(f"{path} is not the table's")


if __name__ == "__main__":
    main()
