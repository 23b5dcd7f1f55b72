#!/usr/bin/env python3
"""lines.py N F COUNT LENGTH: writes an input for the learner program.

The roster line, then COUNT votes (P2B) whose senders go round the N sites.
Their histories grow along one chain up to LENGTH commands (at most 32), one
command a round, and then repeat the full history. Every prefix of the chain
is in canonical order. A few per cent of the lines are damaged. The same
arguments always give the same bytes.
"""

import random
import sys

ENROL, REVOKE, RAISE = 1, 2, 3
DAMAGED = 0.04
LATE = 0.02


def command(proposer, kind, serial, slot, argument):
    return (proposer << 56) | (kind << 48) | (serial << 32) | (slot << 16) | argument


def conflict(a, b):
    if (a ^ b) & 0xFF00FFFF00000000 == 0:
        return True
    if (a ^ b) & 0xFFFF0000 != 0:
        return False
    return not ((a >> 48) & 0xFF == RAISE and (b >> 48) & 0xFF == RAISE)


def canonical(history):
    rest, done = list(history), []
    while rest:
        free = [c for i, c in enumerate(rest)
                if not any(conflict(b, c) for b in rest[:i])]
        best = min(free)
        rest.remove(best)
        done.append(best)
    return done


def chain(rng, length):
    """The histories of 1 to length commands, each extending the one before."""
    histories, history, serials = [], [], {}
    for _ in range(length):
        proposer = rng.randint(1, 5)
        serials[proposer] = serials.get(proposer, 0) + 1
        kind = rng.choice((ENROL, REVOKE, RAISE, RAISE))
        argument = rng.randint(1, 0xFFFF) if kind == RAISE else 0
        slot = rng.randint(1, 6)
        history = canonical(
            history + [command(proposer, kind, serials[proposer], slot, argument)])
        histories.append(history)
    return histories


def frame(sender, ballot, mask, history):
    head = "07%02x%08x%08x%08x%04x%02x00" % (sender, 0, ballot, 0, mask, len(history))
    return head + "".join("%016x" % c for c in history)


def some_mask(rng, n, ones):
    return sum(1 << i for i in rng.sample(range(n), ones))


def out_of_order(history):
    """Two free neighbours swapped; if there are none, a command repeated."""
    for i in range(len(history) - 1):
        a, b = history[i], history[i + 1]
        if not conflict(a, b):
            return history[:i] + [b, a] + history[i + 2:]
    return history[:-1] + [history[-1]] * 2 if len(history) < 32 else history[:-1] + history[:1]


def damaged(rng, n, f, sender, history):
    mask = some_mask(rng, n, n - f)
    good = frame(sender, 1, mask, history)
    way = rng.randrange(9)
    if way == 0:
        at = rng.randrange(len(good))
        return good[:at] + rng.choice("ABCDEF") + good[at + 1:]
    if way == 1:
        return good[:rng.randrange(len(good))]
    if way == 2:
        return frame(rng.randint(n, 255), 1, mask, history)
    if way == 3:
        return frame(sender, 0, mask, history)
    if way == 4:
        return frame(sender, 1, some_mask(rng, n, n - f - 1), history)
    if way == 5:
        at = rng.randrange(len(history))
        wrong = rng.choice((
            history[at] & ~(0xFF << 56),
            history[at] & ~(0xFFFF << 32),
            history[at] | (4 << 48),
            command(1, ENROL, 1, 1, 1),
            command(1, RAISE, 1, 1, 0)))
        return frame(sender, 1, mask, history[:at] + [wrong] + history[at + 1:])
    if way == 6:
        return frame(sender, 1, mask, out_of_order(history))
    if way == 7:
        return good + rng.choice(("0", "00", "0" * 16, "0" * 1200))
    return frame(sender, 1, mask, [])


def main():
    n, f, count, length = (int(a) for a in sys.argv[1:5])
    if not 1 <= length <= 32:
        sys.exit("LENGTH must be 1 to 32")
    rng = random.Random(20000 + n * 1000 + f)
    histories = chain(rng, length)
    stranger = [command(9, REVOKE, 1, 99, 0)]
    voted = set()
    lines = ["%02x%02x" % (n, f)]
    for i in range(count):
        sender = i % n
        size = min(length, 1 + i // n)
        if rng.random() < DAMAGED:
            if sender in voted and rng.random() < 0.1:
                # Sound in itself, but against what the site voted before.
                mask = some_mask(rng, n, n - f)
                lines.append(frame(sender, 1, mask, stranger))
            else:
                lines.append(damaged(rng, n, f, sender, histories[size - 1]))
            continue
        if rng.random() < LATE:
            size = rng.randint(1, size)
        mask = some_mask(rng, n, n - f)
        lines.append(frame(sender, 1, mask, histories[size - 1]))
        voted.add(sender)
    sys.stdout.write("\n".join(lines) + "\n")


main()
