#!/usr/bin/env python3
"""pieces.py LEARN: runs the program on inputs cut into pieces, each piece one read, and compares what it writes with a model of document 01's
learner, which is written here from that page's words."""
import array
import fcntl
import os
import random
import re
import subprocess
import sys
import termios
import threading
import time

CONFIG, FORM, SENDER, STALE, PROOF, COMMAND, HISTORY, CONTRADICTION, SPLIT, FULL = 1, 2, 3, 4, 5, 6, 7, 10, 11, 13


def fields(command):
    """A command's proposer, kind, serial, slot and argument."""
    return tuple(int(command[i:j], 16) for i, j in ((0, 2), (2, 4), (4, 8), (8, 12), (12, 16)))


def request(command):
    return fields(command)[0], fields(command)[2]


def right(command):
    proposer, kind, serial, _, argument = fields(command)
    return proposer != 0 and serial != 0 and (kind in (1, 2) and argument == 0 or kind == 3 and argument >= 1)


def conflict(a, b):
    same_slot = fields(a)[3] == fields(b)[3]
    return request(a) == request(b) or same_slot and (fields(a)[1], fields(b)[1]) != (3, 3)


def canonical(history):
    rest, done = list(history), []
    while rest:
        free = [c for i, c in enumerate(rest) if not any(conflict(d, c) for d in rest[:i])]
        done.append(min(free))
        rest.remove(min(free))
    return done


def followed(g, h):
    """g, then what h has beyond it."""
    return canonical(g + [c for c in h if c not in g])


def extends(h, g):
    return all(c in h for c in g) and followed(g, h) == canonical(h)


class Learner:
    def __init__(self, first):
        good = re.fullmatch(rb'[0-9a-f]{4}\n', first)
        self.n, self.f = (int(first[:2], 16), int(first[2:4], 16)) if good else (0, 0)
        self.entries, self.learned = [[] for _ in range(16)], []

    def vote(self, line):
        """The sender, ballot, mask and history of a P2B, or None."""
        if not re.fullmatch(rb'[0-9a-f]{36,}\n', line):
            return None
        text = line[:-1].decode()
        kind, sender, view, ballot, proven, mask, n, m = (
            int(text[i:j], 16) for i, j in ((0, 2), (2, 4), (4, 12), (12, 20), (20, 28), (28, 32), (32, 34), (34, 36)))
        if kind != 7 or view or proven or m or n > 32 or len(text) != 36 + 16 * n:
            return None
        return sender, ballot, mask, [text[36 + 16 * i:52 + 16 * i] for i in range(n)]

    def step(self, line):
        """The answer and the supporters."""
        if not (4 <= self.n <= 16 and self.f >= 1 and self.n >= 3 * self.f + 1):
            return CONFIG, 0
        vote = self.vote(line)
        if vote is None:
            return FORM, 0
        sender, ballot, mask, h = vote
        quorum = self.n - self.f
        if sender >= self.n:
            return SENDER, 0
        if ballot == 0:
            return STALE, 0
        if mask >> self.n or bin(mask).count('1') < quorum:
            return PROOF, 0
        if not all(right(c) for c in h):
            return COMMAND, 0
        if not h or len({request(c) for c in h}) < len(h) or canonical(h) != h:
            return HISTORY, 0
        entry = self.entries[sender]
        if not extends(h, entry) and not extends(entry, h):
            return CONTRADICTION, 0
        entries = [list(e) for e in self.entries]
        if extends(h, entry):
            entries[sender] = h
        supporters = sum(extends(e, h) for e in entries[:self.n])
        learned = self.learned
        if supporters >= quorum:
            merged = followed(learned, h)
            if len({request(c) for c in merged}) < len(merged) or not extends(merged, h):
                return SPLIT, 0
            if len(merged) > 32:
                return FULL, 0
            learned = merged
        self.entries, self.learned = entries, learned
        return 0, supporters


def expected(data):
    lines = re.findall(rb'[^\n]*\n|[^\n]+', data)
    if not lines:
        return b''
    learner = Learner(lines[0])
    return b''.join(b'%d %d\n' % learner.step(line) for line in lines[1:])


def written(program, pieces):
    """What the program writes if each piece is one read: the next is written once the program has taken the last."""
    took, gave = os.pipe()
    process = subprocess.Popen([program], stdin=took, stdout=subprocess.PIPE)
    out = []
    reader = threading.Thread(target=lambda: out.append(process.stdout.read()))
    reader.start()
    left = array.array('i', [0])
    for piece in pieces:
        os.write(gave, piece)
        while fcntl.ioctl(took, termios.FIONREAD, left) or left[0]:
            time.sleep(0)
    os.close(took)
    os.close(gave)
    reader.join()
    process.wait()
    return out[0]


def frame(sender, ballot, mask, commands):
    text = f'07{sender:02x}{0:08x}{ballot:08x}{0:08x}{mask:04x}{len(commands):02x}00' + ''.join(commands)
    return text.encode() + b'\n'


def lines(source, count):
    """Votes of all sites for growing histories, some of them faulty, among lines that are none."""
    pool = [f'{1 + i % 5:02x}{1 + i % 3:02x}{1 + i // 5:04x}{source.choice((7, 9)):04x}{1 if i % 3 == 2 else 0:04x}' for i in range(24)]
    made = []
    for _ in range(count):
        h = canonical(source.sample(pool, source.choice((1, 1, 2, 3))))
        vote = frame(source.choice((0, 1, 2, 3, 3, 4)), source.choice((0, 1, 1, 1, 1, 9)), source.choice((7, 14, 15, 15, 3, 31)), h)
        made.append(source.choice((vote, vote, vote, vote, b'\n', b'0\n', vote[:-3] + b'\n', vote[:20] + b'\n' + vote, vote.upper(), b'\0\xff\n')))
    return made


def inputs():
    source = random.Random(1)
    a, c = '0101000100070000', '0103000200090001'
    sample = [frame(0, 1, 7, [a]), frame(1, 1, 7, [a]), frame(2, 1, 7, [a, c]), frame(3, 1, 7, [a])]
    yield b'0401\n' + b''.join(sample)
    for _ in range(3):
        yield b'0401\n' + b''.join(lines(source, 40))
    yield b'0401\n' + b''.join(sample) + b'0'
    yield b'0401\n' + b''.join(sample)[:-1]
    yield b'04010\n0401\n' + b''.join(sample)
    yield b'0301\n' + b''.join(sample) + b'0'
    yield b'0401\n' + b'0' * 1100 + b'\n' + b'0' * 1061 + b'\n' + b''.join(sample) + b'0' * 1063
    yield b'0401'
    yield b''


def cuts(data):
    """The input whole, in pieces of one size, and in pieces of random sizes."""
    source = random.Random(len(data))
    yield [data] if data else []
    for size in (1, 2, 3, 7, 61, 1061, 1062):
        yield [data[i:i + size] for i in range(0, len(data), size)]
    for most in (5, 90):
        places = [0]
        while places[-1] < len(data):
            places.append(min(len(data), places[-1] + source.randint(1, most)))
        yield [data[i:j] for i, j in zip(places, places[1:])]


def main():
    if len(sys.argv) != 2:
        sys.exit(__doc__)
    assert expected(next(inputs())) == b'0 1\n0 2\n0 1\n0 4\n'  # document 01's sample votes
    runs = 0
    for data in inputs():
        want = expected(data)
        for pieces in cuts(data):
            got = written(sys.argv[1], pieces)
            if got != want:
                sys.exit(f'pieces: {len(pieces)} pieces of {data[:80]!r}..: expected {want[:200]!r}, found {got[:200]!r}')
            runs += 1
    print(f'pieces: {runs} runs as the model says')


if __name__ == '__main__':
    main()
