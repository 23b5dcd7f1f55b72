#!/usr/bin/env python3
"""stack.py LIBRARY: the deepest stack use of each function that the header declares, from the archive's code.

A function's frame is what it pushes, what it takes off the stack pointer and its return address; a call's use is the deepest chain of
calls below it. No call is indirect, and no function calls itself. What the C library's memory functions use is theirs. Fails if a function
uses more than docs/MANUAL.md says of it."""
import os
import re
import subprocess
import sys


def frames(archive):
    """The frame and the callees of each function, from the disassembly with relocations."""
    text = subprocess.run(['objdump', '-dr', '--no-show-raw-insn', archive], capture_output=True, text=True, check=True).stdout
    frame, calls, name = {}, {}, None
    for line in text.splitlines():
        if m := re.match(r'[0-9a-f]+ <(.*)>:$', line):
            name = m.group(1)
            frame[name], calls[name] = 8, set()
        elif re.search(r'\spush\s', line):
            frame[name] += 8
        elif m := re.search(r'\s(sub|add)\s+\$0x([0-9a-f]+),%rsp', line):
            # a number from 2 ^ 63 on is negative: taking it adds, and adding it takes
            taken = int(m.group(2), 16) if m.group(1) == 'sub' else -int(m.group(2), 16)
            frame[name] += max(0, (taken + 2**63) % 2**64 - 2**63)
        elif m := re.search(r'R_X86_64_(?:PLT32|PC32)\s+(?:\.text\.)?(\S+?)-0x4$', line):
            calls[name].add(m.group(1))
        elif re.search(r'\scall\s+\*', line):
            sys.exit(f'stack: {name} calls through a pointer')
        elif (m := re.search(r'\s(?:call|jmp)\s+[0-9a-f]+ <(.*)>$', line)) and m.group(1) == name:
            calls[name].add(name)
        elif re.search(r',%rsp$|\sleave', line):
            sys.exit(f'stack: the frame of {name} is not fixed')
    return frame, calls


def deepest(name, frame, calls, above=()):
    """The bytes of the deepest chain of calls that starts with this function."""
    if name in above:
        sys.exit(f'stack: {name} calls itself')
    below = [deepest(c, frame, calls, above + (name,)) for c in calls[name] if c in frame]
    return frame[name] + max(below, default=0)


def main():
    if len(sys.argv) != 2 or not os.path.isfile(sys.argv[1]):
        sys.exit('usage: stack.py LIBRARY (a static library)')
    root = os.path.join(os.path.dirname(os.path.abspath(__file__)), '..')
    manual = open(os.path.join(root, 'docs', 'MANUAL.md'), encoding='utf8').read()
    frame, calls = frames(sys.argv[1])
    failed = False
    for name in sorted(n for n in frame if n.startswith('speckleewe_')):
        used = deepest(name, frame, calls)
        said = re.search(r'^\| `%s` \| ([\d,]+) \|$' % name, manual, flags=re.M)
        print(f'stack: {name} {used} bytes')
        if not said:
            failed = True
            print(f'stack: docs/MANUAL.md does not say how much {name} uses', file=sys.stderr)
        elif used > int(said.group(1).replace(',', '')):
            failed = True
            print(f'stack: more than docs/MANUAL.md says of {name}', file=sys.stderr)
    sys.exit(1 if failed else 0)


main()
