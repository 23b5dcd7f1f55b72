#!/usr/bin/env python3
"""axioms.py: holds what the proofs rest on to what docs/TRUST.md says of it ("The toolchain").

`rt ci` refuses an axiom or a C function of its own in any crate, and holds each verdict line to the words that it knows. What it leaves open is which of
the toolchain's C functions code and proofs reach, whose contracts are assumed. The prover reports that of whole programs and static libraries, with every
crate below them: for a static library, as hosts link it, there is none, and for a program at most those by which std reads, writes and says what failed. A
crate without a verdict, or one whose verdict says anything else, is an error. Each is checked over what earlier checks kept."""
import re
import subprocess
import sys
from pathlib import Path

ROOT = Path(__file__).resolve().parent.parent
# the words of a verdict, and what they must say; None: any number
LIBRARY = {'logic': 'proved', 'functions': None, 'target': 'x86_64-unknown-linux-gnu', 'cpu': 'x86-64-v2', 'sum': None, 'native': 'nat,char,string',
           'logic-built': 'trusted', 'libraries-built': 'trusted', 'statements': 'trusted', 'incremental': 'trusted'}
PROGRAM = LIBRARY | {'axioms': None}
ASSUMED = {'libc::read', 'libc::write', 'os::c::rattle_errno', 'os::c::__xpg_strerror_r'}


def reported():
    """The crates that the prover makes a report of: those that crates.txt has as static libraries, and the programs; with whether it is a program."""
    for row in (ROOT / 'crates.txt').read_text().split('\n'):
        words = row.split('#')[0].split(':')[0].split()
        if words and (ROOT / 'crates' / words[0] / 'src' / 'main.rt').is_file():
            yield words[0], True
        elif 'staticlib' in words:
            yield words[0], False


def faults(crate, program):
    """What is wrong with a crate's verdict."""
    ran = subprocess.run(['rt', 'check', '--list-axioms'], cwd=ROOT / 'crates' / crate, stdin=subprocess.DEVNULL, capture_output=True, text=True)
    verdicts = re.findall(r'^logic=.*$', ran.stdout, re.M)
    if ran.returncode or len(verdicts) != 1:
        return ['rt check ends with status %d and %d verdicts: %s' % (ran.returncode, len(verdicts), (ran.stdout + ran.stderr)[-600:])]
    allowed, found = PROGRAM if program else LIBRARY, dict(word.partition('=')[::2] for word in verdicts[0].split())
    wrong = ['%s=%s' % (word, value) for word, value in found.items() if word not in allowed or allowed[word] not in (None, value)]
    wrong += ['no %s=' % word for word in allowed if word not in found and word != 'axioms']
    named = re.findall(r'^  (\S+) +reached$', ran.stdout, re.M)
    if len(named) != int(found.get('axioms', '0')):
        wrong.append('%d axioms named, %s counted' % (len(named), found.get('axioms', '0')))
    return wrong + ['axiom %s' % name for name in named if not program or name not in ASSUMED]


def main():
    failed = 0
    for crate, program in reported():
        for fault in faults(crate, program):
            print('%s: %s' % (crate, fault))
            failed += 1
    print('axioms: %s' % ('%d faults' % failed if failed else 'each program and static library rests on what docs/TRUST.md says'))
    sys.exit(1 if failed else 0)


main()
