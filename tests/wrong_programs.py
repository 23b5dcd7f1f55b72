#!/usr/bin/env python3
"""Holds the wrong programs to be refused: edits of a crate, crates/CRATE/must-fail/LABEL.edit and crates/CRATE/wrong/LABEL.edit.

They are tried by `rt must-fail` in a copy of crates/ in which those of wrong/ stand in must-fail/ too. It begins with what checks of the right crates
kept on this machine, and takes what it, or `rt ci` for those of must-fail/, has found of the same edit over the same files before.

Beyond what rt asks, what it refuses first must be a fact that no longer holds: an edit that only makes a proof file unfit for the code, or the code
unfit for the compiler, or that writes a contract or a definition that means nothing, shows nothing and fails. docs/WRONG-PROGRAMS.md must say of each
edit what it stands for and where it is refused. Before anything is run, all edits that are wanted must fit the files that they change.

  wrong_programs.py                    tries all, and holds the page to what it finds
  wrong_programs.py CRATE[/LABEL]..    tries these
  wrong_programs.py --write            tries all, and writes the page
  wrong_programs.py --write CRATE..    tries those of these crates, and writes their sections of the page; the other sections stay as they are

Run after `rt ci`, which proves the right crates. The last line is `N refused, M failed`; of those refused it counts wrong/ alone, as rt ci counts the others."""
import argparse
import re
import shutil
import subprocess
import sys
import tempfile
from pathlib import Path

from edits import edited

ROOT = Path(__file__).resolve().parent.parent
CRATES = ROOT / 'crates'
PAGE = ROOT / 'docs' / 'WRONG-PROGRAMS.md'
FOLDERS = ('must-fail', 'wrong')
PARTS = ('src', 'specs', 'proofs')
# what rt says of an edit, and of one that is refused the message that it takes for the reason
SAID = re.compile(r'^rt: must-fail (\w+/[\w.-]+)\.edit: (.*)', re.M)
REASON = re.compile(r'refused, as it must be: (?:note: )?(?:\./)?([^\s:]+):(\d+):\d+: (?:error: )?(.*)')
# what rt says where the right crate is not proved, so that a refusal shows nothing
UNPROVED = re.compile(r'^rt: (\w+): the check that its must-fail edits begin with did not end well', re.M)
# what it says of an edit of a definition where theorems of specs/ rest on the one that falls: it takes these for a text that can't be read
FALLS = re.compile(r'BAD EDIT: .*: (?:\./)?specs/([^\s:]+)\.antt:\d+:\d+: error: \d+ declarations? that depends? on `([^`]+)`, which was (?:rejected|not admitted)')
# what the prover says where a proof no longer fits, since an edit has changed the shape of what it takes apart or taken a fact away: what it names is gone
GONE = re.compile(r'that can be named from here|has\s+no\s+(field|`)|is\s+not\s+a\s+field\s+of\s+record|is for an impossible case|is not in scope|more patterns than')


def crate_names():
    """The crates of crates.txt."""
    lines = [line.split('#')[0].partition(':') for line in (ROOT / 'crates.txt').read_text().split('\n')]
    return [name.split()[0] for name, colon, _ in lines if colon]


def name_of(edit):
    return '%s/%s' % (edit.parts[-3], edit.stem)


def all_edits():
    """The edits of each crate, by label."""
    edits = {}
    for edit in sorted((e for folder in FOLDERS for e in CRATES.glob('*/%s/*.edit' % folder)), key=name_of):
        edits.setdefault(edit.parts[-3], []).append(edit)
    return edits


def meaning(edit):
    """The wrong program that an edit stands for: its comment."""
    lines = [line[1:].strip() for line in edit.read_text().split('\n') if line.startswith('#')]
    text = ' '.join(lines).strip()
    return text[:1].upper() + text[1:].rstrip('.')


def misfits(edits):
    """Says of each edit that does not fit the files that it changes what is wrong with it; answers how many they are."""
    found = [(name_of(e), edited(e, CRATES / crate)[1]) for crate in edits for e in edits[crate]]
    for name, wrong in found:
        if wrong:
            print('%s: BAD EDIT: %s' % (name, wrong))
    return sum(1 for _, wrong in found if wrong)


def lay(top, edits):
    """Lays a copy of the repository's crates, with these edits alone, all in must-fail/."""
    shutil.copy(ROOT / 'crates.txt', top)
    for crate in crate_names():
        for part in PARTS:
            if (CRATES / crate / part).is_dir():
                shutil.copytree(CRATES / crate / part, top / 'crates' / crate / part)
        for edit in edits.get(crate, []):
            folder = top / 'crates' / crate / 'must-fail'
            folder.mkdir(exist_ok=True)
            shutil.copy(edit, folder)


def must_fail(edits):
    """What `rt must-fail` says of these edits: all of it, and of each edit by name."""
    with tempfile.TemporaryDirectory(prefix='wrong-programs-') as room:
        top = Path(room)
        # the top of a repository, to rt
        (top / '.git').mkdir()
        lay(top, edits)
        said = subprocess.run(['rt', 'must-fail', *edits], cwd=top, stdout=subprocess.PIPE, stderr=subprocess.STDOUT, text=True).stdout
    return said, dict(SAID.findall(said))


def function(crate, path, line):
    """The function of a file of src/ that a line stands in, as its folder in proofs/ has it: module, type and name. Edits keep the numbers of lines."""
    owner, name = '', '?'
    lines = (CRATES / crate / path).read_text().split('\n')
    # attributes of a function come before its name
    while re.match(r'\s*(#|//)', lines[line - 1]):
        line += 1
    for text in lines[:line]:
        head = re.match(r'impl(?:<[^>]*>)? (?:[\w<>]+ for )?(\w+)', text)
        if head or text == '}':
            owner = head.group(1) + '/' if head else ''
        named = re.match(r'\s*(?:pub(?:\(\w+\))? )?(?:const |unsafe |extern "C" )*fn (\w+)', text)
        if named:
            name = owner + named.group(1)
    module = re.sub(r'^src/(.*)\.rt$', r'\1', path)
    return name if module in ('lib', 'main') else module + '/' + name


def touched(edit):
    """The places that an edit changes: file and line. A replacement is of one line, so the others keep their numbers."""
    folder = edit.parent.parent
    texts, _ = edited(edit, folder)
    return {(name, number) for name, text in texts.items()
            for number, (old, new) in enumerate(zip((folder / name).read_text().split('\n'), text.split('\n')), 1) if old != new}


def refusal(edit, said):
    """Where an edit is refused first, by what rt says of it: the function, or the file of definitions, laws or lemmas, with the fact or declaration;
    or None. And what is wrong with it, if anything."""
    falls = FALLS.match(said)
    # (of must-fail/ rt ci counts none that is bad to it)
    if falls and edit.parent.name == 'wrong':
        return 'specs/%s.antt, %s' % falls.groups(), None
    reason = REASON.match(said)
    if not reason:
        return None, 'UNFIT: ' + said
    path, line, message = reason.groups()
    if not path.startswith('src/') and (path, int(line)) in touched(edit):
        return None, 'UNFIT: what it writes means nothing: ' + message
    if GONE.search(message):
        return None, 'UNFIT: the proof file no longer fits: ' + message
    fact = re.match(r'`([^`]+)`:', message) or path.startswith('src/') and re.search(r'\(`([^`]+)`\)', message)
    if not fact:
        return None, 'UNFIT: no fact is named: ' + message
    place = function(edit.parts[-3], path, int(line)) if path.startswith('src/') else re.sub(r'^proofs/(.*)/\w+\.antt$', r'\1', path)
    return '%s, %s' % (place, fact.group(1)), None


def try_all(edits):
    """Tries edits, and says what came of each; answers the place where each is refused, by name."""
    said, told = must_fail(edits)
    unproved = UNPROVED.findall(said)
    places = {}
    for crate in edits:
        for edit in edits[crate]:
            name = name_of(edit)
            place, wrong = refusal(edit, told.get(name, 'NOT TRIED'))
            if crate in unproved:
                place, wrong = None, 'NOT TRIED: the right crate is not proved'
            print('%s: %s' % (name, 'refused at ' + place if place else wrong), flush=True)
            if place:
                places[name] = place
    if any(name_of(e) not in told for crate in edits for e in edits[crate]):
        print(said)
    return places


def section(crate, edits, places):
    """A crate's section of the page: of each edit what it stands for, its folder, and where it is refused."""
    rows = ['| `%s` | %s | %s | %s |' % (e.stem, meaning(e).replace('|', r'\|'), e.parent.name, places.get(name_of(e), 'nowhere')) for e in edits]
    return '\n'.join(['## `%s`\n\n| edit | the wrong program | folder | refused at |\n|---|---|---|---|' % crate] + rows) + '\n'


def sections():
    """The sections that the page has, by crate."""
    text = PAGE.read_text() if PAGE.exists() else ''
    return dict(re.findall(r'^(?=## `(\w+)`$)((?:(?!\n\n## ).)*)', text, re.M | re.S))


def page(places, crates):
    """The page of wrong programs, with the sections of these crates by what was found; the others stay as they are."""
    kept = sections()
    text = [section(crate, edits, places) if crate in crates else kept[crate].rstrip('\n') + '\n'
            for crate, edits in all_edits().items() if crate in crates or crate in kept]
    return '\n'.join([PAGE_HEAD + '\n'] + text)


PAGE_HEAD = """# Wrong programs

Each row is an edit of a crate that makes the wrong program (or states the wrong rule) that the row names, and that the prover must refuse. `make test` tries all of them.
The third column is the folder of the crate that has the edit. Those of `must-fail/` are tried by the toolchain's gate, `rt ci`: the errors that document 01 names, and the most telling ones of each exported function and of the functions below. Those of `wrong/` are tried by `tests/wrong_programs.py` in the same way, by `rt must-fail` in a copy of the crates. Each is tried over what the check of the right crate proved, so that only what the edit changes is checked again; an edit that was refused before over the same files is not tried again on that machine.
The last column is the first place where the prover refuses: a function and the fact of its proof that no longer holds, or a file of definitions, laws or lemmas and the declaration in it. A fact whose name begins with `returns` is that the function's result meets its contract, in the branch that the name goes on with; one that ends in `preserved` is that a turn keeps a loop's invariant.
`tests/wrong_programs.py` holds this page to what it finds for both; `tests/wrong_programs.py --write` writes it, `--write CRATE..` the sections of these crates."""


def page_differs(places, crates, write):
    """Writes the page, or says whether it differs from what was found."""
    if write:
        PAGE.write_text(page(places, crates))
    elif not PAGE.exists() or PAGE.read_text() != page(places, crates):
        print('docs/WRONG-PROGRAMS.md does not say what was found; tests/wrong_programs.py --write writes it')
        return True
    return False


def arguments(edits):
    """The words of the command line; one that is not known ends the run with how it is used."""
    parser = argparse.ArgumentParser(description='Tries the wrong programs, and holds docs/WRONG-PROGRAMS.md to what it finds.', allow_abbrev=False)
    parser.add_argument('--write', action='store_true', help='write docs/WRONG-PROGRAMS.md anew; with crates, their sections of it')
    parser.add_argument('names', nargs='*', metavar='CRATE[/LABEL]', help='try these edits only; with --write, crates')
    words = parser.parse_args()
    known = set(crate_names()) | {name_of(e) for group in edits.values() for e in group}
    for name in words.names:
        if name not in known:
            parser.error('there is no crate and no edit %s' % name)
        if words.write and '/' in name:
            parser.error('--write is for all edits of a crate')
    return words


def chosen(edits, names):
    """The edits that are named, or all."""
    found = {crate: [e for e in group if not names or crate in names or name_of(e) in names] for crate, group in edits.items()}
    return {crate: group for crate, group in found.items() if group}


def main():
    edits = all_edits()
    words = arguments(edits)
    wanted = chosen(edits, words.names)
    bad = misfits(wanted)
    if bad:
        sys.exit('nothing was tried, %d failed' % bad)
    places = try_all(wanted)
    every = [e for crate in wanted for e in wanted[crate]]
    failed = len(every) - len(places)
    if words.write or not words.names:
        failed += page_differs(places, wanted, words.write)
    refused = [e for e in every if name_of(e) in places]
    print('%d of must-fail/ refused' % sum(1 for e in refused if e.parent.name == 'must-fail'))
    print('%d refused, %d failed' % (sum(1 for e in refused if e.parent.name == 'wrong'), failed))
    sys.exit(1 if failed else 0)


main()
