#!/usr/bin/env python3
"""evidence.py: holds the pages for reviewers to what the repository has. It reads files only; nothing is built.

docs/TRACE.md   each link `[`NAME`](FILE)` names something that FILE declares; every public function is linked, and has a contract without
                precondition; and a declaration that nothing uses is linked there too, as a theorem for the reader, or it is dead.
docs/TRUST.md   the table of definitions is what the contracts of the exported functions and the claims below reach, with its line counts.
Call lists      the contract of each exported function that stands in call lists is the relation that its law in CallLaws.antt supposes.
README.md       the map of crates has a row for each line of crates.txt.
All pages       a name of two words or more, as laws have, that stands in backticks is declared somewhere; a file of a crate that is named is there,
                and declares the names that are said to be in it.
All files       each opens with a comment that says what it is for; an edit has one name in must-fail/ and wrong/, changes no proof, and each
                text that it replaces is there once.

`evidence.py --trust` prints the table of docs/TRUST.md."""
import re
import sys
from collections import defaultdict
from functools import lru_cache
from pathlib import Path

from edits import edited

ROOT = Path(__file__).resolve().parent.parent
CRATES = ROOT / 'crates'
# what the definitions that must be believed are reached from: the exported functions' contracts, the agreement of learners, what a merge is, what
# learners write over bytes, and the statement about the samples
EXPORTS = 'crates/speckleewe/src/lib.rt'
CLAIMS = (
    ('crates/agreement/specs/Agreement.antt', 'Claim'),
    ('crates/merge/specs/Merge.antt', 'IsMerge'),
    ('crates/transcript/specs/Stream.antt', 'Transcribed'),
    ('crates/samples/specs/Samples.antt', 'samples'),
    ('crates/samples/specs/Samples.antt', 'AllHold'),
)
TOKEN = re.compile(r'[^\s(){}\[\];,`"λ]+')
SIGNATURE = re.compile(r'^( *)(?:abbrev |unfoldable )?(?:pub )?([^\s:(){}|]+) :(?:\s|$)')
PASSED = re.compile(r'\s*(use|pub use|unfoldable pub use|mod|pub mod|open|infix\w*|unfolding)\b')
USE = re.compile(r"^\s*(?:ghost )?(?:unfoldable )?(?:pub )?use Rattle\.(\w+)\.(specs|proofs)\.([\w.+-]+?)(?:\.\{([^}]*)\}| as ([\w'-]+))?;?$", re.M)
# what an attribute hands to the prover, as `using(crate::proofs::Marks::unmarked_absent)`
HANDED = re.compile(r'\bcrate::(specs|proofs)::([\w:]+)::(\w+)')
# what pages name of std
STD = {'get_or', 'wrapping_sub'}
# a clause of a function, by its word; it may have a name
CLAUSE = r'(?:^|\s)%s\*?(?: \w+)? \{'
TYPE = re.compile(r'^( *)(?:pub )?(record|data) ([^\s{(]+)')


def shown(path):
    return str(path.relative_to(ROOT))


@lru_cache(maxsize=None)
def lines_of(path):
    return path.read_text().split('\n')


def bare(line):
    """A line of antt or Rattle without its comment."""
    return re.sub(r'(^|\s)(--\s.*|//.*)$', '', line)


class Block:
    """A declaration of an antt file: its name, its first and last line, and the names declared inside it (constructors, fields)."""

    def __init__(self, name, start):
        self.name, self.start, self.end, self.inner = name, start, start, []


@lru_cache(maxsize=None)
def blocks(path):
    """The declarations of an antt file, in order, those of a section `module _ ..` too; a comment right above a declaration is part of it."""
    found, current, levels = [], None, [0]
    for number, raw in enumerate(lines_of(path)):
        line = bare(raw)
        indent = len(line) - len(line.lstrip())
        if not line.strip() or PASSED.match(line):
            continue
        while indent < levels[-1]:
            levels.pop()
        if line.lstrip().startswith('module '):
            levels.append(indent + 2)
            current = None
            continue
        kind, name = TYPE.match(line), SIGNATURE.match(line)
        if indent == levels[-1] and (kind or name):
            current = Block(kind.group(3) if kind else name.group(2), number)
            found.append(current)
        elif name and current and indent == levels[-1] + 2 and TYPE.match(lines_of(path)[current.start]):
            current.inner.append(name.group(2))
        if current:
            current.end = number
    for block in found:
        while block.start > 0 and lines_of(path)[block.start - 1].strip().startswith('-- ') and '-- ----' not in lines_of(path)[block.start - 1]:
            block.start -= 1
    return found


def declared(path):
    """The names that a file declares."""
    text = path.read_text()
    if path.suffix == '.antt':
        return {name for b in blocks(path) for name in [b.name] + b.inner}
    if path.suffix == '.rt':
        return {name for name, _, _ in functions(path)} | set(re.findall(r'\b(?:struct|enum|const) (\w+)', text))
    if path.suffix == '.edit':
        return {path.stem}
    return {word.strip('.') for word in re.findall(r'[\w.-]+', text)}


@lru_cache(maxsize=None)
def functions(path):
    """The functions of a Rattle file: name (a method as `Type::name`), whether it is public, and its text down to the body."""
    found, owner, rows = [], None, lines_of(path)
    for number, line in enumerate(rows):
        opened = re.match(r'impl (\w+)', line)
        owner = opened.group(1) if opened else None if line.startswith('}') else owner
        head = re.match(r'\s*(pub )?(?:pub\(crate\) )?(?:extern "C" )?fn (\w+)', line)
        if head:
            text = []
            for row in rows[number:]:
                text.append(row)
                if re.match(r'\s*\{\s*$', row) or re.search(r'\)( -> [^{]*)? \{$', row):
                    break
            found.append(((owner + '::' if owner else '') + head.group(2), bool(head.group(1)), '\n'.join(text)))
    return found


def clauses(text, kind):
    """The clauses of this kind, `ensures` or `requires`, in the text of a function down to its body."""
    found = []
    for opened in re.finditer(CLAUSE % kind, text):
        depth, end = 1, opened.end()
        while depth:
            depth += {'{': 1, '}': -1}.get(text[end], 0)
            end += 1
        found.append(text[opened.end():end - 1])
    return found


def sources(pattern):
    return sorted(CRATES.glob(pattern))


@lru_cache(maxsize=None)
def listed():
    """The crates of crates.txt, in its order."""
    rows = (ROOT / 'crates.txt').read_text().split('\n')
    return [row.split(':')[0].split()[0] for row in rows if ':' in row and not row.startswith('#')]


# ---- docs/TRACE.md

def links(page):
    """The links of a page: name and file."""
    return re.findall(r'\[`([^`]+)`\]\(([^)#]+)\)', page.read_text())


def trace():
    page, faults, linked = ROOT / 'docs' / 'TRACE.md', [], set()
    for name, target in links(page):
        path = (page.parent / target).resolve()
        if not path.is_file():
            faults.append('docs/TRACE.md: no file %s' % target)
        elif name not in declared(path):
            faults.append('docs/TRACE.md: %s does not declare %s' % (shown(path), name))
        else:
            linked.add((path, name))
    for path in sources('*/src/*.rt'):
        for name, public, head in functions(path):
            if public and (path, name) not in linked:
                faults.append('docs/TRACE.md does not mention %s of %s' % (name, shown(path)))
            if public and (not clauses(head, 'ensures') or clauses(head, 'requires')):
                faults.append('%s: the public %s has no ensures, or a requires' % (shown(path), name))
    return faults + dead(linked)


def dead(cited):
    """Declarations of specs/ and of the shared files of proofs/ that no other declaration, contract or proof names, nor the trace. What stands in the
    folder of one function's proof answers what the prover asks there."""
    used = set()
    for path in sources('*/src/*.rt'):
        text = '\n'.join(bare(line) for line in lines_of(path))
        used.update(mentions(path, text))
        used.update(settle(path.parents[1] / folder / (module.replace('::', '/') + '.antt'), name) for folder, module, name in HANDED.findall(text))
    files = sources('*/specs/**/*.antt') + sources('*/proofs/**/*.antt')
    for path in files:
        for block in blocks(path):
            text = '\n'.join(bare(line) for line in lines_of(path)[block.start:block.end + 1])
            used.update(found for found in mentions(path, text) if found != (path, block.name))
        used.update(mentions(path, '\n'.join(bare(line) for line in lines_of(path) if line.lstrip().startswith('module '))))
    return ['%s: nothing uses %s, nor does docs/TRACE.md cite it' % (shown(path), block.name)
            for path in files if path.parent.name == 'proofs' or 'specs' in path.parts for block in blocks(path)
            if (path, block.name) not in used and (path, block.name) not in cited]


# ---- docs/TRUST.md

def root_of(crate):
    """The file that a crate's modules hang on."""
    library = CRATES / crate / 'src' / 'lib.rt'
    return library if library.is_file() else library.with_name('main.rt')


@lru_cache(maxsize=None)
def imports(path):
    """What a file's `use` lines bring: name -> (file, name there), and alias -> file."""
    names, modules = {}, {}
    for found in USE.finditer(path.read_text()):
        crate, folder, module, listed, alias = found.groups()
        own = folder == 'specs' and module.startswith('declared.')
        target = root_of(crate) if own else CRATES / crate / folder / (module.replace('.', '/') + '.antt')
        if alias:
            modules[alias] = target
        for item in (listed or '').split(','):
            there, _, here = item.strip().partition(' as ')
            if there:
                # of a struct or an enum the module's own name is what is declared
                names[here or there] = (target, module.split('.')[1] if own else there)
    return names, modules


def settle(path, name):
    """Where a name that a file passes on is declared."""
    while path.suffix == '.antt' and path.is_file() and name not in {b.name for b in blocks(path)} and name in imports(path)[0]:
        path, name = imports(path)[0][name]
    return path, name


def mentions(path, text):
    """The declarations that a text of this file mentions: file and name."""
    names, modules = imports(path)
    here = {b.name for b in blocks(path)} if path.suffix == '.antt' else set()
    inner = {n: b.name for b in blocks(path) for n in b.inner} if path.suffix == '.antt' else {}
    mixfix = {p: n for n in [*inner, *names, *here] if '◌' in n for p in n.split('◌') if p}
    for word in TOKEN.findall(text):
        first, _, rest = word.partition('.')
        first = mixfix.get(first, first)
        if rest and first in modules:
            yield settle(modules[first], rest.split('.')[0])
        elif first in here:
            yield path, first
        elif first in names:
            yield settle(*names[first])
        elif first in inner:
            yield path, inner[first]


def struct_lines(path, name):
    """The lines of a struct or an enum with its comments."""
    rows = lines_of(path)
    start = next((i for i, row in enumerate(rows) if re.match(r'\s*(pub )?(struct|enum) %s\b' % name, row)), None)
    if start is None:
        return None
    end = start if rows[start].endswith(';') else next(i for i in range(start, len(rows)) if rows[i].startswith('}'))
    while rows[start - 1].startswith(('//', '#[')):
        start -= 1
    return start, end


def reached():
    """The declarations that a reader must believe: file -> the numbers of their lines."""
    found, todo = defaultdict(set), [(ROOT / path, name) for path, name in CLAIMS]
    exports = ROOT / EXPORTS
    for name, public, text in functions(exports):
        if public:
            start = next(i for i, row in enumerate(lines_of(exports)) if re.search(r'\bfn %s\b' % name, row))
            found[exports].update(range(start, start + text.count('\n')))
            todo += list(mentions(exports, ' '.join(clauses(text, 'ensures'))))
    seen = set()
    while todo:
        path, name = todo.pop()
        if (path, name) in seen or not path.is_file():
            continue
        seen.add((path, name))
        if path.suffix == '.rt':
            span = struct_lines(path, name)
            if span:
                found[path].update(range(span[0], span[1] + 1))
            continue
        block = next((b for b in blocks(path) if name == b.name), None) or next((b for b in blocks(path) if name in b.inner), None)
        if block is None:
            continue
        found[path].update(range(block.start, block.end + 1))
        todo += list(mentions(path, '\n'.join(bare(line) for line in lines_of(path)[block.start:block.end + 1])))
    return found


def trust_table():
    """The table of docs/TRUST.md: of each file the lines to read and all its lines, crates from the lowest up."""
    rows, total, found = [], 0, reached()
    place = {crate: number for number, crate in enumerate(listed())}
    for path in sorted(found, key=lambda p: (p.suffix == '.rt', place.get(p.parts[-3], -1), p.name)):
        count = sum(1 for n in found[path] if lines_of(path)[n].strip())
        total += count
        rows.append('| [`%s`](../%s) | %d of %d |' % (shown(path)[7:], shown(path), count, len(lines_of(path)) - 1))
    return ['| file | lines to read |', '|---|---|'] + rows + ['| all | %d |' % total]


def trust():
    page = (ROOT / 'docs' / 'TRUST.md').read_text()
    return [] if '\n'.join(trust_table()) in page else ['docs/TRUST.md: the table of definitions is not what `tests/evidence.py --trust` prints']


# ---- the call lists

# the exported functions whose calls stand in the call lists of demand 3, each with the law that says so
CALL_LAWS = CRATES / 'speckleewe' / 'proofs' / 'CallLaws.antt'
TIED = (
    ('speckleewe_acceptor', 'acceptor_next'),
    ('speckleewe_view_change', 'view_change_next'),
    ('speckleewe_suspicion', 'suspicion_next'),
    ('speckleewe_learner', 'learner_next'),
)


def contract_relation(function):
    """The relation of Outcomes.antt that the whole contract of an exported function is."""
    head = next((text for name, _, text in functions(ROOT / EXPORTS) if name == function), '')
    found = re.search(r'ensures \{ (\w+) [^×⊎→≡{}]*\}', head)
    return found and settle(*imports(ROOT / EXPORTS)[0].get(found.group(1), (ROOT / EXPORTS, found.group(1))))


def law_relation(law):
    """The relation of Outcomes.antt that is the hypothesis of a law of CallLaws.antt, the last thing before what it claims."""
    block = next((b for b in blocks(CALL_LAWS) if b.name == law), None)
    text = '\n'.join(lines_of(CALL_LAWS)[block.start:block.end + 1]) if block else ''
    found = re.search(r'→ (\w+) [^→]*→ Next', text)
    return found and settle(*imports(CALL_LAWS)[0].get(found.group(1), (CALL_LAWS, found.group(1))))


def tied():
    """Each call that stands in call lists has for its contract what the law that puts it there supposes."""
    faults = []
    for function, law in TIED:
        contract, supposed = contract_relation(function), law_relation(law)
        if not contract or contract != supposed:
            says, has = (found[1] if found else 'no relation alone' for found in (contract, supposed))
            faults.append('%s: the contract of %s is %s, but %s of %s supposes %s' % (EXPORTS, function, says, law, shown(CALL_LAWS), has))
    return faults


# ---- README.md and the files

def readme():
    text = (ROOT / 'README.md').read_text()
    rows, crates, there = crate_rows(text), set(listed()), {path.parts[-3] for path in sources('*/src/*.rt')}
    return (['README.md: the map has no row for %s' % c for c in sorted(crates - rows)]
            + ['README.md: the map has a row for %s, which is no crate' % c for c in sorted(rows - crates)]
            + ['crates.txt: %s is not listed, or is not there' % c for c in sorted(crates ^ there)]
            + ['README.md: %s is not filled in' % word for word in re.findall(r'@\w+', text)])


def crate_rows(text):
    """The crates in the first column of README's map, which is its first table."""
    table = text[text.index('| crate |'):]
    return set(re.findall(r'^\| `(\w+)` \|', table[:table.index('\n\n')], re.M))


def laws():
    """A name of several words in a page, as laws and functions have, must be declared: in a crate, the header or an edit, or as a crate."""
    known = {word for path in sources('*/specs/**/*.antt') + sources('*/proofs/**/*.antt') + sources('*/src/*.rt') for word in declared(path)}
    known |= {name.split('::')[-1] for name in known} | declared(ROOT / 'include' / 'speckleewe.h') | set(listed())
    known |= {path.stem for path in sources('*/must-fail/*.edit') + sources('*/wrong/*.edit')}
    known |= {field for path in sources('*/src/*.rt') for field in re.findall(r'^    (?:pub )?(\w+): ', path.read_text(), re.M)}
    known |= STD
    return ['%s names %s, which is nowhere' % (shown(page), name)
            for page in pages() for name in sorted(set(re.findall(r'`([a-z]+(?:[-_][a-z0-9]+)+)`', page.read_text()))) if name not in known and not linked_there(page, name)]


def pages():
    """README.md and the pages of docs/, but for the one that tests/wrong_programs.py writes, and for those that name what is no longer there."""
    return [ROOT / 'README.md'] + [page for page in sorted((ROOT / 'docs').glob('*.md')) if page.name not in ('WRONG-PROGRAMS.md', 'PORT.md', 'DESIGN-PASS.md', 'LOOK-BACK.md')]


def places():
    """A file of a crate that a page names, as `history/specs/History.antt`, must be there, and names said to be in it, as `a`, `b` in `FILE`, too."""
    faults = []
    for page in pages():
        text = page.read_text()
        named = {name: CRATES / name.removeprefix('crates/') for name in re.findall(r'`((?:crates/)?\w+/(?:specs|proofs|src)/[\w/]+\.\w+)`', text)}
        faults += ['%s names %s, which is not there' % (shown(page), name) for name in sorted(named) if not named[name].is_file()]
        for names, name in re.findall(r'((?:`[\w:]+`(?:, | and )?)+) ?(?:in|of) `([^`]*)`', text):
            if name in named and named[name].is_file():
                faults += ['%s: %s does not declare %s' % (shown(page), name, word)
                           for word in re.findall(r'`([\w:]+)`', names) if word not in declared(named[name])]
    return faults


def linked_there(page, name):
    """Whether a page's links have the name, so that `trace` looks at it."""
    return any(name == n for n, _ in links(page))


def openings():
    faults = []
    for path in sources('*/specs/**/*.antt') + sources('*/proofs/**/*.antt') + sources('*/src/*.rt'):
        # the root of a crate without code has its setting of the prover above the comment
        first = next((line for line in lines_of(path) if line and line != '#![tactic(auto)]'), '')
        if not re.match(r'(--|//) \S', first):
            faults.append('%s does not open with what it is for' % shown(path))
    return faults


def edits():
    """The wrong programs: what each says of itself, and that it is told from all others and is an edit of code or definitions."""
    faults = []
    for path in sources('*/must-fail/*.edit') + sources('*/wrong/*.edit'):
        if not lines_of(path)[0].startswith('# '):
            faults.append('%s does not say which wrong program it is' % shown(path))
        if any(line.startswith('file: proofs/') for line in lines_of(path)):
            faults.append('%s changes a proof, which shows nothing' % shown(path))
        elif edited(path, path.parent.parent)[1]:
            faults.append('%s does not fit: %s' % (shown(path), edited(path, path.parent.parent)[1]))
        if path.parent.name == 'wrong' and (path.parent.parent / 'must-fail' / path.name).exists():
            faults.append('%s is in must-fail/ too' % shown(path))
    return faults


def main():
    if '--trust' in sys.argv:
        print('\n'.join(trust_table()))
        return
    faults = trace() + trust() + tied() + readme() + laws() + places() + openings() + edits()
    for fault in faults:
        print(fault)
    print('evidence: %s' % ('%d faults' % len(faults) if faults else 'the pages say what is there'))
    sys.exit(1 if faults else 0)


main()
