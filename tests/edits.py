"""The edits that make wrong programs, crates/CRATE/must-fail/LABEL.edit and crates/CRATE/wrong/LABEL.edit: how they are read, and whether each still
fits the files that it changes. Nothing is built or proved here."""
import re


def pairs(edit):
    """The replacements of an edit: file, old text, new text."""
    found, name, old = [], None, None
    for line in edit.read_text().split('\n'):
        if line.startswith('file: '):
            name = line[6:]
        elif line.startswith('old: '):
            old = line[5:]
        elif line.startswith('new:'):
            found.append((name, old, line[4:].removeprefix(' ')))
            old = None
    return found


def edited(edit, folder):
    """The files of a crate's folder that an edit changes, by name, as it leaves them; and what is wrong with the edit, if anything."""
    texts, changes = {}, pairs(edit)
    if not changes:
        return texts, 'it has no replacement'
    for name, old, new in changes:
        if not name or not re.match(r'(src|specs)/', name) or not (folder / name).is_file():
            return texts, 'it names no file of src/ or specs/'
        text = texts.get(name) or (folder / name).read_text()
        if not old or text.count(old) != 1:
            return texts, 'a text that it replaces is not there once in ' + name
        if old == new:
            return texts, 'it changes nothing in ' + name
        texts[name] = text.replace(old, new)
    return texts, None
