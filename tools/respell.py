#!/usr/bin/env python3
"""Brings the names of this repository's own definitions and lemmas to snake case: `noteColumn` and `note-column` to `note_column`.

Run once at the top of a checkout, after the kit's port.py. Names of the library, of generated goals, of src/ and of strings stay.
Where a definition and a law about it would fall together, the law gets `_law` after its name.
"""
import collections
import os
import re
import sys

TOP = sys.argv[1] if len(sys.argv) > 1 else '.'
TOKEN = r'[^\s(){}\[\],;.«»"`]+'
CHAIN = re.compile(TOKEN + r'(?:\.' + TOKEN + r')*')
DECLARATION = re.compile(r'^[ \t]*(?:(?:pub|abbrev|unfoldable|data|record|let) +)*((?:[^\s(){}\[\],;.«»"]+ +)+):[ \n]', re.M)
LET = re.compile(r'\blet +([^\s(){}\[\],;.«»"]+) *[:=]')
HEAD = re.compile(r'\b(?:data|record) +(?:pub +)?([^\s(){}\[\],;.«»"]+)')
USE = re.compile(r'\buse\s+((?:[\w\'-]+\.)*[\w\'-]+)(?:\.\{([^}]*)\}|((?: as +[\w\'-]+)?))')
# Laws in snake case whose name a definition now gets.
LAWS = {'all_whole': 'all_whole_law'}


def kebab_or_camel(name):
    if not re.match(r"^[A-Za-zα-ω][\w'\-]*$", name):
        return False
    return bool(re.search(r'-[A-Za-z0-9]', name)) or bool(re.match(r"^[a-z][\w'\-]*[a-z0-9][A-Z]|^[a-z][A-Z]", name))


def respelled(name):
    if name[0].isupper():
        return ''.join(part[:1].upper() + part[1:] for part in name.split('-'))
    name = name.replace('-', '_')
    name = re.sub(r'(?<=[a-z0-9\'])([A-Z])', r'_\1', name)
    return name.lower()


def code_of(text, comment='--'):
    return re.sub(comment + r'.*', '', text)


def find(ending, folder='crates'):
    for root, folders, files in os.walk(os.path.join(TOP, folder)):
        folders[:] = sorted(f for f in folders if f != 'out')
        for file in sorted(files):
            if file.endswith(ending):
                yield os.path.join(root, file)


def is_walk(path):
    """A proof that walks the code by hand: most of its names are the check's."""
    return path.endswith('/Proof.antt')


crates = set(os.listdir(os.path.join(TOP, 'crates')))


def is_own(path):
    parts = path.split('.')
    return parts[0] == 'Rattle' and len(parts) > 1 and parts[1] in crates


def imports(text):
    """The names that a file takes from the library, and the names that stand for modules of the repository."""
    library, modules = set(), set()
    for match in USE.finditer(text):
        path, names, alias = match.groups()
        if names is None:
            last = alias.split()[-1] if alias else path.split('.')[-1]
            if is_own(path):
                modules.add(last)
            else:
                library.add(last)
            continue
        for name in names.split(','):
            name = name.strip().split(' as ')[-1].strip()
            if not name:
                continue
            if not is_own(path):
                library.add(name)
            elif name[0].isupper():
                modules.add(name)
    return library, modules


def fields_of(text):
    fields, depth = set(), None
    for line in text.split('\n'):
        indent = len(line) - len(line.lstrip())
        if re.match(r'^\s*(?:pub +)?record\b', line):
            depth = indent
        elif depth is not None and line.strip():
            if indent <= depth:
                depth = None
            else:
                match = re.match(r'^\s+((?:[^\s(){}\[\],;.«»"]+ +)+):', line)
                if match:
                    fields.update(match.group(1).split())
    return fields


def survey():
    declared, fields, walks = set(), set(), set()
    for path in find('.antt'):
        text = code_of(open(path).read())
        names = set()
        for match in DECLARATION.finditer(text):
            names.update(match.group(1).split())
        names.update(LET.findall(text))
        names.update(HEAD.findall(text))
        if is_walk(path):
            walks |= names
        else:
            declared |= names
            fields |= fields_of(text)
    return declared, fields


declared, fields = survey()
old_names = sorted(n for n in declared if kebab_or_camel(n))
by_new = collections.defaultdict(list)
for name in old_names:
    by_new[respelled(name)].append(name)
renamed, clashes = dict(LAWS), []
for new, olds in by_new.items():
    taken = [new] if new in declared else []
    for old in olds:
        others = [o for o in olds if o != old] + taken
        if not others:
            renamed[old] = new
        elif '-' in old:
            renamed[old] = new + '_law'
        elif taken:
            clashes.append((old, new))
            renamed[old] = new
        else:
            renamed[old] = new


def turn_code(text, library, modules, walk, local):
    def chain(match):
        parts = match.group(0).split('.')
        if is_own(match.group(0)):
            return '.'.join(renamed.get(p, p) for p in parts)
        out = []
        before = text[match.start() - 1] if match.start() else ''
        for index, part in enumerate(parts):
            if index == 0 and before != '.':
                new = part
                if part not in library:
                    new = renamed.get(part) or (respelled(part) if local(part) else part)
                out.append(new)
            elif parts[0] in modules and before != '.':
                out.append(renamed.get(part, part))
            else:
                out.append(renamed[part] if part in fields and part in renamed else part)
        return '.'.join(out)
    return CHAIN.sub(chain, text)


def turn_word(match):
    word = match.group(0)
    if word not in renamed and kebab_or_camel(word) and respelled(word) in declared:
        return respelled(word)
    return renamed.get(word, word)


def turn_comment(text):
    return re.sub(r'`([^`\n]+)`', lambda m: '`' + re.sub(TOKEN, turn_word, m.group(1)) + '`', text)


def turn_antt(path):
    text = open(path).read()
    code = code_of(text)
    library, modules = imports(code)
    walk = is_walk(path)
    local = (lambda n: False) if walk else (lambda n: kebab_or_camel(n) and n not in library)
    out = []
    for line in text.split('\n'):
        body, mark, comment = line.partition('--')
        out.append((body, mark + turn_comment(comment)))
    joined = '\x00'.join(b for b, _ in out).replace('\x00', '\n')
    turned = turn_code(joined, library, modules, walk, local).split('\n')
    new = '\n'.join(b + c for b, (_, c) in zip(turned, out))
    if new != text:
        open(path, 'w').write(new)


def turn_source(path):
    text = open(path).read()
    library, modules = imports(re.sub(r'//.*', '', text))
    out = []
    for line in text.split('\n'):
        body, mark, comment = line.partition('//')
        pieces = re.split(r'("(?:[^"\\]|\\.)*")', body)
        pieces = [p if p.startswith('"') else turn_code(p, library, modules, False, lambda n: False) for p in pieces]
        out.append(''.join(pieces) + mark + turn_comment(comment))
    new = '\n'.join(out)
    if new != text:
        open(path, 'w').write(new)


def turn_edit(path):
    text = open(path).read()
    out = []
    for line in text.split('\n'):
        match = re.match(r'^(old|new): (.*)$', line)
        out.append(match.group(1) + ': ' + turn_code(match.group(2), set(), set(), False, lambda n: False) if match else line)
    new = '\n'.join(out)
    if new != text:
        open(path, 'w').write(new)


if __name__ == '__main__':
    for old, new in clashes:
        print('named alike, in other modules:' if new not in LAWS else 'the law of that name is renamed:', old, new)
    for path in list(find('.antt')):
        turn_antt(path)
    for path in list(find('.rt')):
        turn_source(path)
    for path in list(find('.edit')):
        turn_edit(path)
    for path in [os.path.join(TOP, 'README.md')] + list(find('.md', 'docs')):
        text = open(path).read()
        new = turn_comment(text)
        if new != text:
            open(path, 'w').write(new)
    print(len(renamed), 'names')
