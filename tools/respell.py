#!/usr/bin/env python3
"""respell.py [FILE..]   (at the repository's root)

Run once behind Rattle's port.py: the repository's own definitions and lemmas take today's spelling. A name in specs/ or in a lemma file of proofs/ that has a dash or
an inner capital goes into snake case (`upto-none`, `putEntry`: `upto_none`, `put_entry`); a prime is an apostrophe. Where a definition and a lemma would then share a
name, the lemma gets `_lem`. Types, modules, functions of src/, C's names, strings, inputs and outputs keep theirs. What a proof cites of Rattle's own making stays.

With FILE.. (documents, scripts) the same names are respelled there, by the table that the first run leaves in tools/respelled.txt.
"""
import collections, glob, os, re, sys

TABLE = 'tools/respelled.txt'
DECL = re.compile(r"^\s*(?:(?:abbrev|unfoldable|opaque|private|instance)\s+)*(?:pub\s+)?(?:record\s+|data\s+)?([^\s:(){}\[\],;.λ]+)\s*(?:[({].*)?:(?:\s|$)")
TOKEN = re.compile(r"[^\s(){}\[\],;.:\"`|⟦⟧@]+")
TICKED = re.compile(r'`[^`\n]*`')
# what the rule does not see: a parameter of a definition, and a name that a library has in the same file
FORCED = {'column-j+1': 'column_j_plus_1', 'is-nan': 'is_nan_lem', 'bit-or': 'bit_or_lem', 'of-bits': 'list_of_bits', 'wantU': 'want_u', 'wantVt': 'want_vt',
    'wantA': 'want_a', 'wantB': 'want_b', 'wantC': 'want_c', 'hasU': 'has_u', 'hasVt': 'has_vt', 'flagU': 'flag_u', 'flagVt': 'flag_vt'}


def snake(name):
    return re.sub(r'(?<=[a-z0-9])([A-Z])', lambda m: '_' + m.group(1).lower(), name).replace('-', '_').replace('′', "'")


def lemma_files():
    for path in sorted(glob.glob('crates/*/specs/**/*.antt', recursive=True) + glob.glob('crates/*/proofs/**/*.antt', recursive=True)):
        if '/specs/' in path or os.path.basename(path) not in ('Proof.antt', 'Answers.antt', 'Invariants.antt'):
            yield path


def of_libraries():
    """The names that some file brings in from a library: those keep its spelling."""
    own, found = set(os.listdir('crates')), set()
    for path in glob.glob('crates/*/*/**/*.antt', recursive=True) + glob.glob('crates/*/src/**/*.rt', recursive=True):
        for m in re.finditer(r'\buse ([\w.·]+)\.\{([^}]*)\}', open(path, encoding='utf-8').read()):
            if not (m.group(1).startswith('Rattle.') and m.group(1).split('.')[1] in own):
                found |= {word for part in m.group(2).split(',') for word in part.split() if word != 'as'}
    return found


def table():
    names = set()
    for path in lemma_files():
        for line in open(path, encoding='utf-8'):
            if not line.lstrip().startswith(('--', 'let ', 'use ', '|')):
                m = DECL.match(line)
                if m:
                    names.add(m.group(1))
    new = dict(FORCED)
    for name in names:
        plain = name[0].isupper() and '-' not in name and '′' not in name
        if not plain and re.search(r'[a-z0-9][A-Z]|-|′', name) and re.match(r"^\w[\w'′+-]*$", name):
            new[name] = FORCED.get(name, snake(name))
    kept = of_libraries()
    new = {a: b for a, b in new.items() if a != b and a not in kept}
    taken = collections.defaultdict(set)
    for a, b in new.items():
        taken[b].add(a)
    for name in names - set(new):
        if name in taken:
            taken[name].add(name)
    for b, olds in taken.items():
        if len(olds) > 1:
            # the definition keeps the name: the one that was written without a dash and with an inner capital, or that had this spelling before
            keeps = [a for a in olds if '-' not in a and a != b] or [a for a in olds if a == b]
            for a in olds:
                if a not in keeps:
                    new[a] = b + '_lem'
    return new


def turned(text, new):
    return TOKEN.sub(lambda m: new.get(m.group(0), m.group(0)), text)


def antt(text, new):
    out = []
    for line in text.split('\n'):
        at = line.find('--') if re.match(r'\s*--', line) or ' -- ' in line else -1
        code, comment = (line, '') if at < 0 else (line[:at], line[at:])
        out.append(turned(code, new) + prose(comment, new))
    return '\n'.join(out)


def prose(text, new):
    text = TICKED.sub(lambda m: turned(m.group(0), new), text)
    inner = {a: b for a, b in new.items() if re.search('[a-z0-9][A-Z]', a) and '-' not in a}
    return turned(text, inner)


def rattle(text, new):
    inner = {a: b for a, b in new.items() if re.search('[a-z0-9][A-Z]', a) and '-' not in a}
    out, depth, clause = [], 0, False
    for line in text.split('\n'):
        bare = line.lstrip()
        if bare.startswith('//'):
            out.append(line[:len(line) - len(bare)] + prose(bare, new))
            continue
        if bare.startswith('ghost use'):
            out.append(turned(line, new))
            continue
        if not clause and re.match(r'(requires|ensures|invariant|decreases|ghost)\b', bare):
            clause, depth = True, 0
        if clause:
            out.append(turned(line, new))
            depth += line.count('{') - line.count('}')
            clause = depth > 0
            continue
        parts = re.split(r'("(?:[^"\\]|\\.)*")', line)
        out.append(''.join(p if i % 2 else turned(p, inner) for i, p in enumerate(parts)))
    return '\n'.join(out)


def edit(text, new):
    file, out = '', []
    for line in text.split('\n'):
        m = re.match(r'(file|old|new): ?(.*)$', line)
        if m and m.group(1) == 'file':
            file = m.group(2)
        elif m:
            line = f'{m.group(1)}: ' + (antt if file.endswith('.antt') else rattle)(m.group(2), new)
        out.append(line)
    return '\n'.join(out)


def write(path, text):
    old = open(path, encoding='utf-8').read()
    if text(old) != old:
        open(path, 'w', encoding='utf-8').write(text(old))


def main():
    if sys.argv[1:]:
        new = dict(line.split() for line in open(TABLE, encoding='utf-8') if line.strip())
        for path in sys.argv[1:]:
            write(path, lambda t: TICKED.sub(lambda m: turned(m.group(0), new), t) if path.endswith('.md') else turned(t, new))
        return
    new = table()
    for path in sorted(glob.glob('crates/*/*/**/*.antt', recursive=True)):
        if '/out/' not in path:
            write(path, lambda t: antt(t, new))
    for path in sorted(glob.glob('crates/*/src/**/*.rt', recursive=True)):
        write(path, lambda t: rattle(t, new))
    for path in sorted(glob.glob('crates/*/must-fail/*.edit') + glob.glob('edits/*/*.edit')):
        write(path, lambda t: edit(t, new))
    open(TABLE, 'w', encoding='utf-8').write(''.join(f'{a} {b}\n' for a, b in sorted(new.items())))
    print(f'{len(new)} names respelled')


if __name__ == '__main__':
    main()
