#!/usr/bin/env python3
"""Brings the repository's own names in specs/, proofs/ and clauses to snake case, and those of types to camel case.

Run once at the top, on what port.py made. Names of the library, names that the check makes (goals and the
steps of a proof), and everything outside specs/, proofs/ and ghost lines keep their spelling.
"""
import glob
import re
import sys

# what may stand in a name: everything but blanks, brackets, dots and marks
NAME = re.compile(r'[^\s(){}\[\],;.«»"]+')
DECLARED = re.compile(
    r'^(\s*)((?:(?:abbrev|unfoldable|pub|data|record|syntax)\s+)*)([^\s:(){}.,;]+)((?:\s+[({].*?[)}])*)\s*:\s*(.*)$')
# names of the repository that would read badly, or fall together with another, letter for letter
SPECIAL = {'getD-each': 'get_or_each', 'Leads-out': 'WaysLeadOut'}


def hyphened(name):
    return '-' in name and re.match(r"^[A-Za-z][A-Za-z0-9_'-]*$", name) is not None and '->' not in name


def new(name):
    if name in SPECIAL:
        return SPECIAL[name]
    parts = name.split('-')
    if name[0].isupper():
        return ''.join(p[:1].upper() + p[1:] for p in parts)
    return '_'.join(parts)


def lemma_files():
    return sorted(glob.glob('crates/*/specs/*.antt') + glob.glob('crates/*/proofs/*.antt'))


def answer_files():
    return sorted(set(glob.glob('crates/*/proofs/**/*.antt', recursive=True)) - set(glob.glob('crates/*/proofs/*.antt')))


def text(path):
    with open(path, encoding='utf-8') as f:
        return f.read()


def own_crates():
    return {p.split('/')[1] for p in glob.glob('crates/*')}


def foreign(body, own):
    """The names that a file imports from a library."""
    found = set()
    for m in re.finditer(r'^\s*(?:ghost )?(?:pub )?use ([^;{\n]+)\.\{([^}]*)\}', body, re.M):
        parts = m.group(1).split('.')
        if parts[0] == 'Rattle' and len(parts) > 1 and parts[1] in own:
            continue
        for item in m.group(2).split(','):
            found.add(item.split(' as ')[-1].strip())
    return found


def gather():
    own = own_crates()
    names, goals, steps = set(), set(), set()
    for path in lemma_files():
        body = text(path)
        taken = foreign(body, own)
        for line in body.splitlines():
            m = DECLARED.match(line)
            if m and not line.lstrip().startswith(('--', 'use ')) and hyphened(m.group(3)) and m.group(3) not in taken:
                names.add(m.group(3))
    for path in answer_files():
        for m in re.finditer(r'\bgoal\.([^\s(){}.,;]+)', text(path)):
            goals.add(m.group(1))
        for m in re.finditer(r'\.([A-Za-z][A-Za-z0-9_-]*-[A-Za-z0-9_-]+)', text(path)):
            steps.add(m.group(1))
    return own, names, goals, steps


def turn_line(line, pick):
    out, at = [], 0
    for m in NAME.finditer(line):
        word = m.group(0)
        after_dot = m.start() > 0 and line[m.start() - 1] == '.'
        out.append(line[at:m.start()])
        out.append(new(word) if pick(word, after_dot) else word)
        at = m.end()
    out.append(line[at:])
    return ''.join(out)


def turn_lemmas(path, own, fields):
    body = text(path)
    taken = foreign(body, own)

    def pick(word, after_dot):
        if not hyphened(word) or word in taken:
            return False
        return word in fields if after_dot else True

    lines = [l if l.lstrip().startswith('--') else turn_line(l, pick) for l in body.split('\n')]
    return '\n'.join(lines)


def turn_answers(path, own, names, fields):
    body = text(path)
    taken = foreign(body, own)
    mine = set()
    for line in body.splitlines():
        m = DECLARED.match(line)
        if m and hyphened(m.group(3)):
            (taken if m.group(5).startswith('goal.') or '.inv' in m.group(5).lower() else mine).add(m.group(3))

    def pick(word, after_dot):
        if word in taken or not hyphened(word):
            return False
        return word in fields if after_dot else word in names or word in mine

    lines = [l if l.lstrip().startswith('--') else turn_line(l, pick) for l in body.split('\n')]
    return '\n'.join(lines)


def turn_source(path, own, names, fields):
    body = text(path)
    taken = foreign(body, own)

    def pick(word, after_dot):
        if word in taken or not hyphened(word):
            return False
        return word in fields if after_dot else word in names

    out = []
    for line in body.split('\n'):
        if line.lstrip().startswith('//') or '"' in line:
            out.append(line)
        else:
            out.append(turn_line(line, pick))
    return '\n'.join(out)


def record_fields():
    fields = set()
    for path in lemma_files():
        inside = None
        for line in text(path).split('\n'):
            head = re.match(r'^(\s*)(?:pub\s+)?record\b.*\bwhere\s*$', line) or re.match(r'^(\s*)(?:pub\s+)?data\b.*\bwhere\s*$', line)
            if head:
                inside = len(head.group(1))
                continue
            if inside is not None and line.strip():
                if len(line) - len(line.lstrip()) <= inside:
                    inside = None
                    continue
                m = DECLARED.match(line)
                if m and hyphened(m.group(3)):
                    fields.add(m.group(3))
    return fields


def main():
    own, names, goals, steps = gather()
    fields = record_fields()
    for word in sorted(names & goals):
        print('a goal has this name too:', word)
    for word in sorted(fields & steps):
        print('a field, cited after a dot in answers:', word)
    turned = {}
    for word in names | fields:
        turned.setdefault(new(word), set()).add(word)
    for to, froms in sorted(turned.items()):
        if len(froms) > 1:
            print('fall together:', to, sorted(froms))
    plan = {}
    for path in lemma_files():
        plan[path] = turn_lemmas(path, own, fields)
    for path in answer_files():
        plan[path] = turn_answers(path, own, names | fields, fields)
    for path in sorted(glob.glob('crates/*/src/**/*.rt', recursive=True)):
        plan[path] = turn_source(path, own, names | fields, fields)
    changed = 0
    for path, body in plan.items():
        before = text(path)
        was = {}
        for m in NAME.finditer(before):
            was.setdefault(m.group(0), 0)
        if body != before:
            changed += 1
            for word in set(was):
                if hyphened(word) and new(word) in was and word in names | fields:
                    print('stood beside it:', path, word)
            if '--dry' not in sys.argv:
                with open(path, 'w', encoding='utf-8') as f:
                    f.write(body)
    print(changed, 'files turned,', len(names), 'names')


main()
