#!/usr/bin/env python3
"""Spells the repository's own words as today's Rattle does: definitions, lemmas and fields in snake case, types in camel case.

  tools/snake_names.py        run once, at the top, after the kit's port.py

It changes the names with a hyphen that the repository's own definitions and lemma files declare: there, in the clauses and ghost
imports of sources (.rt), in answers, in wrong edits (.edit), and where a comment or a page of docs/ has one in backquotes.
Names of the library and of goals, which still have hyphens, stay; so do functions, strings and plain words in comments. It
prints the new names that a file had already.
"""
import glob
import re

NAME = r"[A-Za-z_][\w']*(?:-[\w']+)*"
TOKEN = re.compile(r"(?<![\w'·-])[A-Za-z_][\w']*(?:-[\w']+)+")
WORD = re.compile(r"(?<![\w'·-])[A-Za-z_][\w']*(?![\w'-])")
# Types, and an alias that would read like a function beside it.
SPECIAL = {'In-order': 'InOrder', 'Tree-row-right': 'TreeRowRight', 'Cell-at': 'cell_xy'}


def new_name(name):
    return SPECIAL.get(name, name.replace('-', '_'))


def split_comment(line, mark):
    """The line before its comment, and the comment."""
    m = re.search(r'(?:^|\s)' + mark + r'(?:\s|$|/|!)', line)
    return (line[:m.start()], line[m.start():]) if m else (line, '')


def in_quotes(text, names):
    return re.sub(r'`[^`\n]*`', lambda m: TOKEN.sub(lambda t: new_name(t.group()) if t.group() in names else t.group(), m.group()), text)


def in_code(text, names, answers):
    """Names outside of string literals. In answers, what stands right after `c.` and the like is a step of the code."""
    def one(t):
        before = text_part[:t.start()]
        if t.group() not in names or (answers and re.search(r'(?<![\w.])(?:[a-z]|goal)\.$', before)):
            return t.group()
        return new_name(t.group())
    parts = re.split(r'("(?:[^"\\]|\\.)*")', text)
    for i in range(0, len(parts), 2):
        text_part = parts[i]
        parts[i] = TOKEN.sub(one, text_part)
    return ''.join(parts)


def declared(text):
    found = set()
    for line in text.split('\n'):
        line = split_comment(line, '--')[0]
        m = re.match(r'^\s*(?:(?:abbrev|unfoldable|opaque|pub|private) )*(' + NAME + '(?: +' + NAME + r')*) : ', line)
        if m:
            found |= set(m.group(1).split())
        m = re.match(r'^\s*(?:(?:abbrev|unfoldable|pub) )*(?:record|data|module) (' + NAME + ')', line)
        if m:
            found.add(m.group(1))
    return found


def imported_elsewhere(text, crates):
    """Names that a file imports from a library."""
    found = set()
    for m in re.finditer(r'^(?:ghost )?use ([^;\n{]*)\{([^}]*)\}', text, re.M):
        own = re.match(r'Rattle\.(\w+)\.', m.group(1))
        if not own or own.group(1) not in crates:
            found |= set(TOKEN.findall(m.group(2)))
    return found


def main():
    antt = sorted(glob.glob('crates/**/*.antt', recursive=True))
    rt = sorted(glob.glob('crates/**/*.rt', recursive=True))
    edits = sorted(glob.glob('crates/*/must-fail/*.edit'))
    pages = sorted(glob.glob('docs/*.md') + ['README.md', 'bench/README.md'])
    crates = {c.split('/')[1] for c in antt + rt}
    names = {'Cell-at'}
    for f in antt + rt:
        text = open(f, encoding='utf-8').read()
        if f.endswith('.antt') and not re.search(r'/(Answers|Invariants)\.antt$', f) or '/specs/' in f:
            names |= declared(text)
        for m in re.finditer(r'\bas ([A-Za-z][\w]*(?:-\w+)+)', text):
            names.add(m.group(1))
    names = {n for n in names if '-' in n}
    for f in antt + rt + edits + pages:
        old = open(f, encoding='utf-8').read()
        here = names - imported_elsewhere(old, crates)
        if f.endswith('.md'):
            new = in_quotes(old, names)
        else:
            mark = '--' if f.endswith('.antt') else '//'
            answers = f.endswith('.antt') and '/specs/' not in f and f.count('/') > 3
            goals = set(re.findall(r'^(?:abbrev )?pub (\S+) : goal\.', old, re.M)) if answers else set()
            lines = []
            for line in old.split('\n'):
                code, comment = split_comment(line, mark)
                lines.append(in_code(code, here - goals, answers) + in_quotes(comment, here))
            new = '\n'.join(lines)
        if new != old:
            had = set(WORD.findall(old))
            both = sorted(n for n in set(TOKEN.findall(old)) & here if new_name(n) in had)
            if both and not f.endswith('.md'):
                print(f + ': both spellings: ' + ' '.join(both))
            open(f, 'w', encoding='utf-8').write(new)


main()
