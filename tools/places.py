#!/usr/bin/env python3
"""Counts the places of sources that a trait, a generic function, an iterator or a struct of loans might shorten. The points are those of docs/DESIGN-PASS.md.

    python3 tools/places.py [-v] [TOP]

TOP is the top of a checkout (this one). With -v each place is listed. The crate of exports is left out: tools/exports.py writes it.
The counts go by the text of the sources. They find candidates; which of them stay, and why, is said beside each by a line '// Kept: ..'.
"""
import glob
import os
import re
import sys
from collections import Counter, defaultdict

FUNCTION = re.compile(r'^( *)(?:pub )?(?:const )?fn (\w+)(?:<[^\n(]*>)?\(', re.M)


def sources(top):
    for path in sorted(glob.glob(os.path.join(top, 'crates', '*', 'src', '**', '*.rt'), recursive=True)):
        name = os.path.relpath(path, os.path.join(top, 'crates'))
        if not name.startswith('yexwalu_c/'):
            with open(path) as f:
                yield name, f.read()


def matching(text, at, pair):
    """The end of the bracket that opens at `at`."""
    depth = 0
    while at < len(text):
        if text[at] == pair[0]:
            depth += 1
        elif text[at] == pair[1]:
            depth -= 1
            if depth == 0:
                return at
        at += 1
    return at


def functions(text):
    """Name, line, parameters, clauses and body of each function."""
    for m in FUNCTION.finditer(text):
        close = matching(text, m.end() - 1, '()')
        params = [p.strip() for p in split(text[m.end():close]) if p.strip()]
        at = text.find('\n' + m.group(1) + '{\n', close)
        if at < 0:
            at = text.find('{\n', close)
        else:
            at += 1 + len(m.group(1))
        end = text.find('\n' + m.group(1) + '}', at)
        yield m.group(2), text.count('\n', 0, m.start()) + 1, params, text[close + 1:at], text[at:end]


def split(params):
    out, depth, last = [], 0, 0
    for i, c in enumerate(params):
        if c in '([<{':
            depth += 1
        elif c in ')]>}':
            depth -= 1
        elif c == ',' and depth == 0:
            out.append(params[last:i])
            last = i + 1
    return out + [params[last:]]


def plain(text):
    return re.sub(r'//[^\n]*', '', text)


def enums(text):
    for m in re.finditer(r'^(?:pub )?enum (\w+)[^\n]*\{\n(.*?)^\}', text, re.M | re.S):
        body = plain(m.group(2))
        variants, at = [], 0
        for v in split(body):
            v = v.strip()
            if v:
                variants.append((re.match(r'\w+', v).group(0), bool(re.search(r'[({]', v)), 'Refusal' in v))
        yield m.group(1), text.count('\n', 0, m.start()) + 1, variants


def shaped(variants):
    """Option's or Result's shape: one variant with values, and beside it a single one without, or refusals."""
    with_values = [v for v in variants if v[1] and not v[2]]
    rest = [v for v in variants if not v[1] or v[2]]
    if len(variants) == 2 and len(with_values) <= 1:
        return True
    return len(with_values) == 1 and len(rest) >= 1 and all(v[2] or not v[1] for v in rest) and len(variants) <= 5


def normal(text, words):
    text = re.sub(r'\b(u8|u16|u32|u64|usize|i64)\b', 'T', plain(text))
    text = re.sub(r'"[^"]*"', 'S', text)
    text = re.sub(r'\b(0x[0-9a-f_]+|[0-9][0-9_]*)\b', 'N', text)
    return ' '.join(text.split())


def point1(files):
    for name, text in files:
        for enum, line, variants in enums(text):
            if shaped(variants):
                yield f'{name}:{line} enum {enum}'
        for m in re.finditer(r'^(?:pub )?struct (\w+)[^\n]*\{\n(.*?)^\}', text, re.M | re.S):
            fields = [f.strip() for f in split(plain(m.group(2))) if f.strip()]
            flags = [f for f in fields if f.endswith(': bool')]
            if len(flags) == 1 and len(fields) > 1 and len(fields) < 6:
                yield f'{name}:{text.count(chr(10), 0, m.start()) + 1} flag in struct {m.group(1)}'
        for fn, line, params, clauses, body in functions(text):
            arms = re.findall(r'^\s*[A-Z]\w*::\w+(?:\([^)]*\)|\s*\{[^}]*\})? => [0-9]+,', body, re.M)
            if len(arms) > 2:
                yield f'{name}:{line} numbers by fn {fn}'
            if re.match(r'\s*-> u8\b', clauses) and re.search(r'\b(code|rank_of|kind)\b', clauses):
                yield f'{name}:{line} a kind as a number from fn {fn}'


def point2(files):
    same = defaultdict(list)
    for name, text in files:
        for fn, line, params, clauses, body in functions(text):
            if body.count('\n') > 3:
                key = normal(body + ' '.join(p.split(':', 1)[-1] for p in params), None)
                key = re.sub(r'\b%s\b' % re.escape(fn), 'F', key)
                key = re.sub(r'_(T|u8|u32|u64)\b', '_T', key)
                same[key].append(f'{name}:{line} fn {fn}')
        for m in re.finditer(r'\bfn (\w+)_(u8|u32|u64)\b', text):
            same['width ' + m.group(1)].append(f'{name}:{text.count(chr(10), 0, m.start()) + 1} fn {m.group(1)}_{m.group(2)}')
    seen = set()
    for key, places in same.items():
        if len(places) > 1:
            for p in places:
                if p not in seen:
                    seen.add(p)
                    yield p + f' ({len(places)} alike)'


def point3(files):
    for name, text in files:
        for m in re.finditer(r'^\s*(while .*|loop) \{$', text, re.M):
            yield f'{name}:{text.count(chr(10), 0, m.start(1)) + 1} {m.group(1)}'


def point4(files):
    by_hand = re.compile(r'(compare\w*|equal\w*|same_\w+|order_\w+|number|numbers|word_of\w*|\w+_word|write_\w+|print_\w+|put_number\w*|told|from_\w+|to_[a-z]\w*)$')
    for name, text in files:
        for fn, line, params, clauses, body in functions(text):
            if by_hand.match(fn):
                yield f'{name}:{line} fn {fn}'


def point5(files):
    facts = defaultdict(set)
    for name, text in files:
        for fn, line, params, clauses, body in functions(text):
            if len(params) >= 10:
                yield f'{name}:{line} fn {fn}, {len(params)} parameters'
            for m in re.finditer(r'requires(?: \w+)? \{', clauses):
                fact = clauses[m.end():matching(clauses, m.end() - 1, '{}')]
                for part in re.split(r' × ', ' '.join(fact.split())):
                    facts[part.strip(' ()')].add(f'{name}:{line} fn {fn}')
    for fact, places in sorted(facts.items()):
        if len(places) >= 3:
            yield f'{len(places)} functions require: {fact[:150]}'


def point6(files):
    for name, text in files:
        for fn, line, params, clauses, body in functions(text):
            if re.search(r'\blow\b', body) and re.search(r'\bhigh\b', body) and 'while' in body:
                yield f'{name}:{line} searched by halves in fn {fn}'
        for m in re.finditer(r'= \[0(?:u\d+)?; ([0-9_]+|[A-Z_]+)\]', text):
            yield f'{name}:{text.count(chr(10), 0, m.start()) + 1} buffer of {m.group(1)}'


def point7(files):
    for name, text in files:
        for fn, line, params, clauses, body in functions(text):
            calls = re.findall(r'^\s*[A-Z]\w*::\w+(?:\([^)]*\)|\s*\{[^}]*\})? => (?:\{ )?\w+(?:::\w+)*\($', body, re.M)
            calls += re.findall(r'^\s*[A-Z]\w*::\w+(?:\([^)]*\)|\s*\{[^}]*\})? => (?:\{ )?\w+(?:::\w+)*\(.*\)', body, re.M)
            if len(calls) >= 3:
                yield f'{name}:{line} {len(calls)} steps in fn {fn}'


def point8(top):
    answers = only = 0
    for path in glob.glob(os.path.join(top, 'crates', '*', 'proofs', '**', 'Answers.antt'), recursive=True):
        with open(path) as f:
            text = f.read()
        found = re.findall(r'^(?:pub )?([\w\-]+) : goal', text, re.M)
        answers += len(found)
        only += len(re.findall(r'^[\w\-]+ (?:c|_|t c|g c) = search rules$', text, re.M))
    yield f'{answers} answers'
    yield f'{only} of them only search'


def main():
    rest = [a for a in sys.argv[1:] if a != '-v']
    top = rest[0] if rest else os.path.join(os.path.dirname(os.path.abspath(__file__)), '..')
    files = list(sources(top))
    for n, point in enumerate([point1, point2, point3, point4, point5, point6, point7], 1):
        places = list(point(files))
        print(f'{n}: {len(places)}')
        if '-v' in sys.argv:
            for p in places:
                print('    ' + p)
    print('8: ' + ', '.join(point8(top)))
    kept = sum(text.count('// Kept:') for _, text in files)
    print(f'kept with a reason beside: {kept}')


if __name__ == '__main__':
    main()
