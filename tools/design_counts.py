#!/usr/bin/env python3
"""Counts, in crates/*/src, the places that docs/DESIGN-PASS.md speaks of; `-v` names them."""
import collections
import glob
import re
import sys

NAMES = '-v' in sys.argv[1:]


def files():
    for path in sorted(glob.glob('crates/*/src/**/*.rt', recursive=True)):
        with open(path, encoding='utf-8') as f:
            yield path, f.read()


def without_comments(text):
    return re.sub(r'//[^\n]*', '', text)


def functions(text):
    """(name, signature with clauses, body) of each function."""
    for m in re.finditer(r'^( *)(?:pub(?:\([a-z]+\))? )?(?:unsafe )?(?:extern "C" )?fn ([a-z_0-9]+)', text, re.M):
        indent = m.group(1)
        brace = re.compile(r'^' + indent + r'\{\n', re.M).search(text, m.start())
        inline = re.compile(r'^[^\n]*\{\n', re.M).search(text, m.start())
        start = inline if inline and inline.start() == text.rfind('\n', 0, m.start()) + 1 else brace
        if not start:
            continue
        end = re.compile(r'^' + indent + r'\}', re.M).search(text, start.end())
        if end:
            yield m.group(2), text[m.start():start.start()], text[start.end():end.start()]


def show(title, places):
    places = list(places)
    print(f'{title}: {len(places)}')
    if NAMES:
        for p in places:
            print('    ' + p)


def lines_of(pattern):
    for path, text in files():
        for number, line in enumerate(without_comments(text).split('\n'), 1):
            if re.search(pattern, line):
                yield f'{path}:{number}: {line.strip()}'


def shaped_enums():
    """Enums with a variant that says refusal, absence or failure, or of one variant with a value and one without."""
    for path, text in files():
        for m in re.finditer(r'enum (\w+)(?:<[^>]*>)? \{\n(.*?)\n\}', without_comments(text), re.S):
            variants = re.findall(r'^    (\w+)\s*(\(|\{|,|$)', m.group(2), re.M)
            bare = [v for v, k in variants if k in (',', '')]
            full = [v for v, k in variants if k in ('(', '{')]
            refused = any(v in ('Refused', 'Stopped', 'Outside', 'Nothing', 'Nowhere', 'Fine', 'None') for v, _ in variants)
            if full and (refused or (len(variants) == 2 and len(bare) == 1)):
                yield f'{path}: {m.group(1)} ({", ".join(v for v, _ in variants)})'


def flags():
    for path, text in files():
        for m in re.finditer(r'struct (\w+)(?:<[^>]*>)? \{\n(.*?)\n\}', without_comments(text), re.S):
            for field in re.findall(r'^    (?:pub )?(\w+): bool,', m.group(2), re.M):
                yield f'{path}: {m.group(1)}.{field}'


def codes():
    yield from lines_of(r'\b(?:number|place): (?:[0-9]+|\w+\.number),|refusal\([0-9]+,|\.number [!=]= 0|Refused \{|Stopped\([0-9]')


def twins():
    groups = collections.defaultdict(list)
    for path, text in files():
        for name, _, body in functions(without_comments(text)):
            tokens = re.findall(r'[A-Za-z_][A-Za-z_0-9]*|[0-9][0-9a-fx_]*|b?\'.\'|\S', body)
            keep = {'if', 'else', 'while', 'for', 'in', 'return', 'let', 'mut', 'match', 'loop', 'break', 'as', 'true', 'false'}
            shape = ' '.join(t if t in keep or not re.match(r'[A-Za-z_0-9]|b?\'', t) else 'x' for t in tokens)
            if len(tokens) >= 25:
                groups[shape].append(f'{path}:{name}')
    for group in groups.values():
        if len(group) > 1:
            yield ', '.join(group)


def counted_loops():
    for path, text in files():
        for name, _, body in functions(without_comments(text)):
            for m in re.finditer(r'^ *(?:\'\w+: )?(while [^\n]*|loop) ?\{', body, re.M):
                yield f'{path}:{name}: {m.group(1).strip()}'


def by_hand():
    """Functions that only compare, convert or print: one expression of `==`/`<` over fields, of a cast, or a match to literals."""
    for path, text in files():
        for name, signature, body in functions(without_comments(text)):
            one = body.strip()
            if re.fullmatch(r'\w+ as \w+', one):
                yield f'{path}:{name}: cast'
            elif re.fullmatch(r'match self|match \w+ \{(?:\s*[\w:]+(?:\([^)]*\)| \{[^}]*\})? => [\w:]+,)+\s*\}', one):
                yield f'{path}:{name}: match to constants'
            elif len(re.findall(r'(\w+)\.(\w+) [=!<]=? (\w+)\.\2\b', one)) >= 2:
                yield f'{path}:{name}: comparison of fields'


def parameter_runs():
    seen = collections.defaultdict(set)
    for path, text in files():
        for name, signature, _ in functions(without_comments(text)):
            inner = re.search(r'\((.*?)\)\s*(?:->|\n|$)', signature, re.S)
            if not inner:
                continue
            ps = [re.sub(r"&'\w+ ", '&', ' '.join(p.split())) for p in inner.group(1).split(',') if ':' in p]
            for i in range(len(ps) - 2):
                seen[' | '.join(ps[i:i + 3])].add(f'{path}:{name}')
    for run, where in sorted(seen.items(), key=lambda x: -len(x[1])):
        if len(where) >= 3:
            yield f'{len(where)} x {run}'


def repeated_requires():
    seen = collections.defaultdict(set)
    for path, text in files():
        for name, signature, _ in functions(without_comments(text)):
            for clause in re.findall(r'requires (?:\w+ )?\{(.*?)\}(?=\s*(?:requires|ensures|\{|$))', signature, re.S):
                for fact in clause.split('×'):
                    fact = ' '.join(fact.split()).strip('() ')
                    if len(fact) > 12:
                        seen[fact].add(f'{path}:{name}')
    for fact, where in sorted(seen.items(), key=lambda x: -len(x[1])):
        if len(where) >= 3:
            yield f'{len(where)} x {fact}'


def buffers():
    yield from lines_of(r'^ *(?:pub )?\w+: \[\w+; [0-9A-Z_]+\],|let (?:mut )?\w+ = \[[^\]]*; [0-9A-Z_]+\];')


def function_tables():
    yield from lines_of(r'\[fn\(|: fn\(|match (?:step|mode|which|kind)\b')


def answers():
    for path in sorted(glob.glob('crates/*/proofs/**/Answers.antt', recursive=True)):
        with open(path, encoding='utf-8') as f:
            for m in re.finditer(r'^pub ([\w\-]+) : goal\.', f.read(), re.M):
                yield f'{path}: {m.group(1)}'


show('1 enums of the shape of Option or Result', shaped_enums())
show('1 flags with values beside them', flags())
show('1 numbers for refusals', codes())
show('2 groups of functions of one shape', twins())
show('3 loops that count by hand', counted_loops())
show('4 comparing, converting, printing by hand', by_hand())
show('5 runs of three parameters in three or more functions', parameter_runs())
show('5 facts asked by three or more functions', repeated_requires())
show('6 buffers of fixed length', buffers())
show('7 switches and tables of functions', function_tables())
show('8 answers', answers())
