#!/usr/bin/env python3
"""python3 tools/places.py [-v], at the top of the repository: how many places of src/ each point of docs/DESIGN-PASS.md
has; with -v each place, as file:line -> what. By text alone: a place that is found need not be wrong, and the page says
which ones stay and why."""
import collections
import difflib
import glob
import itertools
import re
import sys

FILES = sorted(glob.glob('crates/*/src/**/*.rt', recursive=True))
TEXT = {p: open(p, encoding='utf-8').read() for p in FILES}
HEAD = re.compile(r'^( *)(?:pub(?:\([a-z]+\))? )?(?:const )?(?:extern "C" )?fn (\w+)(?:<[^(]*>)?\(', re.M)


def functions():
    for path, text in TEXT.items():
        for m in HEAD.finditer(text):
            end, depth = m.end(), 1
            while depth:
                depth += {'(': 1, ')': -1}.get(text[end], 0)
                end += 1
            brace = re.compile(rf'^{m[1]}\{{\n', re.M).search(text, end)
            one_line = text.find(' {\n', end)
            if one_line != -1 and (not brace or one_line < brace.start()):
                sig_end, start = one_line, one_line + 3
            else:
                sig_end = brace.start() if brace else end
                start = brace.end() if brace else end
            close = re.compile(rf'^{m[1]}\}}', re.M).search(text, start)
            params = re.sub(r'\s+', ' ', text[m.end():end - 1]).strip(' ,')
            yield dict(place=f'{path}:{text.count(chr(10), 0, m.start()) + 1}', crate=path.split('/')[1], name=m[2],
                       params=params, sig=text[end:sig_end], body=text[start:close.start()] if close else '')


FUNCTIONS = list(functions())


def lines(pattern):
    rx = re.compile(pattern)
    return [f'{p}:{n} -> {l.strip()[:110]}' for p in FILES for n, l in enumerate(TEXT[p].split('\n'), 1) if rx.search(l)]


def types(kind):
    for path, text in TEXT.items():
        for m in re.finditer(rf'^pub(?:\([a-z]+\))? {kind} (\w+)(?:<[^>]*>)? \{{\n(.*?)^\}}', text, re.M | re.S):
            yield f'{path}:{text.count(chr(10), 0, m.start()) + 1}', m[1], m[2]


def outcome_enums():
    """Enums with a case that carries a refusal's number, or that says that there is nothing."""
    return [f'{at} -> {name}' for at, name, body in types('enum')
            if re.search(r'^\s*(Refused\(|Refused,|Invalid,|TooLong,|None,|Nothing,)', body, re.M)]


def flagged_structs():
    """Structs that are a value with an answer, a count or a flag beside it."""
    return [f'{at} -> {name}' for at, name, body in types('struct')
            if re.search(r'\b(answer|refused|valid|is_\w+|has_\w+|found): ', body) and body.count(':') == 2]


def refusal_numbers():
    return lines(r'\brefusal::[A-Z][A-Z_]+\b')


def told_by_number():
    """Functions whose answer is a refusal's number or a kind's as a u8, those for C aside."""
    return [f"{f['place']} -> {f['name']}" for f in FUNCTIONS
            if '-> u8' in f['sig'] and not f['name'].startswith('rtm_') and re.search(r'refusal|Refus|told|kind', f['sig'] + f['body'])]


def tokens(body):
    return re.findall(r'\w+|[^\w\s]', body)


def alike():
    rows, long = [], [(f, tokens(f['body'])) for f in FUNCTIONS]
    for (a, x), (b, y) in itertools.combinations([p for p in long if len(p[1]) >= 18], 2):
        if min(len(x), len(y)) / max(len(x), len(y)) < .8:
            continue
        likeness = difflib.SequenceMatcher(None, x, y, autojunk=False)
        if likeness.quick_ratio() >= .84 and likeness.ratio() >= .84:
            rows.append((likeness.ratio(), f"{a['place']} {a['name']} ~ {b['place']} {b['name']} ({likeness.ratio():.2f}, {len(x)} tokens)"))
    return [row for _, row in sorted(rows, reverse=True)]


def bool_tests():
    return [f"{f['place']} -> {f['name']}" for f in FUNCTIONS
            if '-> bool' in f['sig'] and re.search(r'return (true|false);', f['body']) and not re.search(r'\b(while|for) ', f['body'])]


def conversions():
    return [f"{f['place']} -> {f['name']}" for f in FUNCTIONS
            if re.search(r'(_of|_from|number|code\w*|in_words?)$', f['name']) and f['body'].count('=>') + f['body'].count('return') >= 1]


def together():
    groups = collections.defaultdict(list)
    for f in FUNCTIONS:
        named = [re.sub(r'^mut ', '', q.strip()) for q in re.split(r',(?![^\[\]<>()]*[\])>])', f['params']) if ':' in q]
        for size in (2, 3):
            for group in itertools.combinations(sorted(set(named)), size):
                groups[group].append(f)
    return [f"{len(fs)} functions of {', '.join(sorted({f['crate'] for f in fs}))}: {'; '.join(g)}"
            for g, fs in sorted(groups.items(), key=lambda z: -len(z[1])) if len(fs) >= 4]


def facts():
    groups = collections.defaultdict(list)
    for f in FUNCTIONS:
        for m in re.finditer(r'requires(?: \w+)? \{ (.*?) \}\n', f['sig'] + '\n'):
            for part in re.split(r' × ', m[1]):
                groups[part.strip('() ')].append(f)
    return [f"{len(fs)}: {fact} -> {', '.join(f['crate'] + '::' + f['name'] for f in fs)}"
            for fact, fs in sorted(groups.items(), key=lambda z: -len(z[1])) if len(fs) >= 3]


def words_handed():
    return [f"{f['place']} -> {f['name']}" for f in FUNCTIONS if re.search(r'&(mut )?\[u64; 64\]', f['params'])]


def counted_arrays():
    """Parameters and structs that are an array of fixed size and a count or place in it."""
    return [f"{f['place']} -> {f['name']}({f['params'][:80]})" for f in FUNCTIONS
            if re.search(r'\[[\w:]+; [\w:]+\]', f['params']) and re.search(r'\b(n|at|count|size|k): usize', f['params'])] + \
        [f'{at} -> {name}' for at, name, body in types('struct') if re.search(r'\[[\w:]+; [\w:]+\]', body) and re.search(r'\b(n|count|size|length): usize', body)]


def answers(pattern):
    return [f'{p}:{n} -> {l.strip()[:100]}' for p in sorted(glob.glob('crates/*/proofs/**/*.antt', recursive=True))
            for n, l in enumerate(open(p, encoding='utf-8'), 1) if re.match(pattern, l)]


POINTS = [
    ('1 enums of the shape of Option or Result', outcome_enums),
    ('1 a value with a flag or an answer beside it', flagged_structs),
    ('1 refusals as constants', refusal_numbers),
    ('1 answers that are a number of a refusal or kind, C aside', told_by_number),
    ('2 pairs of bodies that are alike (0.84, 18 tokens)', alike),
    ('2 families by width', lambda: lines(r'pub fn (read|octets)(8|16|32|64|_signed)\b')),
    ('3 loops over an index', lambda: lines(r'^\s*while ')),
    ('4 equality by hand', lambda: lines(r'\bfn (equals|same\w*|is_same\w*|differs\w*)\b') + lines(r'\.number\(\) (==|!=)')),
    ('4 conversion by hand', conversions),
    ('4 tests by return of true and false', bool_tests),
    ('4 fields copied to a local of their name', lambda: lines(r'^\s*let (\w+) = [\w.]+\.\1;')),
    ('4 free functions in place of methods of numbers', lambda: lines(r'std::num::')),
    ('4 printing by hand', lambda: lines(r'print::\w+\(')),
    ('5 parameters that travel together (4 functions and more)', together),
    ('5 facts in the requires of 3 functions and more', facts),
    ('5 the 64 words as a parameter', words_handed),
    ('6 arrays with a count beside', counted_arrays),
    ('7 switches on a step or form', lambda: lines(r'\b(if|match) (\w+\.)*(mode|step|form|kind)\b')),
    ('8 goals of functions answered by hand', lambda: answers(r'pub [\w-]+ : goal\.')),
    ('8 lemmas of proofs/', lambda: answers(r'(pub )?[\w-]+ : (?!goal\.)')),
]

for title, find in POINTS:
    found = find()
    print(f'{len(found):5}  {title}')
    if '-v' in sys.argv:
        for row in found:
            print('       ', row)
