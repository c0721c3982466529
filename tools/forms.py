#!/usr/bin/env python3
"""Counts old forms in src/ by the points of docs/DESIGN-PASS.md: `tools/forms.py [POINT..]`, `-v` for each place. At the top of the repository."""
import collections, glob, re, sys

verbose = '-v' in sys.argv
points = [a for a in sys.argv[1:] if a.isdigit()] or list('12345678')
files = {f: open(f, encoding='utf-8').read() for f in sorted(glob.glob('crates/*/src/**/*.rt', recursive=True))}
FN = re.compile(r'^( *)(?:pub )?(?:const )?(?:extern "C" )?fn (\w+)(.*?)\n\1\{\n(.*?)\n\1\}$|^( *)(?:pub )?(?:const )?fn (\w+)([^\n]*) \{\n(.*?)\n\5\}$', re.M | re.S)


def functions():
    """File, line, name, head (parameters, clauses) and body of each function."""
    for file, text in files.items():
        for m in FN.finditer(text):
            name, head, body = (m.group(2), m.group(3), m.group(4)) if m.group(2) else (m.group(6), m.group(7), m.group(8))
            yield file, text.count('\n', 0, m.start()) + 1, name, head, body


def say(point, what, places):
    by = collections.Counter(p.split('/')[1] for p in places)
    print(f'{point}. {what}: {len(places)}' + (f' ({", ".join(f"{k} {v}" for k, v in sorted(by.items()))})' if by else ''))
    if verbose:
        print(''.join(f'    {p}\n' for p in places), end='')


def matching(pattern, flags=re.M):
    return [f'{f}:{t.count(chr(10), 0, m.start()) + 1}: {m.group(0).strip()[:100]}' for f, t in files.items() for m in re.finditer(pattern, t, flags)]


def enums():
    """Own enums: one variant that carries a value, or one that says no, beside others: the shape of Option or Result."""
    out = []
    for f, t in files.items():
        for m in re.finditer(r'^(?:pub )?enum (\w+) \{\n(.*?)\n\}', t, re.M | re.S):
            kinds = [bool(re.search(r'\w+\(', v)) for v in m.group(2).split('\n') if v.strip() and not v.strip().startswith('//')]
            shape = 'carries' if any(kinds) else 'bare'
            out.append((f'{f}:{t.count(chr(10), 0, m.start()) + 1}: {m.group(1)} ({len(kinds)} variants, {shape})', any(kinds)))
    return out


def counted():
    """`while` loops with a variable that goes up or down by one constant step each time."""
    out = []
    for f, t in files.items():
        for m in re.finditer(r'^( *)while (.*?) \{\n(.*?)\n\1\}$', t, re.M | re.S):
            names = set(re.findall(r'\b([a-z_]\w*)\b', m.group(2)))
            if any(re.search(rf'^ *{n} [+-]= (?:\d+|[A-Z_]+);', m.group(3), re.M) for n in names):
                out.append(f'{f}:{t.count(chr(10), 0, m.start()) + 1}: while {m.group(2)}')
    return out


def twins():
    """Functions whose bodies are alike but for numbers, constants and the functions' own names; of two lines and more."""
    groups = collections.defaultdict(list)
    for file, line, name, head, body in functions():
        code = re.sub(r'//[^\n]*', '', body)
        if code.count('\n') < 1:
            continue
        code = re.sub(r'&\*', '', code)
        code = re.sub(r'\b[A-Z][A-Z_0-9]+\b|\b\d\w*\b|\b[A-Z]\w*(?:::\w+)*', '#', code)
        names = {}
        code = re.sub(r'\b[a-z_]\w*\b', lambda m: names.setdefault(m.group(0), f'v{len(names)}'), code)
        groups[re.sub(r'\s+', ' ', code)].append(f'{file}:{line}: {name}')
    return [p for g in groups.values() if len(g) > 1 for p in g]


def travelling():
    """Functions with four parameters or more, of which three stand one behind another in four functions or more of their crate."""
    runs = collections.defaultdict(set)
    all_of = {}
    for file, line, name, head, body in functions():
        m = re.match(r"(?:<[^>]*>)?\s*\((.*?)\)\s*(?:->|\n|ensures|requires|$)", head, re.S)
        ps = [re.sub(r'\s+', ' ', p.strip()) for p in m.group(1).split(',') if p.strip()] if m else []
        key = f'{file}:{line}: {name}'
        all_of[key] = ps
        for i in range(len(ps) - 2):
            runs[(file.split('/')[1], tuple(ps[i:i + 3]))].add(key)
    return sorted({k for (_, r), ks in runs.items() if len(ks) >= 4 for k in ks if len(all_of[k]) >= 4})


def repeated_facts():
    """Facts about one value, by the word of a definition, that stand in the `requires` of three functions or more of a crate."""
    heads = collections.defaultdict(set)
    for file, line, name, head, body in functions():
        for clause in re.findall(r'requires \w* ?\{ (.*?) \}', head):
            for part in clause.split(' × '):
                m = re.match(r'\(?([A-Z]\w*) ', part.strip())
                if m:
                    heads[(file.split('/')[1], m.group(1))].add(f'{file}:{line}: {name}')
    return [f'crates/{c}/: {h} in {len(v)} functions' for (c, h), v in sorted(heads.items()) if len(v) >= 3]


if '1' in points:
    own = enums()
    say(1, 'own enums of which a variant carries a value', [p for p, c in own if c])
    say(1, 'own enums of bare variants', [p for p, c in own if not c])
    say(1, 'a number that says none, by the comment above', matching(r'^ *//.*(?:\b(?:0|16|255|256) (?:if|for|at the end|where|behind)|; 0:|, 0 if|0: (?:none|it|they)).*$'))
if '2' in points:
    say(2, 'functions alike but for numbers, constants, names', twins())
if '3' in points:
    say(3, 'loops that count an index by hand', counted())
if '4' in points:
    say(4, 'equality, order, choice and widening by hand', matching(r'^ *(?:pub )?fn (?:same|same_text|by_bytes|texts_order|greater|lesser|both|either|wide|byte|anew)\b'))
    say(4, 'comparisons of a field of a number in a struct', matching(r'\b\w+\.0 (?:==|!=|<=?) \w+\.0\b'))
    say(4, 'conditions written as returns', matching(r'^ *if [^\n{]* \{\n *return (?:true|false|[a-z][^;\n]*);\n *\}\n *(?:true|false)\n'))
if '5' in points:
    say(5, 'functions whose parameters travel together', travelling())
    say(5, 'facts in the requires of three functions or more', repeated_facts())
if '6' in points:
    say(6, 'a slice with its count beside it as parameters', [f'{f}:{l}: {n}' for f, l, n, h, b in functions() if re.search(r'\[u(?:8|16|32)\]', h.split('ensures')[0]) and re.search(r'\b[nm]: usize', h.split('ensures')[0])])
    say(6, 'lists in order searched by hand', matching(r'let mid = '))
if '7' in points:
    say(7, 'a switch on which step to run', matching(r'match (?:class|step|state|mode) \{'))
if '8' in points:
    answers = [f'{f}:{i}: {x}' for f in sorted(glob.glob('crates/*/proofs/**/Answers.antt', recursive=True)) for i, x in enumerate(open(f, encoding='utf-8').read().split('\n'), 1) if re.match(r'[a-z+][\w+-]* c = ', x)]
    say(8, 'answers', answers)
    say(8, 'answers that are a search of named rules alone', [a for a in answers if re.search(r'= search [\w( ,)]+$', a)])
    say(8, 'reborrows of a shared slice', matching(r'&\*[a-z_]+\b(?![.\[])'))
