#!/usr/bin/env python3
"""Lists, for docs/DESIGN-PASS.md, the lines of src/ at which a place of a point may stand. Run at the top of the repository.
What it lists is a candidate: the page says which of them are places. Tests are left out."""
import collections
import glob
import re

FILES = [f for f in sorted(glob.glob('crates/*/src/**/*.rt', recursive=True)) if not f.endswith('tests.rt')]
TEXT = {f: open(f).read().split('#[cfg(test)]\nmod tests {')[0] for f in FILES}
WORDS = set('fn for in if else let mut match return while loop Some None Ok Err self true false as ref iter enumerate'.split())


def lines(title, pattern, but=None):
    found = []
    for f in FILES:
        for n, line in enumerate(TEXT[f].split('\n'), 1):
            s = line.strip()
            if s.startswith('//') or s.startswith('ghost use') or s.startswith('use '):
                continue
            if re.search(pattern, line) and not (but and re.search(but, line)):
                found.append((f[7:], n, s))
    print(f'== {title}: {len(found)}')
    for f, n, s in found:
        print(f'{f}:{n}: {s[:110]}')


def shapes():
    """Functions whose bodies have one shape, names, types and literals set aside."""
    by = collections.defaultdict(list)
    for f in FILES:
        t = TEXT[f]
        for m in re.finditer(r'\bfn (\w+)', t):
            k = re.compile(r'(\n\s*\{\n| \{\n)').search(t, m.end())
            if not k:
                continue
            depth, p = 1, k.end()
            while depth and p < len(t):
                depth += {'{': 1, '}': -1}.get(t[p], 0)
                p += 1
            body = re.sub(r'//.*', '', t[k.end():p - 1])
            toks = re.findall(r"\w+|b?'[^']*'|\"[^\"]*\"|[^\s\w]", body)
            shape = ' '.join(x if x in WORDS or not re.match(r"\w|b?'|\"", x) else 'x' for x in toks)
            if len(toks) >= 12:
                by[shape].append(f'{f[7:]}::{m.group(1)}')
    groups = [v for v in by.values() if len(v) > 1]
    print(f'== point 2, functions of one shape: {len(groups)}')
    for v in groups:
        print(' ~ '.join(v))


def together():
    """Facts in the clauses of three or more functions; pairs of parameters that three or more functions take."""
    facts, pars = collections.defaultdict(set), collections.defaultdict(set)
    for f in FILES:
        crate, name = f.split('/')[1], None
        for line in TEXT[f].split('\n'):
            s = line.strip()
            m = re.search(r'\bfn (\w+)', s)
            if m and not s.startswith('//'):
                name = f'{crate}::{m.group(1)}'
            m = re.match(r'(?:requires|ensures)(?: \w+)? \{ (.*) \}$', s)
            for fact in re.split(r' × | → |^\(|\)$', m.group(1)) if m else []:
                k = fact.strip('() ')
                k = re.sub(r'\b(self|table|words|result|a|b|v|w|left|right|below|index)\b(\.(now|old|new|entry|exit|number|left|pre))*', '·', k)
                k = re.sub(r'slots(\.(now|old|new))?', '·', k)
                if len(k) > 3:
                    facts[k].add(name)
        for m in re.finditer(r'\bfn (\w+)(?:<[^(]*>)?\(([^)]*)\)', TEXT[f]):
            ps = [re.sub(r'\s+', '', p) for p in re.split(r',\s*(?![^<]*>)', m.group(2)) if ':' in p]
            for i in range(len(ps)):
                for j in range(i + 1, len(ps)):
                    pars[(ps[i], ps[j])].add(f'{crate}::{m.group(1)}')
    for title, d in (('facts in three or more contracts', facts), ('parameters that three or more functions take together', pars)):
        rows = sorted(((k, v) for k, v in d.items() if len(v) >= 3), key=lambda r: -len(r[1]))
        print(f'== point 5, {title}: {len(rows)}')
        for k, v in rows:
            print(len(v), k if isinstance(k, str) else ' + '.join(k), '|', ' '.join(sorted(v)))


lines('point 1, enums', r'^\s*(pub(\(\w+\))? )?enum ')
lines('point 1, functions that answer a number', r'fn .*-> (u8|u16|u32|u64|usize)\b')
lines('point 1, yes or no as a parameter, a field or in an answer', r'\b[a-z_]+: bool\b|Result<bool>|Option<bool>', r'let ')
lines('point 1, texts as errors', r"Result<[^>]*, &'static str>|Wrong\(String\)")
shapes()
lines('point 3, loops', r'^\s*(for|while|loop)\b')
lines('point 4, impls of comparison, conversion and printing', r'^impl.*\b(PartialEq|Eq|Ord|PartialOrd|Display|From<\w+>|TryFrom<\w+>|Neg) for\b')
lines('point 4, functions that compare or convert', r'fn (same|same_\w+|eq|cmp|by_\w+|number|of|text|whole_number|negated|order|into_result)\b')
lines('point 4, functions that print', r'fn \w+(<.*>)?\(.*out: &mut Output')
together()
lines('point 6, lent or fixed memory, and lists of lists', r'&mut \[|Vec<Vec|: \[[^\]]*; [0-9A-Z_]+\]')
lines('point 7, matches, function pointers and dyn', r'\bmatch \w|\bdyn\b|: fn\(')
proofs = [f for f in glob.glob('crates/*/proofs/**/*.antt', recursive=True)]
print(f"== point 8, lines of proofs: {sum(len(open(f).read().splitlines()) for f in proofs)}"
      f" in {len(proofs)} files; answers: {sum(len(re.findall(r'^pub [^ ]+ : goal', open(f).read(), re.M)) for f in proofs)}")
