#!/usr/bin/env python3
"""Lists the places in crates/*/src that are still written as an older language would have them.

    python3 tools/forms.py            counts, a line for each point
    python3 tools/forms.py 3          the places of point 3, a line each

A place with a comment line '// Stays: ..' within the four lines above it is marked 'stays'.
"""
import collections
import difflib
import glob
import itertools
import re
import sys

INT = r'(?:u8|u32|u64|usize|i32|i64)'
files = {p: open(p).read() for p in sorted(glob.glob('crates/*/src/**/*.rt', recursive=True))}


def line(text, at):
    return text.count('\n', 0, at) + 1


def braces(text, at):
    """the text between the brace at `at` and its partner"""
    depth = 0
    for i in range(at, len(text)):
        if text[i] == '{':
            depth += 1
        elif text[i] == '}':
            depth -= 1
            if depth == 0:
                return text[at + 1:i]
    return text[at + 1:]


def functions(text):
    """name, place, head, clauses and body of each function with a body"""
    for m in re.finditer(r'^( *)(?:pub(?:\(crate\))? )?fn (\w+)', text, re.M):
        end = text.find('\n' + m[1] + '{', m.start())
        same = re.compile(r'[^\n]*\{\n').search(text, m.start())
        one = re.match(r'[^\n]*\{\n', text[m.start():])
        if one:
            at = m.start() + one.end() - 2
        elif end >= 0:
            at = end + 1 + len(m[1])
        else:
            continue
        between = text[m.start():at]
        if re.search(r'\n' + m[1] + r'(?:pub |fn |impl |\})', between):
            # a head that ends in '{' after its parameters stand on lines of their own
            close = re.search(r'\n' + m[1] + r'\)[^\n]*\{\n', text[m.start():])
            if not close:
                continue
            at = m.start() + close.end() - 2
            between = text[m.start():at]
        body = braces(text, at)
        head = re.split(r'\n\s+(?:requires|ensures)\b', between)[0]
        clauses = re.findall(r'^\s+(requires|ensures)( \w+)? \{ (.*) \}$', between, re.M)
        yield m[2], m.start(), head, clauses, body


def parameters(head):
    found = re.search(r'\((.*)\)', head, re.S)
    if not found:
        return []
    flat = re.sub(r'\s+', ' ', found[1])
    return re.findall(r'(?:^|[(,] ?)(?:mut )?(\w+): ((?:&(?:mut )?)?[\w:]+(?:<[^>]*>)?|&(?:mut )?\[[^\]]*\])', flat)


def one():
    for p, t in files.items():
        for m in re.finditer(r'^( *)(?:pub )?enum (\w+)[^{]*\{\n(.*?)^\1\}', t, re.M | re.S):
            variants = re.findall(r'^ {4}(\w+)(\([^)]*\))?,$', m[3], re.M)
            if len(variants) == 2 and any(v[1] for v in variants):
                yield p, line(t, m.start()), 'enum of the shape of Option or Result: ' + m[2]
        for m in re.finditer(r'^    (?:pub(?:\(crate\))? )?(\w+): bool,$', t, re.M):
            yield p, line(t, m.start()), 'flag in a struct: ' + m[1]
        for m in re.finditer(r'^\s+(?:pub )?(\w*(?:kind|state|which|code|cause|sort|class|call)s?): (u8|u32|usize),$', t, re.M):
            yield p, line(t, m.start()), f'number for a kind in a struct: {m[1]}: {m[2]}'
        for m in re.finditer(r'^    (\w+)\((?:u32(?:, )?)+\),$', t, re.M):
            yield p, line(t, m.start()), 'variant with a number for a refusal or cause: ' + m[1]
        consts = list(re.finditer(r'^(?:pub )?const (\w+): usize = (\d+);$', t, re.M))
        run = 0
        for m in consts:
            if int(m[2]) == run:
                run += 1
                yield p, line(t, m.start()), 'number for a call: ' + m[1]
        for name, at, head, clauses, body in functions(t):
            for q, ty in parameters(head):
                if re.search(r'(?:kind|state|which|code|cause|sort|class|call)$', q) and ty in ('u8', 'u32', 'usize', 'i64'):
                    yield p, line(t, at), f'number for a kind handed to {name}: {q}'
            if re.search(r'Result<[^>]*, u32>', head):
                yield p, line(t, at), f'number for a refusal in the result of {name}'
            elif re.search(r'-> (?:\()?u32', head) and re.search(r'refus|code|answer_of|number_of|\breturn 1[0-9];', body):
                yield p, line(t, at), f'number for a refusal as the result of {name}'
            for m in re.finditer(r'Err\((\w+)\) => (?:return )?Err\(\1\)', body):
                yield p, line(t, at), f'an error handed on by a match in {name}'
            for m in re.finditer(r'Err\((\w+)\) => (?:return )?Err\((?!\1\))[^\n]*\b\1\b', body):
                yield p, line(t, at), f'an error mapped by a match in {name}'
            for m in re.finditer(r'let (?:Some|Ok)\(\w+\) = [^;{]*? else \{\s*return Err\(', body, re.S):
                yield p, line(t, at), f'an error in place of none by let .. else in {name}'
            if re.search(r'-> Option<Refusal>', head):
                yield p, line(t, at), f'a refusal as an option in {name}'


WORDS = set('as break const continue else enum false fn for if impl in let loop match mod move mut pub ref return self Self struct trait true type use where while'.split())


def shape(text):
    """the text with every name, number and string blotted out"""
    text = re.sub(r'//[^\n]*', '', text)
    text = re.sub(r'b?"[^"]*"', 'S', text)
    tokens = re.findall(r"\w+|[^\s\w]", text)
    blotted = [x if x in WORDS or not re.match(r'\w', x) else ('N' if x[0].isdigit() else 'x') for x in tokens]
    return ' '.join(blotted).replace(', }', ' }').replace(', )', ' )').replace(', ]', ' ]')


def two():
    alike = []
    for p, t in files.items():
        if re.search(r'_cases/|/tests\.rt', p):
            continue
        for name, at, head, clauses, body in functions(t.split('#[cfg(test)]')[0]):
            whole = shape(re.sub(r'^\s*pub(?:\(crate\))? ', '', head) + '{' + body + '}').split()
            if len(whole) >= 30:
                alike.append((p, line(t, at), name, whole))
    for k, (p, n, name, whole) in enumerate(alike):
        for q, m, other, before in alike[:k]:
            if name == other and p.split('/')[1] == q.split('/')[1]:
                continue
            if p.split('/')[1] == q.split('/')[1] or name == other and name not in ('load', 'metered', 'profile', 'baseline', 'put', 'fmt'):
                if abs(len(whole) - len(before)) * 5 > len(whole):
                    continue
                if whole == before or len(whole) >= 45 and difflib.SequenceMatcher(None, before, whole, autojunk=False).ratio() >= 0.9:
                    yield p, n, f'{name} is like {other} ({q}:{m})'
                    break


def three():
    for p, t in files.items():
        for m in re.finditer(r'^ *(?:\'\w+: )?for (\w+) in [^\n]*\.\.[^\n]* \{$', t, re.M):
            body = re.sub(r'"[^"\n]*"', '""', braces(t, m.end() - 1))
            v = m[1]
            if re.search(r'\[[^\[\];]*\b' + v + r'\b[^\[\];]*\]', body):
                yield p, line(t, m.start()), f'index {v} of a range loop'
        for m in re.finditer(r'^ *while [^\n]*\{$', t, re.M):
            yield p, line(t, m.start()), 'while'
        for m in re.finditer(r'for \((\w+), [&\w]+\) in [^\n]*enumerate\(\) \{$', t, re.M):
            body = braces(t, m.end() - 1)
            if re.search(r'\[[^\[\];]*\b' + m[1] + r'\b[^\[\];]*\]', body):
                yield p, line(t, m.start()), f'index {m[1]} of an enumeration'
        for name, at, head, clauses, body in functions(t):
            for m in re.finditer(r'\[(\w+)\] = [^\n]*\n', body):
                if re.search(r'\b' + m[1] + r' \+= 1;', body):
                    yield p, line(t, at), f'counter {m[1]} kept by hand in {name}'
            for m in re.finditer(r'let mut (\w+)(?:: \w+)? = 0(?:[iu]\d+)?;', body):
                if re.search(r'for [^\n]*\{\s*(?:if [^\n]*\{\s*)?' + m[1] + r'(?: \+= | = ' + m[1] + r'\.)', body):
                    yield p, line(t, at), f'sum {m[1]} added up by hand in {name}'


SIMPLE = re.compile(r'^(?:(?:return )?(?:Some|Ok|Err)\()?(?:-?[\w:]+|b?"[^"]*"|b\'.\'|\d[\d_]*)(?:\([\w:]*\))?\)?,?$')


def four():
    for p, t in files.items():
        for name, at, head, clauses, body in functions(t):
            if name in ('from', 'try_from', 'from_str', 'fmt', 'add'):
                continue
            flat = body.strip()
            m = re.match(r'(?:let \w+ = |Outcome::Number\()?match [^\n]* \{\n', flat)
            if m:
                arms = re.findall(r'=> ([^\n{]*)\n', flat)
                if len(arms) >= 2 and not re.search(r'Err\((\w+)\) => Err\(\1\)', flat) and all(SIMPLE.match(a.strip()) for a in arms):
                    yield p, line(t, at), f'conversion by a match: {name}'
                    continue
                if name != 'fmt' and re.search(r'-> Outcome', head) and re.search(r'outcome|records|sheets', p):
                    yield p, line(t, at), f'conversion by a match: {name}'
                    continue
            if re.match(r'\w+ \{\n(?:\s+\w+: [\w:]*\(?\w+\.\w+[^\n]*\n){2,}', flat):
                yield p, line(t, at), f'conversion field by field: {name}'
            if re.search(r"b'0' [+]|b'0'\.saturating|byte - b'0'", body):
                yield p, line(t, at), f'decimals by hand: {name}'
            if re.match(r'(?:Outcome::Number\()?if \w+ \{ 1 \} else \{ 0 \}', flat):
                yield p, line(t, at), f'number of a bool by hand: {name}'
        for m in re.finditer(r'(?<!\w)(\w+(?:\.\w+)*|\)|\]) as (i64|i128|u64)\b', t):
            if not re.search(r'sums\.|load as u64|dlr as|dlr\.wh as|share as|len\(\) as|length as|\) as u64', m[0]):
                yield p, line(t, m.start()), f'a cast where From serves: {m[0]}'


def five():
    by_crate = collections.defaultdict(lambda: collections.defaultdict(set))
    facts = collections.defaultdict(lambda: collections.defaultdict(set))
    for p, t in files.items():
        crate = p.split('/')[1]
        for name, at, head, clauses, body in functions(t):
            names = sorted(q for q, _ in set(parameters(head)) if q not in ('rt', 'tally', 'f', 'alloc'))
            for size in (2, 3, 4, 5):
                for group in itertools.combinations(names, size):
                    by_crate[crate][group].add((p, line(t, at), name))
            for kind, label, fact in clauses:
                if label.strip() in ('value', 'answer', 'book', 'keeps', 'due', 'back'):
                    continue
                for part in re.split(r' × ', fact):
                    part = re.sub(r'[()]', '', part).strip()
                    part = re.sub(r'\b(?:\w+\.)*\w+ (?=≤ℤ|≤|<)', '_ ', part, count=1)
                    facts[crate][part].add((p, line(t, at), name))
    for crate, groups in by_crate.items():
        wide = {g: f for g, f in groups.items() if len(f) >= 3}
        for g, f in sorted(wide.items(), key=lambda x: (-len(x[0]), x[0])):
            if any(set(g) < set(h) and f <= k for h, k in wide.items()):
                continue
            first = sorted(f)[0]
            yield first[0], first[1], f'{len(f)} functions take {", ".join(g)}'
    for crate, fs in facts.items():
        for fact, f in sorted(fs.items()):
            if len(f) >= 3:
                first = sorted(f)[0]
                yield first[0], first[1], f'{len(f)} contracts say {fact[:90]}'


def six():
    for p, t in files.items():
        for m in re.finditer(r'^( *)(?:pub(?:\(crate\))? )?struct (\w+)[^{;]*\{\n(.*?)^\1\}', t, re.M | re.S):
            if re.search(r': (?:&\'a (?:mut )?)?\[[^\]]*\],', m[3]):
                for f in re.finditer(r'^\s+(?:pub(?:\(crate\))? )?(count|len|next|enrolled|days|buyers): (?:usize|u32),', m[3], re.M):
                    yield p, line(t, m.start()), f'{m[2]} has a list and beside it {f[1]}'
                lists = re.findall(r'^\s+(?:pub(?:\(crate\))? )?\w+: \[[^\]]*; (\w+)\],', m[3], re.M)
                for n, k in collections.Counter(lists).items():
                    if k >= 2:
                        yield p, line(t, m.start()), f'{m[2]} has {k} lists of {n} side by side'
        for name, at, head, clauses, body in functions(t):
            flat = re.sub(r'\s+', ' ', head)
            if re.search(r'&mut \[\w+\], (?:count|next|len): usize', flat):
                yield p, line(t, at), f'{name} takes a list and how much of it is used'
            if re.search(r'-> \(\[[^\]]*\], usize\)', flat):
                yield p, line(t, at), f'{name} returns a list and how much of it is used'
            for m in re.finditer(r'let mut (\w+) = \[[^\]]*; \d+\];', body):
                if re.search(r'\b' + m[1] + r'\[count\] =|&' + m[1] + r'\[\.\.count\]', body):
                    yield p, line(t, at), f'{name} keeps {m[1]} and a count'
            for m in re.finditer(r'&(\w+)\[0\.\.(\w+)\.min\(\d+\)\]', body):
                yield p, line(t, at), f'{name} cuts the list {m[1]} at {m[2]}'


def seven():
    for p, t in files.items():
        for name, at, head, clauses, body in functions(t):
            if re.search(r'match (?:which|number|\w+\.number|kind|n) \{\s*\d', body):
                yield p, line(t, at), f'{name} switches on a number'
            n = len(re.findall(r'if (?:\w+\.)?number (?:==|<) \d', body))
            if n:
                yield p, line(t, at), f'{name} switches {n} times on a number'


def eight():
    for p in sorted(glob.glob('crates/*/proofs/**/*.antt', recursive=True)):
        t = open(p).read()
        for m in re.finditer(r'^(?:abbrev )?(?:pub )?([\w-]+) : (?:goal\.)', t, re.M):
            yield p, line(t, m.start()), 'answer ' + m[1]


points = [one, two, three, four, five, six, seven, eight]


def stays(p, n):
    lines = files.get(p, open(p).read()).split('\n')
    return any('// Stays:' in x for x in lines[max(0, n - 5):n])


def main():
    wanted = [int(a) for a in sys.argv[1:]]
    for k, f in enumerate(points, 1):
        if wanted and k not in wanted:
            continue
        places = sorted(set(f()))
        kept = [x for x in places if stays(x[0], x[1])]
        if wanted:
            for x in places:
                print(f'{x[0]}:{x[1]}: {x[2]}' + (' · stays' if x in kept else ''))
        print(f'point {k}: {len(places)} places' + (f', {len(kept)} of them with a reason beside them' if kept else ''))


main()
