#!/usr/bin/env python3
"""Counts in crates/*/src the places of seven points of docs/DESIGN-PASS.md, and lists them with -v.

    tools/design_places.py [-v] [POINT]        in a checkout
    tools/design_places.py -c COMMIT ..        in a commit
"""
import collections, glob, re, subprocess, sys, os

def sources(commit):
    if commit:
        names = subprocess.run(['git', 'ls-tree', '-r', '--name-only', commit, 'crates'], capture_output=True, text=True, check=True).stdout.split()
        for n in names:
            if re.match(r'crates/\w+/src/.*\.rt$', n):
                yield n, subprocess.run(['git', 'show', f'{commit}:{n}'], capture_output=True, text=True, check=True).stdout
    else:
        for n in sorted(glob.glob('crates/*/src/**/*.rt', recursive=True)):
            yield n, open(n).read()

FN = re.compile(r'^( *)(?:pub(?:\(crate\))? )?(?:final )?(?:unsafe )?(?:extern "C" )?fn (\w+)')

def functions(text):
    """Each function: line, name, header (parameters and clauses), body."""
    lines = text.split('\n')
    i = 0
    while i < len(lines):
        m = FN.match(lines[i])
        if not m:
            i += 1
            continue
        start, indent = i, m.group(1)
        plain = re.compile(re.escape(indent) + r'(?:[^ ].*)?\) (?:-> .* )?\{$')
        depth = 0
        while i < len(lines):
            if depth == 0 and (lines[i] == indent + '{' or plain.match(lines[i]) or lines[i].endswith(';')):
                break
            depth += lines[i].count('{') - lines[i].count('}')
            i += 1
        head_end = i
        while i < len(lines) and lines[i] != indent + '}' and not lines[head_end].endswith(';'):
            i += 1
        yield start + 1, m.group(2), '\n'.join(lines[start:head_end + 1]), '\n'.join(lines[head_end + 1:i])
        i = max(i, head_end) + 1

def parameters(head):
    depth, out, cur = 0, [], ''
    at = head.index('(')
    for c in head[at:]:
        if c in '([{<':
            depth += 1
            if depth == 1:
                continue
        if c in ')]}>' :
            depth -= 1
            if depth == 0:
                break
        if c == ',' and depth == 1:
            out.append(cur)
            cur = ''
        else:
            cur += c
    out.append(cur)
    return [re.sub(r'\s+', ' ', p).strip() for p in out if p.strip()]

def clauses(head):
    for m in re.finditer(r'\b(requires|ensures)(?: \w+)? \{', head):
        depth, j = 1, m.end()
        while depth:
            depth += {'{': 1, '}': -1}.get(head[j], 0)
            j += 1
        yield m.group(1), re.sub(r'\s+', ' ', head[m.end():j - 1]).strip()

def structs(text):
    for m in re.finditer(r'^( *)(?:pub(?:\(crate\))? )?(struct|enum) (\w+)[^\n{;]*\{\n(.*?)^\1\}', text, re.S | re.M):
        yield text[:m.start()].count('\n') + 1, m.group(2), m.group(3), m.group(4)

def members(body):
    """What a struct's or an enum's body declares, in any order: its fields, or its variants; no comments, no attributes."""
    plain = re.sub(r'//[^\n]*|#\[[^\n]*\]|\bpub(?:\(crate\))? ', '', body)
    depth, out = 0, ['']
    for c in re.sub(r'\s+', ' ', plain).replace('->', ''):
        depth += {'{': 1, '(': 1, '[': 1, '<': 1, '}': -1, ')': -1, ']': -1, '>': -1}.get(c, 0)
        if c == ',' and depth == 0:
            out.append('')
        else:
            out[-1] += c
    return tuple(sorted(m.strip() for m in out if m.strip()))

def places(commit):
    found = collections.defaultdict(list)
    facts, travel, shapes, kinds = (collections.defaultdict(list) for _ in range(4))
    for name, text in sources(commit):
        crate = name.split('/')[1]
        def add(point, line, what):
            found[point].append(f'{name}:{line}: {what}')
        for line, kind, title, body in structs(text):
            fields = re.findall(r'^ +(?:pub )?(\w+): ([^\n]+),$', body, re.M)
            kinds[(kind, members(body))].append(f'{name}:{line}: {kind} {title}')
            if kind == 'enum':
                variants = [v for v in re.findall(r'^ +(\w+)(\(|,)', body, re.M)]
                if 2 <= len(variants) <= 3 and any(v[1] == '(' for v in variants) and any(v[1] == ',' for v in variants):
                    add('1 enum like Option or Result', line, title)
            if any(f in ('ok', 'good') and t == 'bool' for f, t in fields):
                add('1 flag beside a value', line, f'struct {title}')
            if any(f == 'number' and t == 'u32' for f, t in fields) and any(f == 'second' for f, t in fields):
                add('1 refusal by numbers', line, f'struct {title}')
            if any(t == 'Outcome' for f, t in fields):
                add('1 refusal by numbers', line, f'struct {title} holds an Outcome')
            lens = [f for f, t in fields if t in ('usize', 'u32', 'u64') and (f in ('len', 'count', 'n', 'm') or f.endswith('_len'))]
            arrays = [f for f, t in fields if re.match(r'\[.*; \w+\]', t)]
            for f in lens:
                if arrays:
                    add('6 buffer with its length beside', line, f'{title}.{f} beside {", ".join(arrays)}')
            if len(arrays) > 1:
                add('6 parallel arrays', line, f'{title}: {", ".join(arrays)}')
        for line, fn, head, body in functions(text):
            ps = parameters(head)
            if any(re.match(r'ok: bool', p) for p in ps):
                add('1 flag beside a value', line, f'parameter ok of {fn}')
            if re.search(r'\) -> (Outcome|\w*Ran|Fired|Compared|Sliced|Tried|Judged|Stored|Wrote|Counts|Sheet)\b', head):
                add('1 refusal by numbers', line, f'fn {fn}')
            if any(re.match(r'(op|kind): u64', p) for p in ps):
                add('1 kind by a number', line, f'parameter of {fn}')
            if re.search(r'\d+$', fn):
                add('2 twin by name', line, f'fn {fn}')
            # any identifier, keyword or number counts as any other
            shape = re.sub(r'\w+', 'x', re.sub(r'\s+', ' ', body)).strip()
            if len(body.split('\n')) >= 3:
                shapes[(shape)].append(f'{name}:{line}: fn {fn}')
            if re.match(r'(wide|low|narrow)\d*$', fn):
                add('4 conversion by hand', line, f'fn {fn}')
            bufs = [p for p in ps if re.search(r'\[[^;\]]+; \d+\]', p)]
            lens = [p for p in ps if re.match(r'(n|m|len|count|at): usize', p)]
            if bufs and lens:
                add('6 buffer with its length beside', line, f'parameters of {fn}')
            for k, fact in clauses(head):
                for part in re.split(r' × ', fact.strip('()')) if k == 'requires' else [fact]:
                    part = part.strip('() ')
                    facts[(k, part)].append(f'{name}:{line}: {fn}')
            named = [p for p in ps if not p.startswith(('self', '&self', '&mut self', 'rt:'))]
            for i in range(len(named)):
                for j in range(i + 2, len(named) + 1):
                    travel[tuple(p.replace('mut ', '') if p.startswith('mut ') else p for p in named[i:j])].append(f'{name}:{line}: {fn}')
            ladder = re.findall(r'if !?[^{}\n]+ \{\n\s+return (?:false|true);\n\s+\}', body)
            if len(ladder) > 1 and head.rstrip(' {\n').find('-> bool') >= 0 and 'while' not in body:
                add('4 test by a ladder', line, f'fn {fn}')
        lines = text.split('\n')
        for i, l in enumerate(lines):
            m = re.match(r' *while (.*) \{$', l)
            if m:
                indent = len(l) - len(l.lstrip())
                body = []
                for b in lines[i + 1:]:
                    if b.strip() and len(b) - len(b.lstrip()) <= indent:
                        break
                    body.append(b)
                steps = [v for v in re.findall(r'(\w+) [+-]= \d+;', '\n'.join(body)) if re.search(r'\b' + v + r'\b', m.group(1))]
                if steps:
                    add('3 index loop', i + 1, m.group(1))
                elif re.search(r'!= 0', m.group(1)) and 'trailing_zeros' in '\n'.join(body[:2]):
                    add('3 loop over bits by hand', i + 1, m.group(1))
                else:
                    add('3 other while', i + 1, m.group(1))
            if re.match(r' *for \w+ in \(?\d+\.\.', l):
                add('3 for over indices (as it is)', i + 1, l.strip())
            if re.match(r' *(pub )?const STOP\b', l):
                add('1 sentinel', i + 1, l.strip())
            m = re.match(r' *match (op|kind) \{', l)
            if m:
                add('7 switch on a number', i + 1, l.strip())
    for s, where in shapes.items():
        if len(where) > 1:
            for w in where:
                found['2 functions of one shape'].append(w)
    for where in kinds.values():
        if len(where) > 1:
            found['2 structs of one shape'] += where
    for (k, fact), where in sorted(facts.items(), key=lambda x: -len(x[1])):
        if len(where) >= 3 and k == 'requires':
            found['5 fact in three contracts or more'].append(f'{len(where)} times: {fact}: ' + ', '.join(w.split(' ')[-1] for w in where))
    groups = {g: w for g, w in travel.items() if len(w) >= 3}
    for g, w in sorted(groups.items(), key=lambda x: (-len(x[0]), -len(x[1]))):
        if not any(g != h and len(groups[h]) >= len(w) and any(h[i:i + len(g)] == g for i in range(len(h))) for h in groups):
            found['5 parameters that travel together'].append(f'{len(w)} times: {", ".join(g)}: ' + ', '.join(x.split(' ')[-1] for x in w))
    return found

def main():
    args = sys.argv[1:]
    verbose = '-v' in args
    commit = None
    if '-c' in args:
        commit = args[args.index('-c') + 1]
        args.remove(commit)
    points = [a for a in args if not a.startswith('-')]
    found = places(commit)
    for point in sorted(found):
        if points and point[0] not in points:
            continue
        print(f'{len(found[point]):4} {point}')
        if verbose:
            for p in found[point]:
                print('       ' + p)

main()
