#!/usr/bin/env python3
"""Lists the places that docs/DESIGN-PASS.md counts, by the points of that page, in the sources of a commit.

    python3 tools/places.py [COMMIT]        HEAD if none is named; `-` for the files as they stand

It finds; what a place is and why it stays, the page says. Comments and must-fail edits are not read."""
import collections, re, subprocess, sys

def sources(commit):
    if commit == '-':
        names = subprocess.check_output(['git', 'ls-files', '-co', '--exclude-standard'], text=True).split('\n')
    else:
        names = subprocess.check_output(['git', 'ls-tree', '-r', '--name-only', commit], text=True).split('\n')
    for name in sorted(n for n in names if re.fullmatch(r'crates/\w+/src/.*\.rt', n)):
        text = open(name).read() if commit == '-' else subprocess.check_output(['git', 'show', f'{commit}:{name}'], text=True)
        yield name[len('crates/'):], re.sub(r'//[^\n]*', '', text)

def line_of(text, at):
    return text.count('\n', 0, at) + 1

def lines(files, pattern):
    for name, text in files:
        for m in re.finditer(pattern, text, re.M):
            yield f'{name}:{line_of(text, m.start())}: {" ".join(m.group(0).split())}'

FN = re.compile(r'^( *)(?:pub )?(?:extern "C" )?fn (\w+)', re.M)

# Each function: its name, its head with the clauses, its body.
def functions(files):
    for name, text in files:
        for m in FN.finditer(text):
            end = re.compile(r'^' + m.group(1) + r'\}', re.M).search(text, m.start())
            open_ = re.compile(r'(?:^' + m.group(1) + r'|\) |> |\w )\{\n', re.M).search(text, m.start())
            if end and open_ and open_.start() < end.start():
                yield name, line_of(text, m.start()), m.group(2), text[m.start():open_.start()], text[open_.end():end.start()]

def shape(body):
    seen = {}
    out = []
    for t in re.findall(r'\w+|[^\s\w]', body):
        out.append(t if t in ('if', 'else', 'match', 'return', 'while', 'for', 'in', 'let', 'mut', 'loop') or not re.match(r'\w', t)
                   else seen.setdefault(t, f'x{len(seen)}'))
    return tuple(out)

def tell(point, rows):
    rows = list(rows)
    print(f'{point}: {len(rows)}')
    for r in rows:
        print('    ' + r)

def main():
    files = list(sources(sys.argv[1] if len(sys.argv) > 1 else 'HEAD'))
    fns = list(functions(files))
    tell('1a enums', lines(files, r'^ *(pub )?enum \w+'))
    tell('1b flags in a struct', lines(files, r'^ +(pub )?\w+: bool,$'))
    tell('1c numbers for kinds: constants, and where a kind is told by one', lines(files, r'^pub const \w+: u8 = \d+;|kinds::[A-Z]+\b'))
    tell('1d a field told by its number', (f'{n}:{l}: {f}' for n, l, f, h, b in fns if re.search(r'\bf: u32', h)))
    tell('1e a number that says that there is none', lines(files, r'if \w+ == 0 \{\s*return 0;|else \{ 14 \}'))
    groups = collections.defaultdict(list)
    for n, l, f, h, b in fns:
        if len(shape(b)) >= 12:
            groups[shape(b)].append(f'{n}:{l} {f}')
    tell('2 functions of one shape', (', '.join(g) for g in groups.values() if len(g) > 1))
    tell('3 while and loop', lines(files, r'^ *(while|loop)\b[^\n]*'))
    tell('4 equality, order, conversion, printing by hand', (
        f'{n}:{l}: {f}' for n, l, f, h, b in fns
        if re.fullmatch(r'eq|le|lt|cmp|not|and|or|xor|same\w*|\w+_eq|\w+_le|to_\w+|from_byte|figures_of|sums_of|slices_of|half|word|wide|inside\w*|set\d+|tell\w*|is_digit|with_digit|number|put_half|put_word', f)
        and not re.search(r'^impl .* for ', '\n'.join(t for k, t in files if k == n).split(f'fn {f}')[0].rsplit('\nimpl', 1)[-1].join(['impl', '']), re.M)))
    clauses = collections.defaultdict(set)
    pairs = collections.defaultdict(set)
    for n, l, f, h, b in fns:
        for m in re.finditer(r'requires (?:\w+ )?\{(.*?)\}\s*(?=requires|ensures|$)', h, re.S):
            clauses[' '.join(m.group(1).split())].add(f'{n} {f}')
        ps = re.findall(r'(\w+): (&mut \[\w+\]|&\[\w+\]|[\w:]+)', h.split('requires')[0].split('ensures')[0])
        for a, b2 in zip(ps, ps[1:]):
            pairs[f'{a[0]}: {a[1]}, {b2[0]}: {b2[1]}'].add(f'{n} {f}')
    tell('5a clauses of three or more functions', (f'{len(v)} {k}' for k, v in sorted(clauses.items(), key=lambda e: -len(e[1])) if len(v) > 2))
    tell('5b neighbouring parameters of three or more functions', (f'{len(v)} {k}' for k, v in sorted(pairs.items(), key=lambda e: -len(e[1])) if len(v) > 2))
    tell('6 buffers of a fixed size, and places in a buffer', list(lines(files, r'\[\w+; [0-9A-Z_]+\]')) + [
        f'{n}:{l}: {f}' for n, l, f, h, b in fns if re.search(r'\b(at|from): usize', h)])
    tell('7 a switch on what to run', lines(files, r'match (call|stop|replying)\b[^\n]*'))

main()
