#!/usr/bin/env python3
"""Counts the places in crates/*/src that docs/DESIGN-PASS.md is about, point by point.
tools/design_places.py [--list]: with --list each place is printed below its point."""
import glob, re, sys, collections

files = {f: open(f).read() for f in sorted(glob.glob('crates/*/src/**/*.rt', recursive=True))}
NONE = r'Nothing|Missing|Unreadable|Bad|Wrong|Unknown|Refused|Failed|Open|Passed|Ended|Backslash|WrongSize|Deep'


def line(text, at):
    return text.count('\n', 0, at) + 1


def functions():
    """Each function: file, line, name, parameters, contract and body."""
    for f, s in files.items():
        for m in re.finditer(r'^( *)(?:pub(?:\([a-z]+\))? )?(?:unsafe )?(?:extern "C" )?fn (\w+)', s, re.M):
            indent = m.group(1)
            end = re.search(r'^%s\}' % indent, s[m.start():], re.M)
            text = s[m.start():m.start() + end.end()] if end else s[m.start():]
            body = re.search(r'^%s\{$' % indent, text, re.M)
            head, rest = (text[:body.start()], text[body.end():]) if body else (text, '')
            if not body:
                cut = text.find('{\n')
                head, rest = text[:cut], text[cut + 1:]
            params = re.sub(r'\s+', ' ', re.search(r'\((.*?)\)\s*(?:->|requires|ensures|$|\n)', head, re.S).group(1)) if '(' in head else ''
            yield f, line(s, m.start()), m.group(2), params, head, rest.rsplit('}', 1)[0]


def enums():
    for f, s in files.items():
        for m in re.finditer(r'^(?:pub )?enum (\w+)[^{]*\{(.*?)^\}', s, re.M | re.S):
            arms = re.findall(r'^    (\w+)', re.sub(r'//.*', '', m.group(2)), re.M)
            yield f, line(s, m.start()), m.group(1), arms


def point1():
    for f, n, name, arms in enums():
        if any(re.fullmatch(NONE, a) for a in arms):
            yield 'enum', f, n, name + ' {' + ', '.join(arms) + '}'
    for f, s in files.items():
        for m in re.finditer(r'^    (?:pub )?(\w+): bool,', s, re.M):
            if not re.search(r'^(?:pub )?fn[^{]*$', s[:m.start()].rsplit('\n}', 1)[-1], re.M):
                yield 'flag in a struct', f, line(s, m.start()), m.group(1)
        for m in re.finditer(r'^pub const (\w+): u8 = \d+;', s, re.M):
            yield 'number code', f, line(s, m.start()), m.group(1)
    for f, n, name, params, head, body in functions():
        if re.search(r'-> bool\n', head) and '&mut' in params and not name.startswith(('print', 'write')):
            yield 'flag of what was done', f, n, name


def shape(text):
    text = re.sub(r'//.*', '', text)
    seen = {}
    def sub(m):
        w = m.group(0)
        if w in ('let', 'mut', 'if', 'else', 'while', 'loop', 'for', 'in', 'match', 'return', 'true', 'false', 'as', 'ref'):
            return w
        return seen.setdefault(w, 'v%d' % len(seen))
    text = re.sub(r"b?'(?:\\.|[^'])'|b?\"[^\"]*\"|\b\d[\d_a-z]*\b", '0', text)
    return re.sub(r'\s+', ' ', re.sub(r'\b[A-Za-z_]\w*\b', sub, text)).strip()


def point2():
    groups = collections.defaultdict(list)
    for f, n, name, params, head, body in functions():
        if len(body.strip().splitlines()) >= 3 and f.split('/')[1] not in ('pick', 'trial', 'sirophan_c'):
            groups[shape(body)].append((f, n, name))
    for g in groups.values():
        for f, n, name in g[1:]:
            yield 'same shape as %s' % g[0][2], f, n, name


def point3():
    for f, s in files.items():
        for m in re.finditer(r'^ *(while .*|loop) \{', s, re.M):
            yield m.group(1), f, line(s, m.start()), ''


def point4():
    for f, n, name, params, head, body in functions():
        b = body.strip()
        if re.fullmatch(r'\w+ as \w+', b):
            yield 'conversion', f, n, name
        elif re.fullmatch(r'(equal|same_letters|is|between)', name):
            yield 'comparison', f, n, name
        elif re.fullmatch(r'match \w+ \{\s*(?:[\w:]+(?:\(_\))? => \d+,\s*)+\}', b) or name.endswith('engine_of'):
            yield 'conversion of an enum', f, n, name
        elif name.startswith('put_') and '/listing/' in f:
            yield 'printing', f, n, name


def point5():
    clauses = collections.defaultdict(set)
    for f, n, name, params, head, body in functions():
        for c in re.findall(r'^ *requires (?:\w+ )?\{ (.*) \}$', head, re.M):
            clauses[c].add((f, n, name))
    for c, where in sorted(clauses.items(), key=lambda x: -len(x[1])):
        if len(where) >= 3:
            for f, n, name in sorted(where):
                yield 'requires ' + c, f, n, name
    for f, n, name, params, head, body in functions():
        k = len(re.findall(r'\w+: ', params))
        if k >= 6:
            yield '%d parameters' % k, f, n, name


def point6():
    for f, n, name, params, head, body in functions():
        names = set(re.findall(r'(\w+): &', params))
        for pair in (('cells', 'spans'), ('values', 'ends'), ('kinds', 'parents')):
            if set(pair) <= names:
                yield 'parallel ' + ' and '.join(pair), f, n, name
        for m in re.finditer(r'let mut (\w+) = \[[^\]]*\];', body):
            yield 'buffer ' + m.group(1), f, n, name
    for f, s in files.items():
        for m in re.finditer(r'^    (?:pub )?(\w+): \[\w+; \d+\],', s, re.M):
            yield 'array in a struct', f, line(s, m.start()), m.group(1)


def point7():
    for f, s in files.items():
        for m in re.finditer(r'\bmatch (way|engine|operation|number)\b', s):
            yield m.group(0), f, line(s, m.start()), ''


def point8():
    for f in sorted(glob.glob('crates/*/proofs/**/Answers.antt', recursive=True)):
        s = open(f).read()
        k = len(re.findall(r'^pub \S+ : ', s, re.M))
        for _ in range(k):
            yield 'answer', f, 0, ''
    for f in sorted(glob.glob('crates/*/proofs/*.antt')):
        for _ in re.findall(r'^(?:pub )?[^\s:]+ :', open(f).read(), re.M):
            yield 'law', f, 0, ''


if __name__ == '__main__':
    for i, p in enumerate((point1, point2, point3, point4, point5, point6, point7, point8), 1):
        places = list(p())
        kinds = collections.Counter(re.sub(r' .*', '', k) if i in (2, 3, 5) else k for k, *_ in places)
        print('%d: %d places (%s)' % (i, len(places), ', '.join('%s %d' % x for x in kinds.most_common(12))))
        if '--list' in sys.argv and i < 8:
            for k, f, n, name in places:
                print('   %s:%d %s: %s' % (f, n, name, k))
