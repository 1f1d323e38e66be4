#!/usr/bin/env python3
"""Candidates for the places of docs/DESIGN-PASS.md, point by point, in crates/*/src/*.rt as they stand. Run at the top of a checkout:

    python3 tools/design-places.py [POINT ..]

POINT is 1a, 1b, 1c, 1d, 2a, 2b, 3, 4a to 4e, 5a, 5b, 5c, 6a to 6d, 7 or 8; without one all are printed. A line a candidate: its number,
the crate, the file and the item, and what makes it one; then the counts. Tests (from #[cfg(test)] on) are passed over, and so are
comments and the texts in quotes. What of the candidates is a place, the page says."""
import re, sys, pathlib, collections, difflib

INTS = {'u8', 'u16', 'u32', 'u64', 'usize', 'i32', 'i64'}
OPEN, CLOSE = '([{', ')]}'


def blank(text):
    """The text with comments and what stands in quotes replaced by blanks, lines kept; nothing from #[cfg(test)] on."""
    cut = text.find('#[cfg(test)]')
    if cut >= 0:
        text = text[:cut]
    def fill(m):
        return re.sub(r'[^\n]', ' ', m.group(0))
    text = re.sub(r'b?"(?:\\.|[^"\\])*"', lambda m: '"' + fill(m)[1:-1] + '"', text, flags=re.S)
    text = re.sub(r"b?'(?:\\.|[^'\\\n])'", lambda m: "'" + fill(m)[1:-1] + "'", text)
    return re.sub(r'//[^\n]*', fill, text)


def close(text, at):
    """The place behind the bracket that closes the one at `at`."""
    depth = 0
    for i in range(at, len(text)):
        if text[i] in OPEN: depth += 1
        elif text[i] in CLOSE:
            depth -= 1
            if depth == 0: return i + 1
    return len(text)


def angle(text, at):
    """The place behind the > that closes the < at `at`."""
    depth = 0
    for i in range(at, len(text)):
        if text[i] == '<': depth += 1
        elif text[i] == '>' and text[i - 1] != '-':
            depth -= 1
            if depth == 0: return i + 1
    return len(text)


def behind_type(text, at):
    """Where the result type of a function ends whose parameters end at `at`: at its contract, its body, or the ; of a trait's."""
    depth = 0
    for i in range(at, len(text)):
        c = text[i]
        if c in '([': depth += 1
        elif c in ')]': depth -= 1
        elif depth == 0 and (c in '{;' or re.compile(r'\b(requires|ensures)\b').match(text, i)): return i
    return len(text)


def split(text, mark):
    """The parts of a text between marks that stand in no bracket."""
    parts, depth, start, i = [], 0, 0, 0
    while i < len(text):
        c = text[i]
        if c in OPEN or (c == '<' and mark == ','): depth += 1
        elif c in CLOSE or (c == '>' and mark == ',' and text[i - 1] != '-'): depth -= 1
        elif depth == 0 and text.startswith(mark, i):
            parts.append(text[start:i]); start = i + len(mark); i = start; continue
        i += 1
    parts.append(text[start:])
    return [' '.join(p.split()) for p in parts if p.strip()]


class Fn: pass
class Type: pass


def plain(ty):
    return re.sub(r"'\w+\s*", '', ' '.join(ty.split()))


def read(path):
    text = blank(path.read_text())
    crate, file = path.parts[1], '/'.join(path.parts[3:])
    owners = []
    for m in re.finditer(r'^impl\b([^{]*)\{', text, re.M):
        owners.append((m.start(), close(text, m.end() - 1), re.split(r'\bfor\b', re.sub(r'^\s*<[^{]*?>\s+', ' ', m.group(1)))[-1].strip().split('<')[0]))
    fns, types = [], []
    for m in re.finditer(r'\bfn\s+(\w+)', text):
        f = Fn(); f.crate, f.file, f.name, f.line = crate, file, m.group(1), text.count('\n', 0, m.start()) + 1
        f.public = bool(re.search(r'\bpub(\(crate\))?\s+$', text[max(0, m.start() - 14):m.start()]))
        f.owner = next((o for a, b, o in owners if a < m.start() < b), '')
        at = m.end()
        if text[at:at + 1] == '<': at = angle(text, at)
        at = text.index('(', at)
        end = close(text, at)
        f.params = []
        for p in split(text[at + 1:end - 1], ','):
            p = p.removeprefix('mut ')
            if re.fullmatch(r"&?\s*(mut\s+)?self", plain(p)): f.params.append(('self', f.owner))
            elif ':' in p: f.params.append((p.split(':', 1)[0].strip(), plain(p.split(':', 1)[1])))
        stop = behind_type(text, end)
        f.result = plain(re.split(r'\bwhere\b', re.sub(r'^\s*(->)?', '', text[end:stop]))[0])
        end = stop
        f.clauses = []
        while True:
            c = re.compile(r'\s*(requires|ensures)\s+(\w+\s+)?(?=\{)').match(text, end)
            if not c: break
            stop = close(text, c.end())
            f.clauses.append((c.group(1), ' '.join(text[c.end() + 1:stop - 1].split())))
            end = stop
        start = re.compile(r'\s*').match(text, end).end()
        f.body = text[start + 1:close(text, start) - 1] if text[start:start + 1] == '{' else ''
        f.start = text.count('\n', 0, start)
        fns.append(f)
    for m in re.finditer(r'^[ \t]*(?:pub(?:\(crate\))?\s+)?(enum|struct)\s+(\w+)[^{;(]*([{(])', text, re.M):
        t = Type(); t.crate, t.file, t.form, t.name = crate, file, m.group(1), m.group(2)
        inner = text[m.end():close(text, m.end() - 1) - 1]
        t.parts = split(inner, ',')
        types.append(t)
    return fns, types


def item(f):
    return (f.owner + '::' if f.owner else '') + f.name


LOOP = re.compile(r"(?:'(\w+):\s*)?\b(while|for|loop)\b([^{]*)\{")

CRATES = [l.split(':')[0] for l in pathlib.Path('crates.txt').read_text().splitlines() if ':' in l]
FNS, TYPES = [], []
for c in CRATES:
    for p in sorted(pathlib.Path('crates', c, 'src').rglob('*.rt')):
        a, b = read(p); FNS += a; TYPES += b
OWN = {t.name for t in TYPES}


def show(title, rows):
    """Prints rows (crate, file, item, detail), then how many there are, by crate."""
    print('== ' + title)
    rows = sorted(rows, key=lambda r: CRATES.index(r[0]))
    for n, (crate, file, name, detail) in enumerate(rows, 1):
        print(f'{n:4} {crate:9} {file}: {name}' + (f': {detail}' if detail else ''))
    by = collections.Counter(r[0] for r in rows)
    print('     all ' + str(len(rows)) + ': ' + ', '.join(f'{c} {by[c]}' for c in CRATES if by[c]) + '\n')


def fields(t):
    """Field names and types of a struct, or of the variants of an enum."""
    for p in t.parts:
        if t.form == 'struct':
            m = re.match(r'(?:pub(?:\(crate\))?\s+)?(\w+)\s*:\s*(.*)', p)
            if m: yield '', m.group(1), plain(m.group(2))
        else:
            v = re.match(r'(\w+)\s*\{(.*)\}', p)
            for q in split(v.group(2), ',') if v else []:
                if ':' in q: yield v.group(1) + '.', q.split(':')[0].strip(), plain(q.split(':', 1)[1])


def p1a():
    """Enums of one's own. A place: one variant stands for nothing, for all right or for a failure beside others."""
    rows = [(t.crate, t.file, t.name, ' | '.join(re.sub(r'\s*[({].*', '(..)', p) for p in t.parts)) for t in TYPES if t.form == 'enum']
    show('1a enums', rows)


def p1b():
    """A bool, or an enum one of whose variants says that all is right or nothing there, in a struct with other fields; and a bool parameter."""
    rows = [(t.crate, t.file, t.name + '.' + n, ', '.join(m for _, m, _ in fields(t) if m != n))
            for t in TYPES if t.form == 'struct' for _, n, ty in fields(t) if ty == 'bool' or ty.startswith('[bool')]
    plain_right = {t.name for t in TYPES if t.form == 'enum' and {'Nothing', 'Passes', 'One', 'Unbroken', 'Right', 'Accepted', 'Unchanged'} & set(t.parts)}
    for t in TYPES:
        if t.form == 'struct' and len(t.parts) > 1:
            rows += [(t.crate, t.file, t.name + '.' + n, ty + ' beside ' + ', '.join(m for _, m, _ in fields(t) if m != n)) for _, n, ty in fields(t) if ty in plain_right]
    for f in FNS:
        for n, ty in f.params:
            if ty == 'bool': rows.append((f.crate, f.file, item(f) + '(' + n + ')', 'parameter'))
    show('1b flags', rows)



def p1c():
    """A number, in a field, a parameter or a result, by whose name it is a kind, a class, a side, a problem or a reason."""
    word = re.compile(r'(?:\w+_)?(kind|class|side|problem|reason|why|service|flag|refused|refusal)(?:_of|_at|_in|_within)?$')
    rows = []
    for t in TYPES:
        for v, n, ty in fields(t):
            if ty in INTS and (word.match(n) or (n == 'number' and t.name in ('Problem',))): rows.append((t.crate, t.file, f'{t.name}.{v}{n}', ty))
        if t.form == 'enum':
            for p in t.parts:
                m = re.match(r'(\w+)\s*\((\w+)\)$', p)
                if m and m.group(2) == 'u8': rows.append((t.crate, t.file, f'{t.name}.{m.group(1)}', 'u8'))
    for f in FNS:
        for n, ty in f.params:
            if ty in INTS and (word.match(n) or (n == 'number' and ty == 'u8')): rows.append((f.crate, f.file, f'{item(f)}({n})', ty))
            if re.fullmatch(r'[a-z]', n) and ty == 'u8' and 'class' in f.name: rows.append((f.crate, f.file, f'{item(f)}({n})', ty))
        if f.result in INTS and (word.match(f.name) or f.name == 'number'): rows.append((f.crate, f.file, f'{item(f)} ->', f.result))
    show('1c numbers for kinds, classes, sides, problems and refusals', rows)


def p1d():
    """A function whose result, a number or a plain struct, says by one value that there is none: it ends with a number alone, or names an empty value, and by
    another way with what it found."""
    rows = []
    empties = r'(?:\d[\d_]*|NONE|usize::MAX|Code::Local\(0\)|Rule::none\(\)|Name::of\(""\)|Kind::Operation|Part::Operations)'
    for f in FNS:
        if f.result in INTS | {'Code', 'Rule', 'Name', 'Problem', 'Entry', 'Kind', 'Part', 'Numbered', 'Named'}:
            ways = re.findall(r'(?:return\s+|=>\s*|(?:^|\n|\{)\s*)(' + empties + r')\s*(?:;|,|\}|$)', f.body)
            ways += ['x'] * len(re.findall(r'(?:value: 0|kind: 0|at: 0)', f.body))
            others = re.findall(r'return\s+[^;]*[a-z(][^;]*;|=>\s*(?!\d)[^,{]*[a-z][^,]*,|\n\s*[a-z(][^;{}]*\s*$', f.body)
            if any(re.search(r'return\s+\w+;', f.body[m.end():close(f.body, m.end() - 1) - 1]) for m in LOOP.finditer(f.body)) and re.search(r'\n\s*[a-z]\w*\s*$', f.body):
                ways.append('x'); others.append('x')
            if ways and others: rows.append((f.crate, f.file, item(f), f.result + ', ' + ' '.join(sorted(set(w for w in ways if w != 'x')))))
    for t in TYPES:
        if t.form == 'struct':
            for _, n, ty in fields(t):
                if n in ('place', 'refused', 'entry', 'identifier') and ty in INTS: rows.append((t.crate, t.file, f'{t.name}.{n}', ty))
    show('1d numbers that stand for nothing', rows)


TOKEN = re.compile(r'[A-Za-z_]\w*|\d[\w]*|[^\s\w]')


def p2a():
    """Pairs of functions, of at least 24 words with signature, whose words are the same but for one in five."""
    toks = {}
    for f in FNS:
        sig = ' '.join(f'{n} : {ty}' for n, ty in f.params) + ' -> ' + f.result
        toks[f] = TOKEN.findall(sig + ' ' + f.body)
    near = collections.defaultdict(set)
    items = [f for f in FNS if len(toks[f]) >= 24]
    for i, a in enumerate(items):
        for b in items[i + 1:]:
            x, y = toks[a], toks[b]
            if min(len(x), len(y)) < 0.75 * max(len(x), len(y)): continue
            m = difflib.SequenceMatcher(None, x, y, autojunk=False)
            if m.real_quick_ratio() < 0.8 or m.quick_ratio() < 0.8: continue
            if m.ratio() >= 0.8: near[a].add(b); near[b].add(a)
    seen, rows = set(), []
    for a in items:
        if a in seen or not near[a]: continue
        group, todo = [], [a]
        while todo:
            x = todo.pop()
            if x in seen: continue
            seen.add(x); group.append(x); todo += near[x]
        group.sort(key=lambda f: (CRATES.index(f.crate), f.file, f.line))
        g = group[0]
        rows.append((g.crate, g.file, item(g), '; '.join((h.crate + '/' if h.crate != g.crate else '') + (h.file + ': ' if h.file != g.file or h.crate != g.crate else '') + item(h) for h in group[1:])))
    show('2a functions that differ in at most one word of five', rows)


def p2b():
    """Functions and types whose names differ in one word of a pair."""
    pairs = [('own', 'peer'), ('Own', 'Peer'), ('operation', 'error'), ('Operation', 'Error'), ('two', 'four'), ('four', 'eight'), ('result', 'error'), ('invoke', 'error'),
             ('first', 'second'), ('ids', 'words'), ('argument', 'result'), ('Received', 'Requested'), ('controller', 'kiosk'), ('pair', 'four'), ('octet', 'two'),
             ('at', 'in'), ('at', 'within'), ('new', 'old'), ('line', 'lines'), ('local', 'side'), ('receive', 'request'), ('received', 'requested'), ('decimal', 'signed'), ('ids', 'octets'), ('numbers', 'octets'),
             ('in', 'within'), ('wrong', 'wrong_name'), ('result', 'reject')]
    names = collections.defaultdict(list)
    for f in FNS: names[item(f)].append((f.crate, f.file))
    for t in TYPES: names[t.name].append((t.crate, t.file))
    rows = set()
    for n, places in names.items():
        for a, b in pairs:
            for m in re.finditer(r'(?<![A-Za-z])' + a + r'(?![a-z])' if a[0].islower() else a + r'(?![a-z])', n.replace('_', ' ')):
                other = n[:m.start()] + b + n[m.end():]
                if other in names:
                    for c, f in places:
                        for d, g in names[other]:
                            if c == d: rows.add((c, f, n, other + ('' if f == g else ' in ' + g)))
    show('2b names that differ in one word', sorted(rows))


def p2c():
    """Functions and types of one name in two files."""
    names = collections.defaultdict(list)
    for f in FNS:
        if f.name != 'main': names[f.name].append((f.crate, f.file, item(f)))
    for t in TYPES: names[t.name].append((t.crate, t.file, t.name))
    rows = []
    for n, l in names.items():
        if len({(c, f) for c, f, _ in l}) > 1: rows.append((l[0][0], l[0][1], l[0][2], '; '.join(f'{c}/{f}: {i}' for c, f, i in l[1:])))
    show('2c one name in two files', rows)


def p3():
    """Loops, and how each goes on."""
    rows = []
    for f in FNS:
        for m in LOOP.finditer(f.body):
            head = ' '.join((m.group(2) + m.group(3)).split())
            body = f.body[m.end():close(f.body, m.end() - 1) - 1]
            line = f.start + f.body.count('\n', 0, m.start()) + 1
            steps = re.findall(r'\b(\w+)\s*([+-])=\s*1\s*;', body)
            v = re.match(r'for (\w+) in ', head)
            if head.startswith('for') and v and '..' in head:
                uses = re.findall(r'\b' + v.group(1) + r'\b', body)
                index = re.findall(r'\[\s*' + v.group(1) + r'\s*\]', body)
                how = 'range, ' + (f'{len(index)} of {len(uses)} uses index' if uses else 'not used')
            elif head.startswith('for'): how = 'each'
            else: how = 'counted by ' + ', '.join(sorted({a + b for a, b in steps})) if steps else 'walked'
            rows.append((f.crate, f.file, f'{item(f)} line {line}', head + ': ' + how))
    show('3 loops', rows)


def one_match(f):
    b = f.body.strip()
    m = re.match(r'match\s+(\w+)\s*\{', b)
    return m.group(1) if m and close(b, m.end() - 1) == len(b) else None


def p4a():
    """Equality and order: functions of two values of one type that answer a bool, and what is named same, below, above or rank."""
    rows = []
    for f in FNS:
        tys = [ty for _, ty in f.params]
        if re.search(r'(^|_)(same|equal|below|above|rank|rising|is_other)(_|$)', f.name) or (f.result == 'bool' and len(tys) == 2 and tys[0] == tys[1] and tys[0] not in INTS | {'bool'}):
            rows.append((f.crate, f.file, item(f), ', '.join(tys) + ' -> ' + f.result))
    show('4a equality and order', rows)


def p4b():
    """Conversion from one kind of value to another: a function of one parameter whose whole body is one match that gives a value, and octets
    made or read by division and multiplication."""
    rows = []
    for f in FNS:
        v = one_match(f)
        arms = re.findall(r'=>', f.body)
        if v and len(f.params) == 1 and f.result not in ('bool', '') and (f.params[0][1] in OWN | INTS): rows.append((f.crate, f.file, item(f), f'{f.params[0][1]} -> {f.result}, {len(arms)} arms'))
        elif len(f.params) == 1 and f.result in OWN and f.params[0][1] in OWN | INTS and f.name not in ('fresh',): rows.append((f.crate, f.file, item(f), f'{f.params[0][1]} -> {f.result}'))
    show('4b conversions between types', rows)


def p4c():
    """Octets of numbers, and numbers of octets, by arithmetic."""
    weigh = re.compile(r'([*/%])\s*(256|65536|16777216|4294967296|0x100|0x1_0000|0x100_0000|0x1_0000_0000|0x100_0000_0000(?:_0000)?|0x1_0000_0000_0000)\b')
    rows = [(f.crate, f.file, item(f), ' '.join(sorted({a + b for a, b in weigh.findall(f.body)}))) for f in FNS if weigh.search(f.body)]
    show('4c octets by arithmetic', rows)


def p4d():
    """What text says and how characters are: digits, blanks, decimal and hexadecimal numbers; sums that stop at the largest number."""
    name = re.compile(r'^(is_)?(digit|blank|letter_or_digit|hex_digit|digit_of|with_digit|number_of|decimal_of|octet_of|plus|power|decimal|octet|octets|eight_digits|four_digits|signed)$')
    rows = [(f.crate, f.file, item(f), ', '.join(ty for _, ty in f.params) + ' -> ' + f.result) for f in FNS if name.match(f.name) and not any('Out<' in ty for _, ty in f.params)]
    show('4d characters, digits and sums', rows)


def p4e():
    """Printing: a function of a writer, or of a line and a place, of one value of an own type, and of no more than some words; or of a problem's or class's number."""
    rows = []
    for f in FNS:
        writes = any('Out<' in ty for _, ty in f.params) or ('line', '&mut [u8]') in f.params
        rest = [(n, ty) for n, ty in f.params if 'Out<' not in ty and (n, ty) not in (('line', '&mut [u8]'), ('at', 'usize'))]
        own = [ty for n, ty in rest if ty in OWN or (n, ty) in (('kind', 'u8'), ('class', 'u8'))]
        other = [(n, ty) for n, ty in rest if ty not in OWN and not (ty == '&[u8]' and n in ('name', 's', 'words', 'of', 'unit', 'text')) and n not in ('kind', 'class', 'number', 'problem')]
        if writes and len(own) == 1 and not other and f.result not in OWN and own[0] not in ('Day', 'Site', 'Session', 'Walk'): rows.append((f.crate, f.file, item(f), ', '.join(n + ': ' + ty for n, ty in rest)))
    show('4e printing of one value', rows)


def p4f():
    """Copies by hand: an indexed assignment of an indexed value or of 0 as a loop's work; struct values put together field by field from another of their type."""
    rows = []
    for f in FNS:
        for m in LOOP.finditer(f.body):
            body = f.body[m.end():close(f.body, m.end() - 1) - 1]
            if re.search(r'\b\w+\[[^\]]*\]\s*=\s*[^=]', body) or re.search(r'\bput\(\s*\w+,\s*\w+,', body): rows.append((f.crate, f.file, item(f), ' '.join(body.split())[:90]))
    show('4f copies by loops', rows)


def facts():
    asked, told = collections.defaultdict(set), collections.defaultdict(set)
    for f in FNS:
        for form, text in f.clauses:
            if form == 'requires':
                for a in split(text, '×'): asked[a.strip('()') if a.startswith('(') and close(a, 0) == len(a) else a].add(f)
            else:
                parts = split(re.sub(r'^(\([^()]*:[^()]*\)\s*)+→\s*', '', text), '→')
                for a in parts[:-1]: asked[re.sub(r'^\((.*)\)$', r'\1', a)].add(f)
                for a in split(parts[-1], '×'): told[a].add(f)
    return asked, told


def p5a():
    """Facts asked for, in requires or before an arrow in ensures, of three functions or more; and definitions that head what three functions or more promise."""
    asked, told = facts()
    for title, table in (('5a facts asked for in three functions or more', asked),):
        rows = []
        for a, fs in table.items():
            if len(fs) >= 3:
                by = collections.defaultdict(list)
                for f in fs: by[f.crate].append(f)
                for c, l in by.items(): rows.append((c, ', '.join(sorted({f.file for f in l})), a, f'{len(l)} functions: ' + ', '.join(item(f) for f in sorted(l, key=lambda f: (f.file, f.line)))))
        show(title, rows)
    heads = collections.defaultdict(set)
    for a, fs in told.items():
        m = re.match(r'([A-Z]\w*)\b', a)
        if m: heads[m.group(1)] |= fs
    rows = []
    for h, fs in heads.items():
        if len(fs) >= 3:
            c = sorted(fs, key=lambda f: CRATES.index(f.crate))[0].crate
            by = collections.Counter(f.crate for f in fs)
            rows.append((c, '', h, ', '.join(f'{k} {n}' for k, n in by.items())))
    show('5a definitions that head the promises of three functions or more', rows)


def p5b():
    """Three parameters or more, of the same names and types, in three functions or more. Readers, writers and what the system gives are left out. The set that stands most
    often, by its parameters over two times its functions, comes first; where it stands it counts as one parameter, and so on until none is left."""
    handle = re.compile(r'Out<|impl |^R$|^&mut R$')
    sets = {f: frozenset((n, ty) for n, ty in f.params if n != 'self' and not handle.search(ty)) for f in FNS}
    rows = []
    while True:
        fs = [f for f in FNS if len(sets[f]) >= 3]
        closed = {sets[a] & sets[b] for i, a in enumerate(fs) for b in fs[i + 1:]}
        closed |= {s & sets[a] for s in list(closed) if len(s) > 3 for a in fs}
        best = None
        for s in closed:
            if len(s) < 3: continue
            having = [f for f in fs if s <= sets[f]]
            if len(having) < 3: continue
            key = ((len(s) - 2) * len(having), len(s), sorted(s))
            if best is None or key > best[0]: best = (key, s, having)
        if best is None: break
        _, s, having = best
        order = [p for p in having[0].params if p in s]
        rows.append((having[0].crate, '', ', '.join(f'{n}: {ty}' for n, ty in order), f'{len(having)} functions: ' + ', '.join((f.crate + '/' if f.crate != having[0].crate else '') + f.file + ' ' + item(f) for f in having)))
        for f in having: sets[f] = (sets[f] - s) | {('+' + str(len(rows)), '')}
    show('5b parameters that stand together', rows)


def p5c():
    show('5c functions of more than six parameters', [(f.crate, f.file, item(f), str(len(f.params))) for f in FNS if len(f.params) > 6])


def p6a():
    """Structs with arrays, or with an array and a count."""
    rows = []
    for t in TYPES:
        if t.form != 'struct': continue
        arrays = [n for _, n, ty in fields(t) if ty.startswith('[')]
        spans = [n for _, n, ty in fields(t) if ty == 'usize' or ty in ('u32', 'u8', 'u16')]
        if arrays: rows.append((t.crate, t.file, t.name, ', '.join(arrays) + (' beside ' + ', '.join(spans) if spans else '')))
    show('6a structs with arrays', rows)


def p6b():
    """A lent slice or array with its count beside it, and lent arrays side by side."""
    rows = []
    for f in FNS:
        arrays = [n for n, ty in f.params if re.match(r'&(mut )?\[(u8|u16|u32|u64|usize|bool)\s*;', ty)]
        counts = [n for n, ty in f.params if ty in ('usize', 'u16') and re.search(r'(^|_)(count|n|m|len|length|end|written|size|room|own|from)$', n)]
        slices = [n for n, ty in f.params if re.match(r'&(mut )?\[u\d+\]', ty)]
        if len(arrays) >= 2 or (arrays and counts): rows.append((f.crate, f.file, item(f), ', '.join(counts + arrays)))
        elif slices and counts and not (('line', '&mut [u8]') in f.params): rows.append((f.crate, f.file, item(f), ', '.join(counts + slices)))
    show('6b lent buffers with counts, and arrays side by side', rows)


def p6c():
    """A line and a place in, the place behind out; and an array of one's own that is filled up to a length."""
    rows = [(f.crate, f.file, item(f), 'line, at -> usize') for f in FNS
            if f.result == 'usize' and any(ty == '&mut [u8]' for _, ty in f.params) and ('at', 'usize') in f.params or (('line', '&mut [u8]') in f.params and f.result == 'usize')]
    for f in FNS:
        for m in re.finditer(r'let mut (\w+)\s*=\s*(?:\[0(?:u8)?;\s*([^\]]+)\]|(table_buffer|line_buffer)\(\))', f.body):
            rows.append((f.crate, f.file, item(f), f'{m.group(1)}: {m.group(2) or m.group(3)}'))
    show('6c lines with a place, and buffers', rows)


def p6d():
    """Searches by hand: a loop that leaves where something is found, or keeps that it was."""
    rows = []
    for f in FNS:
        for m in LOOP.finditer(f.body):
            body = f.body[m.end():close(f.body, m.end() - 1) - 1]
            if re.search(r'\breturn\b|\bfound\s*=|\bbreak\b|used\s*=', body): rows.append((f.crate, f.file, item(f), f.result))
    show('6d searches', rows)


def p6e():
    """Fields that are the index of another element: of a parent, a child, or the next one."""
    rows = [(t.crate, t.file, t.name + '.' + n, ty) for t in TYPES for _, n, ty in fields(t) if re.match(r'(parent|child|next|left|right|prev|before)$', n) and ty in INTS]
    show('6e indices of other elements', rows)


def p7():
    """A match or a row of ifs over an enum or a number whose arms each call another function of one's own; function types; dyn."""
    own = {f.name for f in FNS}
    rows = []
    for f in FNS:
        arms = re.findall(r'=>\s*(?:\{\s*)?(?:return\s+)?(?:\w+::)?([a-z_]\w*)\(', f.body)
        ifs = re.findall(r'if \w+(?:\.\w+)? == \w+ \{\s*return (?:\w+::)?([a-z_]\w*)\(', f.body)
        a, b = {x for x in arms if x in own}, {x for x in ifs if x in own}
        if len(a) >= 2 or len(b) >= 2:
            m = re.search(r'match\s+([^{]+?)\s*\{', f.body)
            rows.append((f.crate, f.file, item(f), (f'match {m.group(1)}: ' if m and len(a) >= 2 else 'ifs: ') + ', '.join(sorted(a | b))))
        if re.search(r'\bdyn\b|\bfn\(|impl Fn', ' '.join(ty for _, ty in f.params)): rows.append((f.crate, f.file, item(f), 'function parameter'))
    show('7 switches over functions', rows)


def p8():
    """Proof files of functions, the laws that no other place names, and the definitions that none does."""
    top = pathlib.Path('crates')
    declared = re.compile(r"\s*(?:(?:abbrev|unfoldable|opaque|pub|record|data)\s+)*([A-Za-z_][\w'-]*)\s*(?:\([^:]*:.*\)\s*|\{[^:]*:.*\}\s*)*:(?!\S*=)")
    print('== 8 proof files of functions, lines in them, laws files and lines')
    total = [0, 0, 0, 0]
    for c in CRATES:
        deep = [p for p in top.joinpath(c, 'proofs').glob('**/*.antt') if len(p.parts) > 4]
        flat = list(top.joinpath(c, 'proofs').glob('*.antt'))
        n = [len(deep), sum(len(p.read_text().splitlines()) for p in deep), len(flat), sum(len(p.read_text().splitlines()) for p in flat)]
        total = [a + b for a, b in zip(total, n)]
        if any(n): print(f'     {c:9} {n[0]:4} files {n[1]:5} lines; {n[2]:3} files of laws {n[3]:5} lines')
    print(f'     all       {total[0]:4} files {total[1]:5} lines; {total[2]:3} files of laws {total[3]:5} lines\n')
    texts, uses = {}, {}
    for p in sorted(top.glob('*/proofs/**/*.antt')) + sorted(top.glob('*/specs/**/*.antt')) + sorted(top.glob('*/src/**/*.rt')):
        raw = re.sub(r'(?m)--(?=\s|$).*$' if p.suffix == '.antt' else r'(?m)//.*$', '', p.read_text())
        texts[p] = re.sub(r'(?m)^(?:pub\s+|ghost\s+)?use\s[^\n{]*(?:\{[^}]*\})?', '', raw)
        uses[p] = {}
        for m in re.finditer(r'(?m)^(?:pub\s+|ghost\s+)?use\s+Rattle\.(\w+)\.(?:proofs|specs)\.(\w+)\.\{([^}]*)\}', raw):
            uses[p].update({(m.group(1), m.group(2), w.split()[0]): w.split()[-1] for w in m.group(3).split(',') if w.strip()})
        for m in re.finditer(r'\b(crate|\w+)::(?:proofs|specs)::(\w+)::([\w\'-]+)', raw):
            uses[p][p.parts[1] if m.group(1) == 'crate' else m.group(1), m.group(2), m.group(3)] = m.group(3)
        for m in re.finditer(r'\bRattle\.(\w+)\.(?:proofs|specs)\.(\w+)\.([A-Za-z_][\w\'-]*)', raw): uses[p][m.groups()] = m.group(3)
    laws = {}
    for c in CRATES:
        for p in sorted(top.joinpath(c, 'proofs').glob('*.antt')):
            marks, modules, at = [], [], 0              # where declarations begin; the margins of the modules around
            for line in texts[p].splitlines(True):
                margin = len(line) - len(line.lstrip())
                if line.strip():
                    while modules and modules[-1] >= margin: modules.pop()
                    m = declared.match(line) if margin == (modules[-1] + 2 if modules else 0) else None
                    if line.lstrip().startswith('module '):
                        modules.append(margin); marks.append((at, None))
                    elif m: marks.append((at, m.group(1)))
                at += len(line)
            for i, (at, n) in enumerate(marks):
                end = marks[i + 1][0] if i + 1 < len(marks) else len(texts[p])
                laws[c, p.stem, n or ''] = laws.get((c, p.stem, n or ''), '') + texts[p][at:end]
    def word(n, text): return re.search(r"(?<![\w'-])" + re.escape(n) + r"(?![\w'-])", text)
    cited = collections.defaultdict(set)              # law -> laws, or files that are no laws' files, that cite it
    for c, m, n in laws:
        if not n: continue
        for (d, k, other), block in laws.items():
            if (c, m) == (d, k) and other != n and word(n, block): cited[c, m, n].add((d, k, other))
        for p, names in uses.items():
            if (c, m, n) not in names: continue
            if p.parent.name == 'proofs' and len(p.parts) == 4:
                for (d, k, other), block in laws.items():
                    if d == p.parts[1] and k == p.stem and word(names[c, m, n], block): cited[c, m, n].add((d, k, other))
            else: cited[c, m, n].add(p)
    laws = {k: v for k, v in laws.items() if k[2]}
    pages = ' '.join(p.read_text() for p in [pathlib.Path('README.md')] + sorted(pathlib.Path('docs').rglob('*.md')) if p.name != 'DESIGN-PASS.md')
    def rows_of(keys): return [(c, m + '.antt', n, 'a page names it' if re.search('`' + re.escape(n) + '`', pages) else '') for c, m, n in keys]
    bare = [k for k in laws if not cited[k]]
    show(f'8 laws that no other place cites, of {len(laws)}', rows_of(bare))
    dead, grown = set(bare), True
    while grown:
        more = {k for k in laws if k not in dead and cited[k] and cited[k] <= dead}
        grown, dead = bool(more), dead | more
    show('8 laws that only these cite', rows_of([k for k in laws if k in dead and k not in set(bare)]))


POINTS = {'1a': p1a, '1b': p1b, '1c': p1c, '1d': p1d, '2a': p2a, '2b': p2b, '2c': p2c, '3': p3, '4a': p4a, '4b': p4b, '4c': p4c, '4d': p4d, '4e': p4e, '4f': p4f,
          '5a': p5a, '5b': p5b, '5c': p5c, '6a': p6a, '6b': p6b, '6c': p6c, '6d': p6d, '6e': p6e, '7': p7, '8': p8}
for k in (sys.argv[1:] or POINTS):
    POINTS[k]()
