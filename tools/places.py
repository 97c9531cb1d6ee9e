#!/usr/bin/env python3
"""Lists the places of src/ that have an older form, by the points of docs/DESIGN-PASS.md, and counts them.
usage: places.py [--point N] [ROOT]     ROOT: a checkout (this folder). A row for each place, then a line `point N: M places` for each point.
Goes by text: whether a place is truly of the old form is for a reader, and the page says of each that stays why it does."""
import glob, os, re, sys

args = sys.argv[1:]
only = None
if '--point' in args:
    i = args.index('--point'); only = int(args[i + 1]); del args[i:i + 2]
os.chdir(args[0] if args else '.')

WORD = re.compile(r"[A-Za-z_]\w*|\d+|[^\s\w]")
KEEP = {'let', 'mut', 'if', 'else', 'match', 'return', 'while', 'loop', 'for', 'in', 'fn', 'struct', 'enum', 'true', 'false', 'Some', 'None', 'Ok', 'Err', 'as', 'break'}
ABSENT = {'None', 'Bad', 'Nothing', 'Missing', 'Over', 'Refused', 'Unknown', 'NoForm', 'NoLine', 'NoNumber', 'NoRecord', 'TooLarge', 'TooMuch', 'Full', 'Front', 'Unreadable', 'Fails', 'Fault', 'Here'}

def code(text):
    return re.sub(r"(?m)^\s*//.*$|^\s*ghost use [^;]*;", lambda m: '\n' * m.group().count('\n'), text)

def closing(text, i):
    depth = 0
    for k in range(i, len(text)):
        if text[k] == '{': depth += 1
        elif text[k] == '}':
            depth -= 1
            if depth == 0: return k
    return len(text)

class Function:
    def __init__(self, path, line, name, head, body):
        self.path, self.line, self.name, self.head, self.body = path, line, name, head, body
        inside = head[head.index('(') + 1:]
        depth, cut = 1, len(inside)
        for k, ch in enumerate(inside):
            depth += (ch in '([') - (ch in ')]')
            if depth == 0: cut = k; break
        self.parameters = [p.strip() for p in re.split(r",(?![^\[<(]*[\]>)])", inside[:cut]) if p.strip()]
        rest = inside[cut + 1:]
        self.clauses = re.split(r"\b(?=requires|ensures)", rest)[1:]

def functions(path, text):
    for m in re.finditer(r"(?m)^[ \t]*(?:pub(?:\(crate\))? )?(?:unsafe )?(?:extern \"C\" )?fn (\w+)", text):
        k, depth = m.end(), 0
        # the body's brace is the first on a line of its own, or after the result where there is no clause
        body = re.compile(r"(?m)^[ \t]*\{[ \t]*$|\{[ \t]*\n").search(text, m.end())
        while body and re.search(r"(requires|ensures)[^\n]*$", text[m.end():body.start()].split('\n')[-1]): body = re.compile(r"(?m)^[ \t]*\{[ \t]*$|\{[ \t]*\n").search(text, body.end())
        if not body: continue
        brace = text.index('{', body.start())
        end = closing(text, brace)
        yield Function(path, text[:m.start()].count('\n') + 1, m.group(1), text[m.start():brace], text[brace + 1:end])

def enums(path, text):
    for m in re.finditer(r"(?m)^[ \t]*(?:pub(?:\(crate\))? )?enum (\w+)[^{]*\{", text):
        inside = text[m.end():closing(text, m.end() - 1)]
        variants = re.findall(r"(?m)^\s*([A-Z]\w*)\s*(\([^)]*\)|\{[^}]*\})?,?", inside)
        yield text[:m.start()].count('\n') + 1, m.group(1), variants

def shape(body):
    return tuple(w if w in KEEP or not (w[0].isalpha() or w[0] == '_' or w[0].isdigit()) else 'n' if not w[0].isdigit() else '0' for w in WORD.findall(body))

files = {p: code(open(p, encoding='utf-8').read()) for p in sorted(glob.glob('crates/*/src/**/*.rt', recursive=True))}
every = [f for p, t in files.items() for f in functions(p, t)]
found = {n: [] for n in range(1, 9)}

for p, t in files.items():
    for line, name, variants in enums(p, t):
        names = [v for v, _ in variants]
        held = [v for v, x in variants if x]
        is_option = len(variants) == 2 and len(held) == 1
        is_result = any(re.search(r"\b(Error|Refusal)\b", x) for _, x in variants) or len(variants) <= 4 and any(v in ABSENT for v in names) and held
        if is_option or is_result: found[1].append(f'{p}:{line}: enum {name} {{ {", ".join(names)} }}')
    for m in re.finditer(r"(?m)^\s*pub (ok|fine): bool|^\s*(?:pub )?(kind|outcome|verdict): u\d+", t):
        found[1].append(f'{p}:{t[:m.start()].count(chr(10)) + 2}: {m.group().strip()}')
    for m in re.finditer(r"(?m)(?:^\s*(?:pub(?:\(crate\))? )?const [A-Z_]+: u(?:8|16|64) = \d{1,3};\s*){2,}", t):
        found[1].append(f'{p}:{t[:m.start()].count(chr(10)) + 2}: numbers for kinds: {", ".join(re.findall(r"const ([A-Z_]+)", m.group()))}')
    for m in re.finditer(r"(?m)^[ \t]*(?:pub(?:\(crate\))? )?struct (\w+)[^{;]*\{", t):
        inside = t[m.end():closing(t, m.end() - 1)]
        if re.search(r"\[\w+; ", inside) and re.search(r"\b(len|count): ", inside): found[6].append(f'{p}:{t[:m.start()].count(chr(10)) + 1}: struct {m.group(1)}: an array with a length beside it')
    for line, name, variants in enums(p, t):
        if {'One', 'Two', 'Three'} <= {v for v, _ in variants}: found[6].append(f'{p}:{line}: enum {name}: up to three values')

groups = {}
for f in every:
    if '/host_c/' in f.path: continue
    s = shape(f.body)
    if len(s) >= 20: groups.setdefault(s, []).append(f)
for s, fs in groups.items():
    for f in fs[1:]: found[2].append(f'{f.path}:{f.line}: {f.name} is like {fs[0].name} ({fs[0].path}:{fs[0].line})')

for f in every:
    for m in re.finditer(r"\bwhile ([^{]*)\{", f.body):
        inside = f.body[m.end():closing(f.body, m.end() - 1)]
        counted = [x for x in set(re.findall(r"[a-z_]\w*", m.group(1))) if re.search(rf"(?<![\w.]){x} (\+=|-=) |(?<![\w.]){x} = {x} [+-] ", inside)]
        if counted: found[3].append(f'{f.path}:{f.line + f.head.count(chr(10)) + f.body[:m.start()].count(chr(10))}: {f.name}: while {m.group(1).strip()}')
    for m in re.finditer(r"\bloop \{", f.body):
        inside = f.body[m.end():closing(f.body, m.end() - 1)]
        if re.search(r"(?<![\w.])(\w+) (\+=|-=) 1;", inside): found[3].append(f'{f.path}:{f.line}: {f.name}: a loop that counts')
    body = ' '.join(f.body.split())
    if re.fullmatch(r"[\w.]+ as \w+", body): found[4].append(f'{f.path}:{f.line}: {f.name}: {body}')
    elif re.fullmatch(r"(let \w+ = [\w.]+; )*match [\w.]+ \{ (?:[^=]*? => (?:true|false|\d+|[A-Z:a-z]+::[A-Z_]+), ?)+\}", body): found[4].append(f'{f.path}:{f.line}: {f.name}: a match to literals')
    elif re.fullmatch(r"if (\w+) < (\w+) \{ (\1|\2) \} else \{ (\1|\2) \}", body): found[4].append(f'{f.path}:{f.line}: {f.name}: {body}')
    elif re.search(r"\bbool\b", f.head.split('ensures')[0].split(')')[-1]) and re.search(r"while .*(!=|<).*return (true|false)", body): found[4].append(f'{f.path}:{f.line}: {f.name}: compares element by element')
    if len(f.parameters) >= 8: found[5].append(f'{f.path}:{f.line}: {f.name}: {len(f.parameters)} parameters')
    arms = re.findall(r"=> ([a-z_:]+)\(", f.body)
    if len(arms) >= 6 and len(set(arms)) >= 6: found[7].append(f'{f.path}:{f.line}: {f.name}: a match that calls {len(set(arms))} functions')
    parallel = [x for x in f.parameters if re.search(r"NameTable|\[u(8|16); Tables::MOST\]", x)]
    if len(parallel) >= 2: found[6].append(f'{f.path}:{f.line}: {f.name}: parallel tables as parameters')
    if re.search(r"\bmiddle\b", f.body) and 'while' in f.body: found[6].append(f'{f.path}:{f.line}: {f.name}: a search by halves')

facts = {}
for f in every:
    for c in f.clauses:
        if c.startswith('requires'):
            for part in re.split(r" × ", re.sub(r"^requires\w* *\w* *\{|\}\s*$", '', ' '.join(c.split()))):
                part = part.strip(' ()')
                if len(part) > 6: facts.setdefault(re.sub(r"\.(now|old)\b", '', part), set()).add((f.path, f.name))
for part, fs in sorted(facts.items()):
    if len(fs) >= 3: found[5].append(f'{len(fs)} functions require: {part}')

answers = [g for p in glob.glob('crates/*/proofs/**/Answers.antt', recursive=True) for g in re.findall(r"(?m)^(?:pub )?[\w+-]+ : goal\.", open(p, encoding='utf-8').read())]
found[8] = [''] * len(answers)

for n in sorted(found):
    if only and n != only: continue
    for row in found[n]:
        if row: print(row)
    print(f'point {n}: {len(found[n])} {"answers" if n == 8 else "places"}')
