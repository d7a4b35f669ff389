#!/usr/bin/env python3
"""Counts the places that docs/DESIGN-PASS.md speaks of, in the files of src/ as they stand at a commit, or in the work tree where none is given:
python3 tools/places.py [COMMIT] [-v]. A place is a line, a function or a group of functions that a rule below finds; -v prints them all. The rules find
what may be a place; the page says of each what became of it."""
import itertools
import re
import subprocess
import sys

commit = next((a for a in sys.argv[1:] if not a.startswith('-')), None)
verbose = '-v' in sys.argv


def run(*args):
    return subprocess.run(args, capture_output=True, text=True, check=True).stdout


def files():
    names = run('git', 'ls-tree', '-r', '--name-only', commit) if commit else run('git', 'ls-files', '-co', '--exclude-standard')
    for name in sorted(set(names.split('\n'))):
        if re.fullmatch(r'crates/\w+/src/\w+\.rt', name):
            yield name, run('git', 'show', f'{commit}:{name}') if commit else open(name).read()


class Function:
    def __init__(self, file, line, name, head, body):
        self.file, self.line, self.name, self.head, self.body = file, line, name, head, body
        self.where = f'{file}:{line} {name}'


def functions(file, text):
    lines = text.split('\n')
    i = 0
    while i < len(lines):
        m = re.match(r'( *)(pub(\(crate\))? )?(extern "C" )?fn (\w+)', lines[i])
        if not m:
            i += 1
            continue
        start, indent = i, m.group(1)
        while i < len(lines) and not re.search(r'(\{|;)$', lines[i]):
            i += 1
        head = '\n'.join(lines[start:i + 1])
        body_start = i
        while i < len(lines) and lines[i] != indent + '}':
            if lines[body_start].endswith(';') or lines[i].rstrip().endswith('}') and i == body_start:
                break
            i += 1
        yield Function(file, start + 1, m.group(5), head, '\n'.join(lines[body_start + 1:i]))
        i += 1


def report(point, what, found):
    found = list(found)
    print(f'{point} {what}: {len(found)}')
    if verbose:
        for place in found:
            print('    ' + place)


texts = list(files())
code = [(f'{file}:{n}', line) for file, text in texts for n, line in enumerate(text.split('\n'), 1)]
fns = [f for file, text in texts for f in functions(file, text)]


def lines(pattern, but=None):
    return [f'{at} {line.strip()[:110]}' for at, line in code if re.search(pattern, line) and not (but and re.search(but, line))]


# ---- 1
enums = []
for file, text in texts:
    for m in re.finditer(r'^(?:pub )?enum (\w+)(?:<.*?>)? \{\n(.*?)^\}', text, re.M | re.S):
        body = re.sub(r'//.*', '', m.group(2))
        variants = re.findall(r'^    (\w+)', body, re.M)
        data = re.findall(r'^    (\w+)\s*[({]', body, re.M)
        bad = [v for v in variants if v in ('Bad', 'NoDate', 'Fails', 'Other', 'Over', 'OutShort', 'Refused', 'Unfit', 'IllFormed', 'BadRun', 'BadFile',
                                            'BadRecords', 'None', 'Missing')]
        if bad and len(data) <= len(variants) and m.group(1) not in ('Refusal', 'Class', 'Stop') and not m.group(1).endswith('Refusal'):
            enums.append(f'{file} {m.group(1)}: {", ".join(variants)}')
report('1', 'enums of the shape of Option or Result', enums)
none = r'^ *// .*(\bor none\b|, or (0|16|64|`NO_\w+`)(\.|:| where)|; (0|8|16) (for|where)|(Eof|0) where|are 0 where|above it, or)'
report('1', 'numbers that stand for none, by their comments', lines(none, r'Document 0|value of it|digits or none|precision that follows'))
report('1', 'numbers for refusals and reasons: methods, fields and parameters', lines(r'fn number\(self\)|fn value\(self\)|\breason: usize|\bkind: usize'))


# ---- 2
def shape(body):
    body = re.sub(r'//.*', '', body)
    body = re.sub(r"b?'(\\.|[^'])+'|b?\"[^\"]*\"|\b\d\w*\b", '0', body)
    known = {'if', 'else', 'while', 'loop', 'for', 'in', 'return', 'let', 'mut', 'match', 'as', 'self', 'true', 'false', 'len', 'u8', 'u32', 'u64', 'i64',
             'usize', 'continue'}
    names = {}
    return ' '.join(t if t in known or not re.match(r'[A-Za-z_]', t) else names.setdefault(t, f'n{len(names)}') for t in re.findall(r'\w+|[^\w\s]', body))


groups = {}
for f in fns:
    s = shape(f.body)
    if len(s.split()) >= 14:
        groups.setdefault(s, []).append(f)
report('2', 'groups of functions whose bodies differ in names, types and constants alone',
       (' ~ '.join(f.where for f in g) for g in groups.values() if len(g) > 1))

# ---- 3
report('3', 'loops that are no `for`', lines(r"^ *('\w+: )?(while|loop) ?"))
report('3', 'of these, such as count an index up or down by a fixed step', (
    f.where for f in fns for m in re.finditer(r'^( *)while (\w+ < |0 < \w+ |.* < \w+).*\{\n(.*?)^\1\}', f.body, re.M | re.S)
    if re.search(r'^' + m.group(1) + r'    (\w+) [-+]= \w+;', m.group(3), re.M)))

# ---- 4
report('4', 'conversions and comparisons written by hand: functions', (
    f.where for f in fns if re.search(r'fn (number|numbers|mode|wide|has_number|is_eof|is_illegal|is_newline|is_comment|is_string|is_bytes|is_duration|set_one|'
                                      r'magnitude|signed|is_word|is_strict|reading_of|at_most|of_\w+)\(', f.head)))
report('4', 'casts', lines(r'\bas (u8|u32|u64|usize|i64)\b'))
report('4', 'records made by copying fields one by one', (
    f.where for f in fns if len(re.findall(r'^ *(\w+): \w+(\.\w+)*\.\1,?$|^ *(\w+): \w+\.\w+\.offset', f.body, re.M)) >= 2))

# ---- 5
facts = {}
for f in fns:
    for clause in re.findall(r'^ *requires (?:\w+ )?\{ (.*) \}$', f.head, re.M):
        for fact in re.split(r' × ', clause):
            fact = re.sub(r'\b\w+(\.\w+)*\b', lambda m: 'x' if re.match(r'[a-z]', m.group()) and m.group() not in ('length',) else m.group(), fact.strip('() '))
            facts.setdefault((f.file.split('/')[1], fact), []).append(f)
report('5', 'facts, by their shape, that three or more functions of a crate require',
       (f'{crate}: {fact}: ' + ', '.join(f.where.split('/')[-1] for f in g) for (crate, fact), g in facts.items() if len(g) >= 3))
pairs = {}
for f in fns:
    args = re.findall(r'(\w+): (&mut \[\w+\]|&\[\w+\]|[\w&<>\[\]; ]+)', re.sub(r'\n *(requires|ensures).*', '', f.head, flags=re.S))
    for three in itertools.combinations(sorted(set(a for a, t in args if a != 'self')), 3):
        pairs.setdefault((f.file.split('/')[1], three), []).append(f)
report('5', 'threes of parameters that travel together in three or more functions of a crate',
       (f'{crate}: {", ".join(three)}: {len(g)} functions' for (crate, three), g in pairs.items() if len(g) >= 3))

# ---- 6
report('6', 'lent buffers with an index or a length beside them: functions', (
    f.where for f in fns if re.search(r': &(mut )?\[\w+\]', f.head) and re.search(r'\b(at|to|place|start|size|count|len|i|k|p|end|from|offset): usize', f.head)))

# ---- 7
report('7', 'parameters that say which step to run', (f.where for f in fns if re.search(r'\bk: Run\b|\bmode: (Mode|Reading)\b|\bclass: Class\b', f.head)))
