#!/usr/bin/env python3
"""Lists the places of src/ where an older form may stand, by point; what is a place is then decided by reading.

usage: python3 tools/places.py [POINT..]        at the top: prints each candidate, and how many there are of each point
"""
import collections
import glob
import re
import sys

ITEM = re.compile(r'^ *(?:pub(?:\(crate\))? )?fn (\w+)', re.M)


def sources():
    for path in sorted(glob.glob('crates/*/src/**/*.rt', recursive=True)):
        if 'tests' not in path:
            yield path, open(path).read().split('#[cfg(test)]\nmod tests {')[0]


def functions():
    """Each function: its path, its name, its line, its parameters and clauses, and its body."""
    for path, text in sources():
        starts = [(m.start(), m.group(1)) for m in ITEM.finditer(text)]
        for k, (at, name) in enumerate(starts):
            rest = text[at:starts[k + 1][0] if k + 1 < len(starts) else len(text)]
            cut = re.search(r'\n *\{(\}|\n)|[^\n]\{\n|;\n', rest)
            head, body = (rest, '') if cut is None else (rest[:cut.start()], rest[cut.start():])
            yield path, name, text.count('\n', 0, at) + 1, head, body


def lines(pattern):
    for path, text in sources():
        for number, line in enumerate(text.split('\n'), 1):
            if re.search(pattern, line) and not line.strip().startswith(('//', 'ghost', 'ensures', 'requires')):
                yield f'{path}:{number}: {line.strip()}'


def point_1():
    """own enums; laws that answer a number; numbers for kinds; errors wrapped by hand"""
    yield from lines(r'^(pub |pub\(crate\) )?enum ')
    for path, name, line, head, body in functions():
        if '-> u8' in head and re.fullmatch(r'\s*\{\s*0\s*\}\s*(//.*\s*)*', body):
            yield f'{path}:{line}: {name} answers 0'
    yield from lines(r'\b(option|cause|number): u8\b|Option<\(u8, u8\)>|== 255|: u8 = 255')
    yield from lines(r'Err\(\w+\) => (return )?(Ok\()?Err\(|Err\(_\) => |return Err\(\w+::\w+\(|Ok\((Err|Ok)\(')


def point_2():
    """functions of one name or one body in several places; structs and impls with the same fields or text"""
    named, bodies, structs = (collections.defaultdict(list) for _ in range(3))
    for path, name, line, head, body in functions():
        if name not in ('main', 'ask', 'posting', 'sum', 'is_lower', 'from', 'orders', 'fmt', 'drop'):
            named[name].append(f'{path}:{line}')
        plain = re.sub(r'\s+', ' ', body)
        if len(plain) > 30:
            bodies[plain].append(f'{path}:{line}: {name}')
    for path, text in sources():
        for m in re.finditer(r'struct (\w+)[^{;]*\{([^}]*)\}', text):
            fields = re.sub(r'\s+|pub |: \w+[^,]*', '', m.group(2))
            structs[fields].append(f'{path}: {m.group(1)}')
    for name, where in sorted(named.items()):
        if len(where) > 1:
            yield f'{name}: ' + ', '.join(where)
    for where in bodies.values():
        if len(where) > 1:
            yield 'one body: ' + ', '.join(where)
    for fields, where in structs.items():
        if len(where) > 1:
            yield f'fields {fields}: ' + ', '.join(where)


def point_3():
    """loops over a range of numbers, and rows taken apart to be gone through by hand"""
    yield from lines(r'\bfor \w+ in .*\.\.')
    yield from lines(r'let \[\w+, \w+, \w+, \w+\] =')
    for path, name, line, head, body in functions():
        if all(re.search(rf'[(\[ ]{k}[,)\]]', body) for k in '123') and 'match' not in body:
            yield f'{path}:{line}: {name} goes through numbers by hand'


def point_4():
    """a match whose arms are plain values, and comparisons of two fields"""
    for path, name, line, head, body in functions():
        arms = re.findall(r"=> (true|false|\d+|b?'.'|[a-z]|\w+ == \w+),\n", body)
        if len(arms) >= 2:
            yield f'{path}:{line}: {name} matches to plain values'
        elif re.search(r'(\w+)\.(\w+) == \w+\.\2 && ', body):
            yield f'{path}:{line}: {name} compares field by field'
        elif re.search(r'None => \w+,\n\s*Some\((\w+)\) => \1,', body):
            yield f'{path}:{line}: {name} is unwrap_or'
    yield from lines(r"'0' \+|/ 10\b|% 10\b")
    yield from lines(r'1 <= (\w+) && \1 <= |(\w+) < 1 \|\| \2 > ')


def point_5():
    """facts in the requires of three functions of a crate or more, and parameters that three or more have together"""
    facts, groups = collections.defaultdict(set), collections.defaultdict(set)
    for path, name, line, head, body in functions():
        crate = path.split('/')[1]
        inputs = re.search(r'fn \w+(?:<[^()]*>)?\((.*?)\n?\)( ->|\s*\n|$)', head, re.S)
        for clause in re.findall(r'requires[^{]*\{ (.*) \}', head):
            for fact in re.split(r' × ', clause):
                facts[crate, fact.strip('() ').replace('(model study.now', '(model study.now)').replace('))', ')')].add(name)
        shared = re.findall(r'(\w+: (?:[^,:]|::)+)', inputs.group(1)) if inputs else []
        shared = sorted(p.strip() for p in shared if not p.startswith(('heap', 'rt')))
        for i, first in enumerate(shared):
            for second in shared[i + 1:]:
                groups[crate, first, second].add(name)
    for (crate, fact), where in sorted(facts.items()):
        if len(where) > 2:
            yield f'{crate}: {fact}: ' + ', '.join(sorted(where))
    for (crate, first, second), where in sorted(groups.items()):
        if len(where) > 2:
            yield f'{crate}: ({first}, {second}): ' + ', '.join(sorted(where))


def point_6():
    """fixed buffers and tables"""
    yield from lines(r'\[[^\[\];]+(\[[^\]]*\])?; ?(\d+|[A-Z_]+)\]')


def point_7():
    """functions whose bodies differ in the calls alone"""
    shapes = collections.defaultdict(list)
    for path, name, line, head, body in functions():
        shape = re.sub(r'\s+', ' ', re.sub(r'\b[a-z_]\w*\b', 'x', re.sub(r'//.*', '', body)))
        shape = re.sub(r'\([^()]*\)', '()', shape)
        if len(shape) > 60:
            shapes[shape].append(f'{path}:{line}: {name}')
    for where in shapes.values():
        if len(where) > 1:
            yield ', '.join(where)


def point_8():
    """answers of proof files, by crate"""
    count = collections.Counter()
    for path in glob.glob('crates/*/proofs/**/*.antt', recursive=True):
        count[path.split('/')[1]] += len(re.findall(r'^(?:abbrev )?pub [\w.+-]+ : goal\.', open(path).read(), re.M))
    for crate, n in sorted(count.items()):
        yield f'{crate}: {n}'


def main():
    for k in [int(a) for a in sys.argv[1:]] or range(1, 9):
        found = list(globals()[f'point_{k}']())
        print(f'point {k}: {len(found)} candidates ({globals()[f"point_{k}"].__doc__})')
        for line in found:
            print('  ' + line)


main()
