#!/usr/bin/env python3
"""Lists the places of src/ where an older form of code may stand: by patterns, point by point, with their numbers.

    python3 tools/count_forms.py [POINT ..]      at the top of a checkout

A line that is listed is a place to read, not a verdict. Test crates and #[cfg(test)] parts are left out.
"""
import collections
import glob
import itertools
import re
import sys

FN = re.compile(r'^( *)(?:pub(?:\(crate\))? )?fn (\w+)', re.M)


def sources():
    for path in sorted(glob.glob('crates/*/src/*.rt')):
        if '_tests/' in path:
            continue
        with open(path) as handle:
            text = handle.read()
        yield path, text.split('#[cfg(test)]\nmod ')[0]


def lines(pattern, leave=None):
    found = []
    for path, text in sources():
        for number, line in enumerate(text.split('\n'), 1):
            if line.strip().startswith('//') or line.startswith('ghost use') or line.startswith('use '):
                continue
            if re.search(r'^\s*(requires|ensures|ghost)\b', line):
                continue
            if re.search(pattern, line) and not (leave and re.search(leave, line)):
                found.append(f'{path}:{number}: {line.strip()}')
    return found


def functions():
    """Each function: path, line, name, parameters, clauses, body."""
    for path, text in sources():
        starts = [m for m in FN.finditer(text)]
        for m in starts:
            indent = m.group(1)
            end = re.compile(r'^' + indent + r'(\{\}|\})$|;$', re.M).search(text, m.end())
            whole = text[m.start():end.end() if end else len(text)]
            clauses = re.findall(r'^\s*(requires|ensures) ?(\w*) ?\{ (.*) \}$', whole, re.M)
            head = re.split(r'^\s*(?:requires|ensures|\{)', whole, maxsplit=1, flags=re.M)[0]
            parameters = re.findall(r'(\w+): ([^,()]*(?:\[[^]]*\])?[^,()]*)', head.split('->')[0])
            body = re.split(r'^' + indent + r'\{', whole, maxsplit=1, flags=re.M)
            yield path, text[:m.start()].count('\n') + 1, m.group(2), parameters, clauses, body[1] if len(body) > 1 else ''


def shape(body):
    kept = {'if', 'else', 'match', 'while', 'for', 'let', 'mut', 'return', 'loop', 'in', 'self'}
    tokens = re.findall(r'\w+|[^\w\s]', re.sub(r'//.*', '', body))
    return ' '.join(t if t in kept or not re.match(r'\w', t) else '_' for t in tokens if t != ',')


def twins():
    groups = collections.defaultdict(list)
    for path, number, name, _, _, body in functions():
        form = shape(body)
        if len(form.split()) >= 14 and name != 'code':
            groups[form].append(f'{path}:{number}: {name}')
    return [' ~ '.join(g) for g in groups.values() if len(g) > 1]


def repeated_facts():
    seen = collections.defaultdict(set)
    for path, number, name, _, clauses, _ in functions():
        crate = path.split('/')[1]
        for kind, _, fact in clauses:
            plain = re.sub(r'\.(old|new|now|entry)\b', '', fact)
            if plain != 'Unit {0}':
                seen[crate, plain].add(f'{name}')
    return [f'{crate}: {{ {fact} }} in {", ".join(sorted(names))}'
            for (crate, fact), names in sorted(seen.items()) if len(names) >= 3]


def travelling():
    together = collections.defaultdict(set)
    for path, number, name, parameters, _, _ in functions():
        crate = path.split('/')[1]
        plain = sorted({(p, t.strip()) for p, t in parameters if p[0].islower()})
        for pair in itertools.combinations(plain, 2):
            together[crate, pair].add(name)
    return [f'{crate}: ({a[0]}, {b[0]}) in {len(names)} functions: {", ".join(sorted(names))}'
            for (crate, (a, b)), names in sorted(together.items()) if len(names) >= 3]


def fixed():
    return lines(r'^\s*(pub(\(crate\))? )?\w+: \[.*; \w+\],?$')


POINTS = {
    '1 enums, each read for the shape of Option or Result': lambda: lines(r'^\s*(pub(\(crate\))? )?enum '),
    '1 an Option or Result that holds a reason': lambda: lines(r'Result<Option<|Option<\w*(Reason|Fault)'),
    '1 flags as parameters or fields': lambda: lines(r'\b(inside|far|slash|wrapped|active|more|word|opens): bool|\bkind: u8'),
    '1 numbers that say none': lambda: lines(r'\b65535\b|0xffff\b'),
    '2 functions of one shape': twins,
    '3 loops that count or step by hand': lambda: lines(r'^\s*(while|loop)\b|^\s*for \w+ in [^{]*\.\.'),
    '4 comparison, conversion, printing by hand': lambda: lines(
        r'fn (number_of|same_bytes|equal_bytes|same_slot|same|copied|is_\w+|code|text|axis_of)\(|\* 256|/ 256|% 256|refused \{'
        r'|=> (true|false|0|1),$|Err\((e|f|fault)\) => (return )?Err|Some\((\w+)\) => Some|Ok\((\w+)\) => Ok'),
    '5 facts in three contracts or more': repeated_facts,
    '5 parameters that travel together': travelling,
    '6 arrays as fields': fixed,
    '7 tables of functions, pointers, dyn': lambda: lines(r'\bdyn \w|\bfn\(|\[fn'),
    '7 a match on what to do': lambda: lines(r'^\s*match (command|call|step)\b'),
}


def main():
    wanted = sys.argv[1:]
    for title, find in POINTS.items():
        if wanted and title.split()[0] not in wanted:
            continue
        found = find()
        print(f'== {title}: {len(found)}')
        for place in found:
            print('  ' + place)


if __name__ == '__main__':
    main()
