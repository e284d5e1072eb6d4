#!/usr/bin/env python3
"""Lists the places in src/ (and, for point 8, in proofs/) that docs/DESIGN-PASS.md counts.

tools/places.py          the count of each point
tools/places.py POINT    the places of one point
"""
import collections
import pathlib
import re
import sys

TOP = pathlib.Path(__file__).resolve().parent.parent
SOURCES = [p for p in sorted(TOP.glob('crates/*/src/**/*.rt'))]
PROGRAMS = [p for p in SOURCES if p.parts[-3] not in ('figures', 'set_figures')]
ANSWERS = [p for p in sorted(TOP.glob('crates/*/proofs/**/Answers.antt'))]


def lines(pattern, files):
    """The lines of the files that hold the pattern."""
    found = re.compile(pattern)
    for path in files:
        for number, line in enumerate(path.read_text().split('\n'), 1):
            if found.search(line) and not line.lstrip().startswith('//'):
                yield f'{path.relative_to(TOP)}:{number}: {line.strip()}'


def functions(files):
    """Each function of the files: where, its name, its signature, its clauses and its body."""
    for path in files:
        text = path.read_text()
        for match in re.finditer(r'^( *)(?:pub(?:\(crate\))? )?fn (\w+)', text, re.M):
            rest = text[match.start():]
            end = re.search(r'\n' + match.group(1) + r'(?:\}|\{\n(?:.*\n)*?' + match.group(1) + r'\})\n', rest)
            one = re.search(r';\n', rest)
            if not end or (one and one.end() < end.start() and '{\n' not in rest[:one.end()]):
                continue
            whole = rest[:end.end()]
            head = re.split(r'\n *(?:requires|ensures)|\{\n', whole)[0]
            yield f'{path.relative_to(TOP)}: {match.group(2)}', match.group(2), head, whole


def body_of(whole):
    """The body of a function, without its clauses."""
    parts = re.split(r'\n *\{\n|\{\n', whole, maxsplit=1)
    return parts[1] if len(parts) > 1 else ''


def point_1():
    """0 for "none" or "refused", and numbers for kinds and for refusals."""
    yield from lines(r'^ *0$|return 0;|=> 0,|=> [1-9]\d*,|^const CODE|unwrap_or\(0\)|map_or\(0,', PROGRAMS)


def point_2():
    """Functions whose bodies differ only in names and numbers, names with a size in them, and guards written again."""
    shapes = collections.defaultdict(list)
    for where, name, head, whole in functions(PROGRAMS):
        body = body_of(whole)
        shape = re.sub(r'\s+', ' ', re.sub(r'\b\d+\b', '0', re.sub(r'\b(?!match|if|else|let|for|in|return|mut|self|Ok|Err|Some|None)[A-Za-z_]\w*', 'x', body)))
        if len(shape) > 24 and 'fn number' not in whole:
            shapes[shape].append(where)
    for places in shapes.values():
        if len(places) > 1:
            yield from places
    yield from lines(r'fn \w+_sixteen\b', PROGRAMS)
    yield from lines(r'match self\.lawful\(row\)', PROGRAMS)
    yield from lines(r'fn last_with_same\b', PROGRAMS)


def point_3():
    """Loops over a number, and loops with a condition."""
    yield from lines(r'\bfor .* in .*\.\.|\bwhile |\bloop \{', SOURCES)


def point_4():
    """Comparisons, conversions and printing by hand."""
    yield from lines(r'[0-9a-z_]+ <= [a-z_]+ && [a-z_]+ <= |\{ Some\([a-z]+\) \} else \{ None \}|fn (number|eq|cmp|partial_cmp|clone|print_\w+)\b| as [iu](8|16|32|64|128)\b| as usize\b', PROGRAMS)


def point_5():
    """Clauses that stand at three functions or more, and parameters that always travel together."""
    clauses = collections.defaultdict(list)
    for where, name, head, whole in functions(PROGRAMS):
        for clause in re.findall(r'\n +(?:requires|ensures)(?: \w+)? \{ (.*) \}', whole):
            clauses[clause].append(where)
        flat = re.sub(r'\s+', ' ', head)
        if re.search(r'kind: &K,.*(?:supply: &S|rows: &\[Row\]|above: &\[Row\])', flat) or 'slacks: &[i64; 32]' in flat:
            yield where
    for clause, places in clauses.items():
        if len(places) > 2:
            for where in places:
                yield f'{where}: {clause}'


def point_6():
    """Arrays of a fixed size, arrays that run in step, and counts that stand beside them."""
    yield from lines(r'(^ *(pub\(crate\) )?|const |let mut )\w+: \[\w+; \w+\]|count: usize', PROGRAMS)


def point_7():
    """Switches on which step to run, and tables of functions."""
    yield from lines(r'match edit \{|\bdyn |: fn\(', PROGRAMS)


def point_8():
    """Answers that are written by hand."""
    yield from lines(r'^pub ', ANSWERS)


POINTS = [point_1, point_2, point_3, point_4, point_5, point_6, point_7, point_8]
if len(sys.argv) > 1:
    print('\n'.join(POINTS[int(sys.argv[1]) - 1]()))
else:
    for number, point in enumerate(POINTS, 1):
        print(number, len(list(point())), point.__doc__)
