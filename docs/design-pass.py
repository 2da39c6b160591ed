#!/usr/bin/env python3
"""Counts of docs/DESIGN-PASS.md: places in crates/*/src that are written in an older shape of the language. Run at the top of the repository."""
import collections
import glob
import re

FILES = sorted(glob.glob('crates/*/src/*.rt'))
TEXT = {f: open(f).read() for f in FILES}
CODE = {f: re.sub(r'//[^\n]*', '', t) for f, t in TEXT.items()}


def functions():
    """Each function as (file, name, parameters, contract)."""
    head = re.compile(r'\bfn (\w+)(?:<[^(]*>)?\(')
    for f, t in CODE.items():
        for m in head.finditer(t):
            depth, k = 1, m.end()
            while depth:
                depth += {'(': 1, ')': -1}.get(t[k], 0)
                k += 1
            inside = t[m.end():k - 1]
            parameters, level, part = [], 0, ''
            for c in inside:
                level += {'(': 1, '[': 1, '<': 1, ')': -1, ']': -1, '>': -1}.get(c, 0)
                if c == ',' and level == 0:
                    parameters.append(part.strip())
                    part = ''
                else:
                    part += c
            parameters.append(part.strip())
            end = re.search(r'\n\}|\n    \}|;\n', t[k:])
            yield f, m.group(1), [p for p in parameters if p], t[k:k + (end.start() if end else 0)]


def clauses(contract):
    """The texts of the `requires` clauses, in one line each."""
    for m in re.finditer(r'\brequires\s+(\w+\s+)?\{', contract):
        depth, k = 1, m.end()
        while depth and k < len(contract):
            depth += {'{': 1, '}': -1}.get(contract[k], 0)
            k += 1
        yield ' '.join(contract[m.end():k - 1].split())


def grep(pattern):
    return [(f, m.group(0).strip()) for f, t in CODE.items() for m in re.finditer(pattern, t, re.M)]


def main():
    fs = list(functions())
    print('functions:', len(fs))
    enums = [e for e in grep(r'^\s*(?:pub(?:\(crate\))? )?enum \w+') if not e[0].startswith('crates/cases')]
    print('1. own enums:', len(enums), ' '.join(e[1].split()[-1] for e in enums))
    print('1. kinds or refusals as numbers (fields and parameters `reason: u32`, `way: u32`, columns of ways):',
          len(grep(r'\b(reason|way): (&(\'a )?(mut )?)?(u32|\[u32; ROWS\])')))
    names = collections.Counter(name for _, name, _, _ in fs)
    stems = {n[:-7] for n in names if n.endswith('_length')}
    print('2. twins, a measure beside a writer (X_length, write_X):', len([s for s in stems if 'write_' + s in names]))
    print('2. readers of one kind of line in text:', len([n for f, n, _, _ in fs if f.startswith('crates/text') and re.match(r'read_(ring|row|sent|cut|link|last)$', n)]))
    print('3. loops that are no `for`:', len(grep(r'^\s*(while|loop)\b')), ' `for` over a range:', len(grep(r'^\s*for [^\n]*\.\.')))
    print('4. derives:', len(grep(r'derive\(')), ' equality by hand (fields compared one by one):', len(grep(r'\.(\w+) == \w+\.\1\b')))
    big = [(len(p), f.split('/')[1], n) for f, n, p, _ in fs if len(p) > 6 and not f.startswith('crates/ringkit_c')]
    print('5. functions of more than 6 parameters outside ringkit_c:', len(big), ' the most:', max((b[0] for b in big), default=0))
    facts = collections.Counter(c for f, _, _, k in fs if not f.startswith('crates/ringkit_c') for c in set(clauses(k)))
    three = [c for c, k in facts.items() if k >= 3]
    print('5. `requires` that stand in three or more functions:', len(three), ' at', sum(facts[c] for c in three), 'places')
    print('6. arrays of a fixed room as columns (`[u32; ROWS]`, `[u32; LINKS]`, `[u32; PAIRS]`, `[u32; SQUARE]`):',
          len(grep(r'\[u32; (ROWS|LINKS|PAIRS|SQUARE)\]')))
    print('7. a flag that says which step to run (a parameter of type bool):', sum(any(p.endswith(': bool') for p in ps) for _, _, ps, _ in fs))
    answers = [f for f in glob.glob('crates/*/proofs/**/*.antt', recursive=True) if f.endswith('/Answers.antt') and '/out/' not in f]
    print('8. answers by hand:', sum(len(re.findall(r'^(?:pub )?[\w+-]+ :', open(f).read(), re.M)) for f in answers), 'in', len(answers), 'files')
    proofs = [f for f in glob.glob('crates/*/proofs/**/*.antt', recursive=True) if '/out/' not in f]
    print('   lines: code', sum(t.count('\n') for t in TEXT.values()), ' proofs and answers', sum(open(f).read().count('\n') for f in proofs))


main()
