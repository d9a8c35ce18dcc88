#!/usr/bin/env python3
"""Lists the places in src/ that docs/DESIGN-PASS.md counts, point by point: python3 tools/places.py [--at FOLDER] [POINT..]"""
import re
import sys
from collections import defaultdict
from pathlib import Path

ROOT = Path(__file__).resolve().parent.parent
if sys.argv[1:2] == ['--at']:
    ROOT = Path(sys.argv[2]).resolve()
    del sys.argv[1:3]
FILES = sorted(ROOT.glob('crates/*/src/**/*.rt'))
NAME = r'[A-Za-z_][A-Za-z_0-9]*'


def code(line):
    return line.split('//')[0]


def lines():
    for path in FILES:
        for n, line in enumerate(path.read_text().splitlines(), 1):
            if not line.startswith('ghost use') and code(line).strip():
                yield path.relative_to(ROOT / 'crates'), n, code(line)


def grep(*patterns):
    found = []
    for path, n, line in lines():
        if any(re.search(p, line) for p in patterns):
            found.append(f'{path}:{n}: {line.strip()}')
    return found


def functions():
    """Each function: its file, line, name, parameters, contract and body."""
    for path in FILES:
        text = '\n'.join(code(line) for line in path.read_text().splitlines())
        for m in re.finditer(r'\bfn (' + NAME + r')(?:<[^>(]*>)?\(', text):
            depth, i = 1, m.end()
            while depth:
                depth += {'(': 1, ')': -1}.get(text[i], 0)
                i += 1
            params = text[m.end():i - 1]
            head = re.compile(r'\s*(?:->[^{;]*?)?(?=\n\s*(?:requires|ensures)|\s*[{;])', re.S).match(text, i)
            j = head.end() if head else i
            clauses = []
            clause = re.compile(r'\s*(requires|ensures\*?)(?: ' + NAME + r')? \{', re.S)
            while (c := clause.match(text, j)):
                j, depth = c.end(), 1
                start = j
                while depth:
                    depth += {'{': 1, '}': -1}.get(text[j], 0)
                    j += 1
                clauses.append((c.group(1), text[start:j - 1].strip()))
            body = ''
            if (b := re.compile(r'[^{;]*?\{', re.S).match(text, j)):
                k, depth = b.end(), 1
                while depth:
                    depth += {'{': 1, '}': -1}.get(text[k], 0)
                    k += 1
                body = text[b.end():k - 1]
            line = text.count('\n', 0, m.start()) + 1
            yield path.relative_to(ROOT / 'crates'), line, m.group(1), params, clauses, body


def option_shapes():
    """Enums of two cases, of which one or both hold one value and the other nothing."""
    found = []
    for path in FILES:
        text = '\n'.join(code(line) for line in path.read_text().splitlines())
        for m in re.finditer(r'\benum (' + NAME + r')[^{]*\{([^}]*)\}', text):
            cases = [c.strip() for c in m.group(2).split(',') if c.strip()]
            held = [c for c in cases if re.fullmatch(NAME + r'\([^(),]*\)', c)]
            if len(cases) == 2 and held:
                found.append(f'{path.relative_to(ROOT / "crates")}:{text.count(chr(10), 0, m.start()) + 1}: enum {m.group(1)}')
    return found


def own_options():
    """1: enums of the shape of Option or Result, matches that only carry a value over, numbers for none, for forms and for groups, refusals by a bool or an Option."""
    found = option_shapes()
    found += grep(r'\b(Ok|Some)\((\w*|\(\))\) => (Ok|Some)\(', r'\bErr\(_\) => (Err|\w+::)', r'\bNone => (None|Err\b)', r'\bNone => return Err\b')
    found += grep(r'\bconst NO_[A-Z]+\b', r'(=>|\?|\{|\() *NO_[A-Z]+\b|push\(NO_|unwrap_or\(NO_')
    found += grep(r'\bform: u8\b', r'\bgroup: u8\b', r'\bform [=!]= \d', r'fn group\(self\) -> u8', r'\.number\(\) [=!]= \d')
    found += grep(r'-> Option<\w*Fault>', r'&mut self.*-> bool', r'&mut \w+.*-> bool')
    return found


def shape(body):
    """The body with its names numbered in the order in which they come, and every literal the same."""
    numbers, out = {}, []
    for token in re.findall(NAME + r'|\d[\d_a-z]*|"[^"]*"|\'[^\']*\'|[^\s\w]', body):
        if re.fullmatch(NAME, token) and token not in ('if', 'else', 'match', 'for', 'in', 'while', 'let', 'return', 'self', 'mut', 'as', 'true', 'false', 'Some', 'None', 'Ok', 'Err', 'Result', 'Option'):
            token = 'n%d' % numbers.setdefault(token, len(numbers))
        elif re.match(r'[\d"\']', token):
            token = '#'
        out.append(token)
    return out


def twins():
    """2: functions of one shape, up to names and literals, of 12 tokens or more; implementations that hand every method on; constants of one value."""
    groups = defaultdict(list)
    for path, line, name, _, _, body in functions():
        s = shape(body)
        if len(s) >= 12:
            groups[' '.join(s)].append(f'{path}:{line}: fn {name}')
    found = []
    for same in sorted(groups.values()):
        if len(same) > 1:
            found += [f'{len(same)} of one shape: ' + '; '.join(same)]
    handing = defaultdict(int)
    for path, _, name, _, _, body in functions():
        if re.fullmatch(r'\s*self\.\w+\.' + name + r'\([^()]*\)\s*', body):
            handing[path] += 1
    found += [f'{path}: {n} methods that hand on' for path, n in sorted(handing.items()) if n > 2]
    constants = defaultdict(list)
    for path, n, line in lines():
        if (m := re.match(r'\s*(?:pub(?:\(crate\))? )?const (\w+): \w+ = (0x\w+|[\d_]+);', line)):
            constants[m.group(1)].append(f'{path}:{n}')
            if not m.group(1).startswith('MOST'):
                constants['value ' + m.group(2).replace('_', '')].append(f'{path}:{n}')
    found += [f'const {name}: ' + '; '.join(at) for name, at in sorted(constants.items()) if len(at) > 1]
    return found


def loops():
    """3: loops over a range of numbers or by a count, and loops that only search or copy."""
    found = []
    for path in FILES:
        text = path.read_text().splitlines()
        for n, line in enumerate(text, 1):
            if re.match(r'\s*for .* in .*\.\.|\s*while \w+(\.\w+)* [<!]', code(line)):
                found.append(f'{path.relative_to(ROOT / "crates")}:{n}: {line.strip()}')
            elif re.match(r'\s*for ', code(line)) and any(re.match(r'\s*(return |\*\w+ = )', code(l)) for l in text[n:n + 3]):
                found.append(f'{path.relative_to(ROOT / "crates")}:{n}: {line.strip()}')
    return found


def by_hand():
    """4: conversions, comparisons, copies and printing by hand."""
    found = grep(r'same_word\((?!one: )', r'1 <= \w+|\w+ >= 1 &&', r'\bpub fn of\(\w+: u\d+\)', r'fn kind_of\(|fn run_word\(',
                 r'256 \*|% 256|/ 256', r'matches!\(b as char', r'\*place = ', r'-> &.static str', r'\[i\] [=!]= \w+\[i\]')
    for path, line, name, _, _, body in functions():
        if re.search(r'-> bool', (ROOT / 'crates' / path).read_text().splitlines()[line - 1]) and re.search(r'\bif \w+\.len\(\) != \w+\.len\(\)', body):
            found.append(f'{path}:{line}: fn {name} compares by hand')
    return found


def together():
    """5: facts in the contracts of three or more functions; parameters that travel together through four or more."""
    facts, pairs = defaultdict(set), defaultdict(set)
    for path, line, name, params, clauses, _ in functions():
        crate = path.parts[0]
        for kind, text in clauses:
            if kind == 'requires' or '→' in text:
                for part in re.split(r'\) × \(|→', text):
                    part = part.strip(' ()')
                    if re.search(r'[≡<≤]', part) and 'result' not in part and len(part) < 60:
                        facts[crate, part].add(f'{name}')
                    elif kind == 'ensures' and re.match(r'\w+ \w+(\.\w+)* ', part) and 'result' not in part and 'λ' not in part and len(part) < 60:
                        facts[crate, part].add(f'{name}')
        names = [p.split(':')[0].strip().removeprefix('mut ') + ':' + p.split(':', 1)[1].strip() for p in re.split(r',(?![^<(]*[>)])', params) if ':' in p]
        for i, one in enumerate(names):
            for two in names[i + 1:]:
                pairs[crate, one, two].add(name)
    found = [f'{c}: fact {f}: {len(at)}: ' + ', '.join(sorted(at)) for (c, f), at in sorted(facts.items()) if len(at) > 2]
    found += [f'{c}: parameters {a}, {b}: {len(at)}: ' + ', '.join(sorted(at)) for (c, a, b), at in sorted(pairs.items()) if len(at) > 3]
    return found


def buffers():
    """6: fields that are vectors, arrays or indices, and arithmetic on places."""
    return grep(r'^\s+(pub(\(crate\))? )?\w+: \[.*; \w+\],', r'u16, u16\)', r'\w\[[^\]]* \* [^\]]*\]', r'^\s+(rules|changes|moves|rows|going): Vec<', r': u64\b')


def switches():
    """7: closures that are taken, tables of tests or functions, matches on a kind that choose a step."""
    return grep(r'\bFn(Once|Mut)?\(', r'\bdyn ', r'\bfn\(', r'&\[\(usize, bool\)\]|first_bad\(&\[')


POINTS = [own_options, twins, loops, by_hand, together, buffers, switches]


def answers():
    """8: answers and lemmas of proofs, by crate."""
    found = []
    for crate in sorted((ROOT / 'crates').iterdir()):
        texts = [p.read_text() for p in sorted(crate.glob('proofs/**/*.antt'))]
        if texts:
            given = sum(len(re.findall(r'^[A-Za-z_][\w\-]* (?:[a-z_] )*=', t, re.M)) for t in texts)
            size = sum(len(t.splitlines()) for t in texts)
            found.append(f'{crate.name}: {size} lines, {given} definitions and answers')
    return found


def main():
    wanted = [int(a) for a in sys.argv[1:]] or range(1, 9)
    for point in wanted:
        f = (POINTS + [answers])[point - 1]
        found = f()
        print(f'== {f.__doc__} {len(found)} lines')
        for line in found:
            print('  ' + line)


main()
