#!/usr/bin/env python3
"""Brings the names of this repository's definitions and lemmas to the spelling of today's Rattle, after the script that comes
with it: words in snake case, a dash only between the names of two functions. Usage: respell.py, at the top of the repository.
Functions of src/, strings, inputs and outputs keep their names. A second run changes nothing."""
import glob
import re
import sys

WORD = r"[A-Za-zℕ_][A-Za-z0-9_'ℕ]*(?:-[A-Za-z0-9_'ℕ]+)*"
TOKEN = re.compile(WORD)
CAMEL = re.compile(r'[a-z][a-z0-9_]*[A-Z]')
# also inside a module of a file, where lines are indented
DECLARED = re.compile(r'^(?:  )?(?:abbrev |unfoldable )?(?:pub )?(?:record |data )?(' + WORD + r')(?: [^:=\n]*)? :(?!\s*goal\.)', re.M)
# what Rattle makes from the code
GENERATED = re.compile(r'^(invariant|decreases|returns|loop|overflow|unreachable)-|-requires')
# lemmas named by two functions
DASHED = {
    'bytesOf-little', 'length-bytesOf', 'little-bytesOf', 'count-push', 'total-set', 'largest-floor', 'facts-opened', 'acted-facts',
    'cut-facts', 'entered-facts', 'kept-facts', 'bound-cut', 'bound-drained', 'bound-drainedBy', 'bound-entered', 'bound-fenced',
    'bound-kept', 'bound-step', 'bytes_of-little', 'length-bytes_of', 'little-bytes_of', 'bound-drained_by',
}
# names that would fall together with another
CHOSEN = {
    'operationOf': 'operation_for', 'in-line': 'lies_in_line', 'little-at': 'little_at_place', 'value-at': 'value_beyond',
    'message-of': 'message_is', 'in-range': 'is_in_range',
}


def antt():
    return sorted(glob.glob('crates/*/specs/**/*.antt', recursive=True) + glob.glob('crates/*/proofs/**/*.antt', recursive=True))


def rust():
    return sorted(glob.glob('crates/*/src/**/*.rt', recursive=True))


def snake(word):
    return re.sub(r'(?<=[a-z0-9])[A-Z]', lambda m: '_' + m.group().lower(), word) if CAMEL.match(word) else word


def renamed(name):
    joint = '-' if name in DASHED else '_'
    return CHOSEN.get(name) or joint.join(snake(part) for part in name.split('-'))


def table_of(texts):
    tokens = {t for f in antt() for t in TOKEN.findall(texts[f])}
    declared = {n for f in antt() for n in DECLARED.findall(texts[f]) if not GENERATED.search(n)}
    # fields and local names in the older case go along
    declared |= {t for t in tokens if CAMEL.match(t) and '-' not in t and not t.startswith('cases_')}
    table = {n: renamed(n) for n in declared if renamed(n) != n}
    clashes = [(a, b) for a, b in table.items() if b in tokens or list(table.values()).count(b) > 1]
    if clashes:
        sys.exit(f'names that fall together: {clashes}')
    return table


def main():
    texts = {f: open(f, encoding='utf-8').read() for f in antt() + rust()}
    table = table_of(texts)
    for f, text in texts.items():
        def turn(m):
            name = m.group()
            behind_dot = m.start() > 0 and text[m.start() - 1] == '.'
            if name not in table or ('-' in name and (behind_dot or f.endswith('.rt'))):
                return name
            return table[name]
        new = TOKEN.sub(turn, text)
        if new != text:
            open(f, 'w', encoding='utf-8').write(new)
    for a, b in sorted(table.items()):
        print(f'{a} -> {b}')


if __name__ == '__main__':
    main()
