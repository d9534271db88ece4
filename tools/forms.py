#!/usr/bin/env python3
"""Counts in src/ the places that docs/DESIGN-PASS.md speaks of, of the files as they stand or of a commit: python3 tools/forms.py [-v] [COMMIT]

Each line is a point, what is counted, and how many lines have it; -v prints the lines too."""
import os
import re
import subprocess
import sys

FORMS = [
    ('1', 'own enums of the shape of Option or Result', r'^\s*(pub )?enum (Value|Found|Walked|Begun|Got|Done|Listed|Opened|Input|Moved|Step)\b'),
    ('1', 'lines that name a variant of one', r'\b(Value|Found|Walked|Begun|Got|Done|Listed|Opened|Input|Moved|Step)::[A-Z]'),
    ('1', 'a flag with a value beside it', r'\b(present|begun|accepted): (bool|u32)\b'),
    ('1', 'numbers for words and stores of a script', r'const [A-Z]+: u32 = 0x[0-9a-f]{6};'),
    ('1', 'tests of such a number', r'(==|!=) Call::[A-Z]+\b'),
    ('1', "numbers for a record's kinds", r'const (BEGIN|ASSIGN|ADD|COMMIT|ABORT): u8'),
    ('1', 'tests of such a number', r'(==|!=|<|<=|>) Record::(BEGIN|ASSIGN|ADD|COMMIT|ABORT)\b|kind, Record::'),
    ('2', 'functions that differ from another in a width, a size or a constant alone',
     r'fn (of_bytes|of_column|of_times|wide8?|counted_from|marked_from|has|has_late|pass|pass_early|keep_few|keep_from|write_any|write|settle_by|settle|read_by|read|value|started|ended|begun|got|done|listed|accepted|report_on|print|run|unchanged)\('),
    ('3', 'loops that count by hand', r'^\s*(let \w+ = )?(while|loop)\b'),
    ('4', 'conversions and defaults by hand', r'fn (or_zero|by|mark|amount|number|place|accepted|begun|got|done|listed|started|ended|moved_by|moved_of|error_of|wide8?|least|new|empty|names_stores)\(|fn new<'),
    ('5', 'clauses that the used records are there', r'requires .*(\* record_size ≤|\b(Records|Inside) )'),
    ('5', 'clauses that a store has its shape', r'requires .*(Shaped h|is_list_shaped h)'),
    ('5', 'clauses that the used versions are there', r'requires .*used ≤ length (keys|times)\.(now|old)'),
    ('5', 'clauses on rows, slots and chains', r'requires .*(Rows keys|Spare |Spans |Rowed s|Aside |Linked |Marks \(take)'),
    ('6', 'parameters that count what stands in a slice beside them', r'\b(count|used|rows|opened|late|m|n): usize'),
    ('7', 'flags that choose a step', r'\b(adds|alone|accepted): bool'),
]


def text(commit):
    """The lines of src/ with their places."""
    if commit:
        names = subprocess.run(['git', 'ls-tree', '-r', '--name-only', commit, 'crates'], capture_output=True, text=True, check=True).stdout.split()
        read = lambda n: subprocess.run(['git', 'show', f'{commit}:{n}'], capture_output=True, text=True, check=True).stdout
    else:
        names = [os.path.join(d, f) for d, _, fs in os.walk('crates') for f in fs]
        read = lambda n: open(n, encoding='utf-8').read()
    for name in sorted(names):
        if re.fullmatch(r'crates/\w+/src/.*\.rt', name):
            for i, line in enumerate(read(name).split('\n'), 1):
                if not line.lstrip().startswith('//'):
                    yield f'{name}:{i}', line


def main():
    args = sys.argv[1:]
    loud = '-v' in args
    commit = next((a for a in args if a != '-v'), None)
    lines = list(text(commit))
    for point, what, form in FORMS:
        met = [(at, line) for at, line in lines if re.search(form, line)]
        print(f'{point}  {len(met):4}  {what}')
        for at, line in met if loud else []:
            print(f'        {at}: {line.strip()}')


main()
