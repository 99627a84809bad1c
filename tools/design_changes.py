#!/usr/bin/env python3
"""Writes as Markdown what of docs/DESIGN-PASS.md is old beside new: usage, at the top: tools/design_changes.py COMMIT. It lists the public
functions of the libraries whose signature or clauses changed, those that are methods now, the facts that structs hold, and the definitions of
specs/, by the kit's /opt/rattle/port/contracts.py."""
import json, os, re, subprocess, sys, tempfile

sys.path.insert(0, '/opt/rattle/port')
import contracts

commit = sys.argv[1]

# a function of the commit, and the method that promises it now
METHODS = [
    ('value', 'rate_of', 'Rate', 'of'), ('value', 'value', 'Rate', 'value'), ('value', 'least', 'Rate', 'least'),
    ('value', 'fewest', 'Rate', 'fewest'), ('value', 'most', 'Rate', 'most'), ('value', 'add_value', 'Rate', 'add_value'),
    ('turns', 'next', 'Standing', 'next'), ('turns', 'further_lots', 'Standing', 'further_lots'), ('filling', 'fill_match', 'Supply', 'fill_match'),
    ('matched', 'usable_lots', 'Basket', 'usable_lots'), ('matched', 'fill_next', 'Basket', 'fill_next'),
    ('records', 'write_match', 'Lists', 'add_match'), ('records', 'write_line', 'Lists', 'add_line'),
    ('opening', 'copy_rows', 'Rows', 'copy_to'),
]
MOVED = {('opening', 'copy_rows'): 'rows'}
with tempfile.TemporaryDirectory() as old:
    subprocess.run(f'git archive {commit} | tar -x -C {old}', shell=True, check=True)
    told = json.loads(subprocess.run(['python3', '/opt/rattle/port/contracts.py', old, '.', '--json'], capture_output=True, text=True, check=True).stdout)

    def is_public(name):
        crate, path, function = name.split(' ')[:3]
        if os.path.exists(f'{old}/crates/{crate}/src/main.rt') or not os.path.exists(f'{old}/crates/{crate}/{path}'):
            return False
        return re.search(r'pub (extern "C" )?fn ' + re.escape(function.split('::')[-1]) + r'\b', open(f'{old}/crates/{crate}/{path}', encoding='utf-8').read())

    def line(text):
        return re.sub(r'\s+', ' ', text).replace('( ', '(').replace(', )', ')').replace('|', '\\|')

    def clauses(them):
        return '; '.join((f'{name}: ' if name else '') + line(text) for name, text in them) or 'none'

    print('| Function | | Old | New |\n|---|---|---|---|')
    for name, was, now in told['signatures changed']:
        if is_public(name):
            print(f'| `{name.split(" ")[0]}::{name.split(" ")[2]}` | | `{line(was)}` | `{line(now)}` |')
    for name, asked, given, asks, gives in ((it[0], it[1], it[2], it[3], it[4]) for it in told['contracts changed']):
        if is_public(name):
            where = f'`{name.split(" ")[0]}::{name.split(" ")[2]}`'
            if asked != asks:
                print(f'| {where} | requires | `{clauses(asked)}` | `{clauses(asks)}` |')
            if given != gives:
                print(f'| {where} | ensures | `{clauses(given)}` | `{clauses(gives)}` |')
    _, was_functions, _, _, _, _ = contracts.read(old)
    _, now_functions, now_ghosts, _, _, _ = contracts.read('.')

    def found(functions, crate, place, name):
        there = [x for k, xs in functions.items() if k[0] == crate and k[3] == name and re.sub(r'<.*', '', k[2]).strip() == place for x in xs]
        return there[0] if there else None

    def told_of(f):
        return f'`{line(f["sign"])}`; requires `{clauses([c[1:] for c in f["requires"]])}`; ensures `{clauses([c[1:] for c in f["ensures"]])}`'

    print('\n| Now a method | Old | New |\n|---|---|---|')
    for crate, name, struct, method in METHODS:
        now_crate = MOVED.get((crate, name), crate)
        was, now = found(was_functions, crate, '', name), found(now_functions, now_crate, struct, method)
        if was is None or now is None:
            sys.exit(f'{crate}::{name} or {now_crate}::{struct}::{method} is not there')
        print(f'| `{crate}::{name}`, `{now_crate}::{struct}::{method}` | {told_of(was)} | {told_of(now)} |')
    print('\n| Struct | Its facts |\n|---|---|')
    facts = {}
    for (crate, place, name), texts in sorted(now_ghosts.items()):
        if place != 'const' and not name.startswith(('is_', 'from_')):
            facts.setdefault((crate, re.sub(r'<.*', '', place)), []).append(f'`{name}`: `{line(" ".join(texts).strip("{} "))}`')
    for (crate, struct), them in facts.items():
        print(f'| `{crate}::{struct}` | {"; ".join(them)} |')
    print('\n| Definition | Old | New |\n|---|---|---|')
    for it in told['definitions']['changed']:
        crate, name, was, now = it[0], it[1], it[2], it[3]
        print(f'| `{crate}: {name}` | `{line(" ".join(was))}` | `{line(" ".join(now))}` |')
    print('\nGone: ' + ', '.join(f'`{it[0]}: {it[1]}`' for it in told['definitions']['gone']) + '.')
