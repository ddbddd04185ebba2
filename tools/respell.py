#!/usr/bin/env python3
"""Brings the repository's own definitions and lemmas to today's spelling, after the kit's port.py: words in snake case.

tools/respell.names has a line for each name: the name as port.py leaves it, and the name from then on. A name that a file takes from a
library of the kit stays in that file. Two lemmas that would fall together with the definition that they speak of have the ending `_lem`
already. Run it once, at the top of the checkout.
"""
import glob
import re

NAMES = dict(line.split() for line in open('tools/respell.names', encoding='utf8'))
TOKEN = re.compile(r'[^\s(){}\[\];,.·λ→×⊎"`+*<>≤=≡≢^|&∷∙!:?/#$%@~⌜⌝∗]+')
# lemmas that had today's spelling already, and the name of the definition that they speak of
LEMMAS = {'parse': {'digits_of': 'digits_of_lem'}, 'text': {'pair_made': 'pair_made_lem'}}


def foreign(text):
    names = set()
    for m in re.finditer(r'^(?:ghost )?use (\S+?)\.\{([^}]*)\}', text, re.M):
        if not m[1].startswith('Rattle.') or m[1].startswith('Rattle.std.'):
            names.update(part.split(' as ')[-1].strip() for part in m[2].split(','))
    return names


def respelled(text, own):
    keep = foreign(text)
    def turn(m):
        name = m[0]
        if name in own:
            return own[name]
        return name if name in keep else NAMES.get(name, name)
    return TOKEN.sub(turn, text)


def prose(text):
    return re.sub(r'`[^`\n]+`', lambda m: respelled(m[0], {}), text)


def main():
    for path in sorted(glob.glob('crates/*/**/*.antt', recursive=True) + glob.glob('crates/*/src/*.rt')):
        with open(path, encoding='utf8') as f:
            text = f.read()
        new = respelled(text, LEMMAS.get(path.split('/')[1], {}))
        if new != text:
            with open(path, 'w', encoding='utf8') as f:
                f.write(new)
    for path in sorted(glob.glob('docs/**/*.md', recursive=True) + ['README.md']):
        with open(path, encoding='utf8') as f:
            text = f.read()
        new = prose(text)
        if new != text:
            with open(path, 'w', encoding='utf8') as f:
                f.write(new)


main()
