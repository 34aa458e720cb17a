#!/usr/bin/env python3
"""Is the grammar for editors what tools/highlighting.py makes, and does it give each token of the examples the scope that it should have?"""

import glob
import json
import os
import re
import sys

sys.dont_write_bytecode = True
import highlighting

TOP = os.path.dirname(highlighting.HERE)
# Tokens in their places, and their scopes.
SAMPLE = 'class A : B { public async Put(string s) { int x = -12; if (x <= 1 && true) return; /* new */ this.Put("a\\n\\q" + x); } } // int'
WANTED = [
    ('class', 'storage.type'), (':', 'keyword.operator'), ('{', 'punctuation'), ('public', 'storage.modifier'), ('async', 'storage.modifier'),
    ('Put', 'entity.name.function'), ('(', 'punctuation'), ('string', 'storage.type'), (')', 'punctuation'), ('{', 'punctuation'),
    ('int', 'storage.type'), ('=', 'keyword.operator'), ('-', 'keyword.operator'), ('12', 'constant.numeric'), (';', 'punctuation'),
    ('if', 'keyword.control'), ('(', 'punctuation'), ('<=', 'keyword.operator'), ('1', 'constant.numeric'), ('&&', 'keyword.operator'),
    ('true', 'constant.language'), (')', 'punctuation'), ('return', 'keyword.control'), (';', 'punctuation'), ('/* new */', 'comment.block'),
    ('this', 'variable.language'), ('.', 'punctuation'), ('Put', 'entity.name.function'), ('(', 'punctuation'), ('"a\\n\\q"', 'string.quoted.double'),
    ('+', 'keyword.operator'), (')', 'punctuation'), (';', 'punctuation'), ('}', 'punctuation'), ('}', 'punctuation'), ('// int', 'comment.line.double-slash'),
]


def scoped(patterns, text):
    """The tokens of a text with their scopes, as an editor finds them: at each place the pattern that begins first, of those the first of the list."""
    rules = [(pattern, re.compile(pattern.get('match') or pattern['begin'], re.MULTILINE)) for pattern in patterns]
    place = 0
    while True:
        found = [(hit.start(), order, hit) for order, (_, rule) in enumerate(rules) for hit in [rule.search(text, place)] if hit]
        if not found:
            return
        _, order, hit = min(found)
        pattern, end = rules[order][0], hit.end()
        if 'end' in pattern:
            inner = '|'.join([*(inside['match'] for inside in pattern.get('patterns', [])), f'(?P<end_>{pattern["end"]})'])
            closing = next((it for it in re.finditer(inner, text[end:], re.MULTILINE) if it.group('end_') is not None), None)
            end = end + closing.end() if closing else len(text)
        yield text[hit.start():end], pattern['name'].removesuffix('.chord')
        place = end


def main():
    with open(highlighting.MADE, encoding='utf-8') as file:
        stands = file.read()
    wrong = [] if stands == highlighting.made() else ['tools/editors/chord.tmLanguage.json is not what tools/highlighting.py makes']
    patterns = json.loads(stands)['patterns']
    if list(scoped(patterns, SAMPLE)) != WANTED:
        wrong.append(f'the sample has the scopes {list(scoped(patterns, SAMPLE))}')
    name = re.compile(r'[A-Za-z_][A-Za-z0-9_]*')
    words, _ = highlighting.quoted()
    for path in glob.glob(f'{TOP}/examples/*.cs'):
        with open(path, encoding='utf-8') as file:
            text = file.read()
        rest = text
        for token, _ in scoped(patterns, text):
            rest = rest.replace(token, ' ', 1)
        left = [it for it in rest.split() if not name.fullmatch(it) or it in words]
        if left:
            wrong.append(f'{os.path.relpath(path, TOP)}: {left[:5]} have no scope')
    for line in wrong:
        print(f'highlighting: {line}', file=sys.stderr)
    return 1 if wrong else 0


if __name__ == '__main__':
    sys.exit(main())
