#!/usr/bin/env python3
"""Makes the grammar by which editors highlight a source, in TextMate's form, from the quoted words of tools/grammar.txt.

    tools/highlighting.py       writes tools/editors/chord.tmLanguage.json
"""

import json
import os
import re
import sys

HERE = os.path.dirname(os.path.realpath(__file__))
MADE = f'{HERE}/editors/chord.tmLanguage.json'
QUOTED = re.compile(r'"([^"]+)"')

# The scope of each word of the grammar, by TextMate's conventions.
SCOPES = {
    'storage.modifier': 'public private protected virtual override static async',
    'storage.type': 'class void int bool string',
    'keyword.control': 'if else while return',
    'keyword.other': 'using',
    'keyword.operator.new': 'new',
    'variable.language': 'this',
    'constant.language': 'true false',
}
# What is no word of the grammar: comments, texts with their escapes, numbers, and a name before an opening parenthesis.
PATTERNS = [
    {'name': 'comment.line.double-slash', 'match': r'//[^\r\n]*'},
    {'name': 'comment.block', 'begin': r'/\*', 'end': r'\*/'},
    {
        'name': 'string.quoted.double',
        'begin': '"',
        'end': r'"|$',
        'patterns': [{'name': 'constant.character.escape', 'match': r'\\["\\ntr]'}, {'name': 'invalid.illegal', 'match': r'\\.'}],
    },
    {'name': 'constant.numeric', 'match': r'\b[0-9]+\b'},
]
CALL = {'name': 'entity.name.function', 'match': r'\b[A-Za-z_][A-Za-z0-9_]*(?=\s*\()'}


def quoted():
    """The words and the marks that the grammar quotes, each once, in its order."""
    with open(f'{HERE}/grammar.txt', encoding='utf-8') as grammar:
        found = dict.fromkeys(token for line in grammar if line.startswith('--') for token in QUOTED.findall(line))
    return [token for token in found if token.isalpha()], [token for token in found if not token.isalpha()]


def made():
    """The text of the grammar for editors."""
    words, marks = quoted()
    scoped = {word: scope for scope, of_scope in SCOPES.items() for word in of_scope.split()}
    if set(words) != set(scoped):
        raise SystemExit(f'highlighting: the words {sorted(set(words) ^ set(scoped))} stand in one of tools/grammar.txt and SCOPES alone')
    by_scope = [{'name': scope, 'match': rf'\b({"|".join(of_scope.split())})\b'} for scope, of_scope in SCOPES.items()]
    operators = sorted((mark for mark in marks if mark not in '(){};,.'), key=len, reverse=True)
    punctuation = [mark for mark in marks if mark in '(){};,.']
    by_mark = [
        {'name': 'keyword.operator', 'match': '|'.join(map(re.escape, operators))},
        {'name': 'punctuation', 'match': '|'.join(map(re.escape, punctuation))},
    ]
    whole = {
        'comment': 'Made by tools/highlighting.py from tools/grammar.txt.',
        'name': 'chord',
        'scopeName': 'source.chord',
        'fileTypes': ['cs'],
        'patterns': [{**pattern, 'name': f'{pattern["name"]}.chord'} for pattern in [*PATTERNS, *by_scope, CALL, *by_mark]],
    }
    return json.dumps(whole, indent=2, ensure_ascii=False) + '\n'


def main():
    os.makedirs(os.path.dirname(MADE), exist_ok=True)
    with open(MADE, 'w', encoding='utf-8') as file:
        file.write(made())
    return 0


if __name__ == '__main__':
    sys.exit(main())
