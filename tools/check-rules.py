#!/usr/bin/env python3
"""Has each rule of the language its entry in docs/LANGUAGE.md, with a program that breaks it and one that is nearly the same and breaks none, are both rows of
cases/ with the answers that the entry gives, and does `./chord explain` print the entry?"""

import glob
import os
import re
import subprocess
import sys

TOP = os.path.dirname(os.path.dirname(os.path.realpath(__file__)))
RULES = [f'C{number:02}' for number in range(1, 25)]
ENTRY = re.compile(r'^### (C\d\d) .*\n(?:(?!##).*\n)*', re.MULTILINE)
EXAMPLE = re.compile(r'^    (.*\S)\n\n`refused (C\d\d) 1:(\d+)`\. Accepted:\n\n    (.*\S)\n', re.MULTILINE)
REPEATED = re.compile(r'(\d+)\*\{')
TOKEN = re.compile(r'[A-Za-z_0-9]+|"|[-+*/%!<>=&|]+|[{}();,.:]')


def entries():
    """The text of each entry of the catalogue."""
    with open(f'{TOP}/docs/LANGUAGE.md', encoding='utf-8') as page:
        return {found.group(1): found.group(0).rstrip('\n') + '\n' for found in ENTRY.finditer(page.read())}


def case_answers():
    """What the rows of cases/ with each source say, as they stand there: words, status and what is written."""
    found = {}
    for path in glob.glob(f'{TOP}/cases/*.tsv'):
        with open(path, encoding='utf-8') as table:
            for line in table:
                if line.strip('\n') and not line.startswith('# '):
                    *answer, source = line.rstrip('\n').split('\t')
                    found.setdefault(source, []).append(answer)
    return found


def is_accepted(_, status, written):
    """Whether a row says that its source is accepted."""
    return status in ('0', '4', '6', '8') and not written.startswith('refused ')


def wrong_example(rule, entry, answers):
    """What is wrong with the example of an entry."""
    found = EXAMPLE.search(entry)
    if not found:
        yield f'{rule}: its entry has no example with its line and no near miss'
        return
    broken, named, column, accepted = found.groups()
    if named != rule:
        yield f'{rule}: its example is refused by {named}'
    starts = [token.start() + 1 for token in TOKEN.finditer(broken)]
    if int(column) not in starts:
        yield f'{rule}: no token of its example begins at column {column}'
    refused = f'refused {rule} 1:{column}\\n'
    for source, is_right, meant in ((broken, lambda _, status, written: (status, written) == ('1', refused), 'is refused so'),
                                    (accepted, is_accepted, 'is accepted')):
        own = answers.get(REPEATED.sub(r'\\*\1{', source), [])
        if not own:
            yield f'{rule}: no row of cases/ has the source {source}'
        for answer in own:
            if not is_right(*answer):
                yield f'{rule}: its entry says that {source} {meant}, and a row of cases/ says {answer}'


def explained(rule):
    """What the launcher prints of a rule."""
    return subprocess.run([f'{TOP}/chord', 'explain', rule], stdout=subprocess.PIPE, text=True, check=False).stdout


def main():
    found, answers = entries(), case_answers()
    wrong = [] if list(found) == RULES else [f'the entries are {", ".join(found)}']
    for rule, entry in found.items():
        wrong += wrong_example(rule, entry, answers)
        if explained(rule) != entry:
            wrong.append(f'{rule}: ./chord explain prints another text than its entry')
    if subprocess.run([f'{TOP}/chord', 'explain', 'C25'], stderr=subprocess.PIPE, check=False).returncode == 0:
        wrong.append('./chord explain C25 ends with status 0')
    for line in wrong:
        print(f'rules: {line}', file=sys.stderr)
    return 1 if wrong else 0


if __name__ == '__main__':
    sys.exit(main())
