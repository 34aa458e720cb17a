"""Programs at each limit of the rule C04 and just past it, as cases: too long for a table."""

PLACE = '@'
MAIN = 'class P { static void Main() { } }\n'


def numbered(count, one):
    """So many pieces, of which the last is marked as the one that passes a limit."""
    return ''.join(one(number, PLACE if number == count - 1 else '') for number in range(count))


def classes(count):
    return MAIN + numbered(count - 1, lambda i, place: f'class {place}C{i} {{ }}\n')


def classes_above(count):
    return 'class C0 { }\n' + numbered(count, lambda i, place: f'class C{i + 1} : {place}C{i} {{ }}\n') + MAIN


def methods(count):
    return 'class A {\n' + numbered(count, lambda i, place: f'  async {place}m{i}() {{ }}\n') + '}\n' + MAIN


def methods_with_inherited(count):
    base = ''.join(f'async b{i}() {{ }} ' for i in range(10))
    return f'class A {{ {base} }}\nclass B : A {{\n' + numbered(count - 10, lambda i, place: f'  async {place}m{i}() {{ }}\n') + '}\n' + MAIN


def headers(count):
    return 'class A {\n  ' + numbered(count, lambda i, place: f'{"& " if i else ""}async {place}m{i}() ') + '{ }\n}\n' + MAIN


def parameters(count):
    return 'class A { async m(' + numbered(count, lambda i, place: f'{", " if i else ""}int {place}p{i}') + ') { } }\n' + MAIN


def constructor_parameters(count):
    return 'class A { public A(' + numbered(count, lambda i, place: f'{", " if i else ""}int {place}p{i}') + ') { } }\n' + MAIN


def chords(count):
    return 'class A { ' + 'async a() { } ' * 200 + '}\nclass B : A {\n' + numbered(count - 200, lambda i, place: f'  async {place}b() {{ }}\n') + '}\n' + MAIN


def locals_(count):
    return 'class A { async m() {\n' + numbered(count, lambda i, place: f'  int {place}v{i} = 0;\n') + '} }\n' + MAIN


def beside_main(count):
    """`Main` is no method, and its chord is none that counts."""
    return 'class P {\n  static void Main() { }\n' + numbered(count, lambda i, place: f'  async {place}m{i % 16}() {{ }}\n') + '}\n'


LIMITS = [(classes, 1024), (classes_above, 16), (methods, 16), (methods_with_inherited, 16), (headers, 8), (parameters, 8), (constructor_parameters, 8), (chords, 256),
          (locals_, 256), (beside_main, 256)]


def cases():
    """Each limit twice: the program at it is accepted and prints nothing, the one past it is refused at the first name past it."""
    for made, limit in LIMITS:
        place = f'tools/limits.py, {made.__name__}'
        yield f'{place}({limit})', ['run', '--one'], 0, b'', made(limit).replace(PLACE, '').encode()
        before = made(limit + 1).split(PLACE)[0]
        line, column = before.count('\n') + 1, len(before) - before.rfind('\n')
        yield f'{place}({limit + 1})', ['run', '--one'], 1, f'refused C04 {line}:{column}\n'.encode(), made(limit + 1).replace(PLACE, '').encode()
