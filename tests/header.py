"""The C header beside the exports: each `extern "C" fn` of the crate `trelvox` as the prototype that C has to see."""

import re

from contracts import functions

COMMENT = re.compile(r'/\*.*?\*/', re.S)
PROTOTYPE = re.compile(r'^(?:extern )?([a-z][\w *]*?)\s*(\w+)\(([^()]*)\)\s*;', re.M)
SLICE = re.compile(r'&(mut )?\[(\w+)\]')
ARRAY = re.compile(r'&(mut )?\[(\w+); (\d+)\]')
DEFINED = re.compile(r'^#define (\w+) (\d+)$', re.M)
ROW = re.compile(r'^\| `(trelvox_\w+)` \|', re.M)
NUMBERS = {f'{sign}{width}': f'{kind}{width}_t' for sign, kind in (('u', 'uint'), ('i', 'int')) for width in (8, 16, 32, 64)}
NUMBERS |= {'usize': 'size_t', '': 'void'}


def declared(name, kind):
    """A parameter as C has it: a number is itself, a slice a pointer and then a length, so many numbers an array."""
    part, array = SLICE.fullmatch(kind), ARRAY.fullmatch(kind)
    if part is not None:
        return [f'{"" if part[1] else "const "}{NUMBERS[part[2]]} *{name}', f'size_t {name}_length']
    if array is not None:
        return [f'{"" if array[1] else "const "}{NUMBERS[array[2]]} {name}[{array[3]}]']
    return [f'{NUMBERS.get(kind, kind)} {name}']


def exports(root):
    return [function for function in functions(root / 'crates/trelvox') if function.exported]


def wanted(root):
    """The prototypes that are due, in the order of the exports."""
    for function in exports(root):
        words = [word for name, kind in function.parameters for word in declared(name, kind)]
        yield f'{NUMBERS.get(function.result, function.result)} {function.name}({", ".join(words) or "void"});'


def prototypes(root):
    """Those that the header has. A length that is only called so is that of the bytes before it; a name for a count is that count."""
    text = COMMENT.sub(' ', (root / 'include/trelvox.h').read_text())
    for name, count in DEFINED.findall(text):
        text = text.replace(f'[{name}]', f'[{count}]')
    for result, name, parameters in PROTOTYPE.findall(text):
        words = [' '.join(word.split()) for word in parameters.split(',')]
        for i in range(1, len(words)):
            if words[i] == 'size_t length' and '*' in words[i - 1]:
                words[i] = f'size_t {words[i - 1].rpartition("*")[2]}_length'
        yield f'{result} {name}({", ".join(words)});'


def header(root):
    """Prototypes of include/trelvox.h, calls of README's table and calls whose stack is measured that are not those of the exports."""
    due, had = list(wanted(root)), list(prototypes(root))
    for line in due:
        if line not in had:
            yield f'include/trelvox.h: due is {line}'
    for line in had:
        if line not in due:
            yield f'include/trelvox.h: no export is {line}'
    names = [function.name for function in exports(root)]
    for name in names:
        if f' {name}(' not in (root / 'tests/c/stack.c').read_text():
            yield f'tests/c/stack.c: no call of {name}'
    if ROW.findall((root / 'README.md').read_text()) != names:
        yield f'README.md: the table of calls is not {", ".join(names)}'
