"""The must-fail edits: how each begins, the public functions that it names, and the index in docs/CAUGHT.md."""

import re

from contracts import functions, libraries
from shared import loaded_tool

caught = loaded_tool('caught')
SENTENCE = re.compile(r'[A-Z0-9].*\.')
LEAST = 2  # edits of a public function


def is_law(crate, name):
    pages = (crate / 'proofs').glob('**/*.antt')
    return any(re.search(rf'^ *pub {re.escape(name)} :', page.read_text(), re.M) for page in pages)


def is_part(crate, name):
    """A function of a program, which has no public ones."""
    sources = (crate / 'src').glob('**/*.rt') if (crate / 'src/main.rt').exists() else ()
    return any(re.search(rf'\bfn {re.escape(name.rpartition("::")[2])}\b', source.read_text()) for source in sources)


def heads(root):
    """Edits that do not begin with a rule and with what they are of, or name what the crate does not have."""
    public = {(crate.name, function.shown) for crate in libraries(root) for function in functions(crate)}
    for edit in caught.edits(root):
        if not SENTENCE.fullmatch(edit.rule):
            yield f'{edit.crate}/{edit.name}: its first two lines are not `# RULE.` and `of: NAME, ..`'
        for name in edit.of:
            crate = root / 'crates' / edit.crate
            if (edit.crate, name) not in public and not is_law(crate, name) and not is_part(crate, name):
                yield f'{edit.crate}/{edit.name}: {name} is neither a public function of {edit.crate} nor a law there'


def twice(root):
    """Public functions that fewer than two edits name."""
    named = [(edit.crate, name) for edit in caught.edits(root) for name in set(edit.of)]
    for crate in libraries(root):
        for function in functions(crate):
            count = named.count((crate.name, function.shown))
            if count < LEAST:
                yield f'{crate.name}: {function.shown} is public and has {count} of {LEAST} edits'


def index(root):
    """Rows of docs/CAUGHT.md that are not what the edits say."""
    had, due = caught.written(root)
    rows = had.partition(caught.BEGIN)[2].splitlines()
    missing = [edit for edit in caught.edits(root) if edit.row not in rows]
    for edit in missing:
        name = f'{edit.crate}/{edit.name}'
        what = 'another row' if any(row.startswith(f'| {name} |') for row in rows) else 'no row'
        yield f'docs/CAUGHT.md: {what} for {name}; tools/caught writes it'
    if had != due and not missing:
        yield 'docs/CAUGHT.md: the index has more than the edits, or stands in another order; tools/caught writes it'
