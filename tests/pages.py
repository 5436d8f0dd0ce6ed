"""What pages and header say that the code does not have, and the other way round. Each check is a function from a root folder to
complaints; tests/docs runs them all, and tests/faults sees that each can complain."""

import re

from contracts import contracts, functions, laws, libraries
from edits import heads, index, twice
from header import header
from shared import loaded_tool

EDIT = re.compile(r'\| (\w+/\w+) \|')
FILE = re.compile(r'`([\w./-]+/[\w.-]+\.\w+)`')
CRATE = re.compile(r'^(\w+)(?: staticlib)?:', re.M)
DEFINED = re.compile(r'((?:`\w+`,? )+)\((\w+)\)')
OF_MACHINE = re.compile(r"""\b(?:gcc|g\+\+|clang|qemu|valgrind)|(?<!machine )(?<!MACHINE, ')\bcc\b|\$\{?CC\b""")


def missing_edits(root):
    """Edits that docs/CAUGHT.md names and no crate has."""
    for edit in EDIT.findall((root / 'docs/CAUGHT.md').read_text()):
        crate, name = edit.split('/')
        if not (root / 'crates' / crate / 'must-fail' / f'{name}.edit').exists():
            yield f'docs/CAUGHT.md: no edit {edit}'


def is_there(root, name):
    """A file by its path from the root, from crates/ or from some crate; what is built is not looked for."""
    places = [root, root / 'crates', *(root / 'crates').iterdir()]
    return '/out/' in name or any((place / name).exists() for place in places)


def missing_files(root):
    """Files that a page names and that are not there."""
    for page in [root / 'README.md', *sorted((root / 'docs').glob('**/*.md'))]:
        for name in FILE.findall(page.read_text()):
            if not is_there(root, name) and 'CRATE' not in name:
                yield f'{page.name}: no file {name}'


def unlisted(root):
    """Public functions that the crate's rows in docs/ONE-ANSWER.md do not name. Those of `trelvox` are in README's table, which `header`
    looks at."""
    lines = (root / 'docs/ONE-ANSWER.md').read_text().splitlines()
    for crate in libraries(root):
        text = '\n'.join(line for line in lines if line.startswith(f'| {crate.name} |'))
        for function in functions(crate):
            if crate.name != 'trelvox' and not re.search(rf'`(?:\w+::)?{function.name}`', text):
                yield f'docs/ONE-ANSWER.md: no {crate.name}::{function.name}'


def unmapped(root):
    """Crates that the pages of architecture, trust and performance do not name."""
    for page in ('ARCHITECTURE', 'TRUST', 'PERFORMANCE'):
        words = set(re.findall(r'\w+', (root / f'docs/{page}.md').read_text()))
        for crate in CRATE.findall((root / 'crates.txt').read_text()):
            if crate not in words:
                yield f'docs/{page}.md: no crate {crate}'


def undefined(root):
    """Definitions that docs/PROMISES.md has in a crate whose specs/ do not have them."""
    for names, crate in DEFINED.findall((root / 'docs/PROMISES.md').read_text()):
        specs = '\n'.join(page.read_text() for page in (root / 'crates' / crate / 'specs').glob('*.antt'))
        for name in re.findall(r'\w+', names):
            if not re.search(rf'^(?:unfoldable |abbrev )?pub (?:data |record )?{name} ', specs, re.M):
                yield f'docs/PROMISES.md: no definition {name} in {crate}'


def scripts(root):
    """The project's own scripts, whatever they are written in."""
    for folder in ('.ci', 'measure', 'tests', 'tools'):
        for file in sorted((root / folder).iterdir()):
            if file.suffix in ('', '.py') and file.is_file():
                yield file


def knowing(root):
    """Scripts that name a compiler, an emulator or a counter, though tools/machine is there to be asked."""
    for script in scripts(root):
        for number, line in enumerate(script.read_text().splitlines(), 1):
            if script.name != 'machine' and OF_MACHINE.search(line) and not line.startswith('OF_MACHINE'):
                yield f'{script.relative_to(root)}: line {number} names what only tools/machine knows: {line.strip()}'


def rows(root):
    """The cells of README's tables."""
    return [[cell.strip() for cell in line.strip('|').split('|')]
            for line in (root / 'README.md').read_text().splitlines() if line.startswith('|')]


def unexplained(root):
    """Words of tools/bench that are not README's."""
    tool, cells = loaded_tool('bench', root), rows(root)
    for number, words in tool.REFUSALS.items():
        if not any(row[0] == number and words in row[1] for row in cells):
            yield f'README.md: number {number} is not "{words}", as tools/bench has it'
    for code, (name, _, pointer) in tool.COMMANDS.items():
        goes_to = tool.REGISTERS.get(pointer, 'as set')
        if not any(re.match(f'`{code}[ `]', row[0]) and re.match(f'{name}[:,]', row[1]) and row[2:] == [goes_to] for row in cells):
            yield f'README.md: command {code} is not {name} that leads to {goes_to}, as tools/bench has it'


CHECKS = (contracts, laws, header, heads, twice, index, missing_edits, missing_files, unlisted, unmapped, undefined, knowing, unexplained)


def complaints(root):
    """What all checks have to say of the project in this folder."""
    return [line for check in CHECKS for line in check(root)]
