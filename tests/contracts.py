"""The public functions of the libraries and those of their traits, as their sources have them, with their contracts and their laws of one
answer."""

import re
from typing import NamedTuple

PASSED_OVER = re.compile(r'''//[^\n]*|/\*.*?\*/|b"(?:\\.|[^"\\])*"|b'(?:\\.|[^'\\])\'''', re.S)
PUBLIC = re.compile(r'\bpub\s+(?:\w+\s+|"C"\s+)*fn\s+(\w+)')
HEAD = re.compile(r"(?:<[^>]*>)?\s*\(([^()]*)\)\s*(?:->\s*(.+?)\s*)?(?=\b(?:requires|ensures|ghost)\b|\{)", re.S)
IMPL = re.compile(r"\bimpl\b(?:<[^>]*>)?\s*(\w+)[^{]*\{")
OF_TRAIT = re.compile(r"\bimpl\b(?:<[^>]*>)?\s+(?:\w+::)*(\w+)(?:<([^{}]*)>)?\s+for\s+(?:\w+::)*(\w+)[^{]*\{")
TRAIT = re.compile(r"\b(pub\s+)?trait\s+(\w+)[^{]*\{")
ANY = re.compile(r"\bfn\s+(\w+)")

LAW = re.compile(r'^ *pub (one_\w+) :(.*?)^ *\1 ', re.M | re.S)
USE = re.compile(r'^use Rattle\.(\w+)\.(?:proofs|specs\.contracts)\.(\S+) as (\S+)$', re.M)
FORM = re.compile(r'^ *(?:abbrev |unfoldable )?(?:pub )?(One\w*) :', re.M)
SHARED = re.compile(r'^use Rattle\.\w+\.proofs\.Unique\.\{(\w+(?:, \w+)*)\}$', re.M)
BROUGHT = re.compile(r'^use .*\bOne[A-Z].*$', re.M)
MODULE = re.compile(r'^ *module\b.*$', re.M)

# The one module that a law may stand in: it has every model of the program logic as its parameter, and no premise.
EVERY_MODEL = 'module _ {M : Type 1} {𝓤 : Ura M} (𝓛 : Logic 𝓤) (mem : Memory → SProp 𝓤) (run : Routine → Fun 𝓤) where'


# A law of a generic function begins with the types and constants of the call. Their own types are left to the contract that takes them.
GENERIC = re.compile(r'((?:\(\w+ : _\) )+)→ (.*)')


class Function(NamedTuple):
    """A public function, or one of a trait: its crate, the type or module that it is in, if any, and its name; its text, up to the next
    function; its parameters as (name, type), and the type of its result. One of a trait is in what a check calls the `impl`, as
    LineSlotBySlot; what the trait asks and promises is part of its text; and a trait's own argument stands in the name of its law."""

    crate: str
    within: str
    name: str
    text: str
    parameters: tuple
    result: str
    argument: str = ''

    @property
    def path(self):
        return f'{self.within}.{self.name}' if self.within else self.name

    @property
    def shown(self):
        return self.path.replace('.', '::')

    @property
    def law(self):
        """The name of its law: a C name stands there without the crate's name before it."""
        name = self.name.removeprefix(f'{self.crate}_' if self.crate == 'trelvox' else '')
        return '_'.join(filter(None, ('one', name, self.argument)))

    @property
    def law_of_type(self):
        """The name of its law where a function of the crate has the method's name."""
        return f'one_{self.within.lower()}_{self.name}'

    @property
    def generic(self):
        """It has parameters besides lifetimes, of types or constants."""
        named = re.match(r'.*?\bfn\s+\w+\s*<([^>]*)>', self.text, re.S)
        return named is not None and any(not word.strip().startswith("'") for word in named[1].split(','))

    @property
    def exported(self):
        return ' extern "C" ' in self.text.partition('(')[0]

    def has(self, clause):
        return re.search(rf'\b{clause}\b', self.text) is not None


def libraries(root):
    """The crates that are no programs; some have laws alone and no functions."""
    return [crate for crate in sorted((root / 'crates').iterdir()) if (crate / 'src/lib.rt').exists()]


# ---- functions


def closed(text, begin):
    """Where the block ends whose content begins here."""
    depth, end = 1, begin
    while depth and end < len(text):
        depth += {'{': 1, '}': -1}.get(text[end], 0)
        end += 1
    return end


def impls(text):
    """Each `impl` with its type, where it begins and where it ends."""
    for found in IMPL.finditer(text):
        yield found[1], found.start(), closed(text, found.end())


def parameters_of(text):
    """'address: u32, data: &[u8]' as names and types; `self` is a parameter too."""
    for word in filter(None, map(str.strip, text.split(','))):
        name, _, kind = word.partition(':')
        yield name.removeprefix('mut ').strip(), ' '.join(kind.split())


def trait_in(root, name):
    """A trait of the libraries: whether it is public, and its text; none where it is std's."""
    for crate in libraries(root):
        for source in (crate / 'src').glob('**/*.rt'):
            text = source.read_text()
            text = PASSED_OVER.sub(' ', text) if f'trait {name}' in text else ''
            for found in TRAIT.finditer(text):
                if found[2] == name:
                    return bool(found[1]), text[found.end():closed(text, found.end())]
    return None


def said(trait, ghosts, name):
    """What a trait asks and promises of its function of this name. From gives what the `impl` says by `from_gives`."""
    if trait is None:
        return ghosts.replace('from_gives', 'ensures')
    found = re.search(rf'\bfn\s+{name}\b.*?(?=\bfn\b|$)', trait[1], re.S)
    return found[0] if found else ''


def of_traits(crate, text):
    """The functions of traits, as the crate's types have them; those of a trait that is not public are left out."""
    for found in OF_TRAIT.finditer(text):
        name, argument, kind = found[1], re.findall(r'[A-Za-z0-9]+', found[2] or ''), found[3]
        trait = trait_in(crate.parent.parent, name)
        block = text[found.end():closed(text, found.end())]
        own = list(ANY.finditer(block)) if trait is None or trait[0] else []
        for function in own:
            rest = re.split(r'\bfn\b', block[function.end():], maxsplit=1)[0]
            head = HEAD.match(rest)
            within = kind + name + ''.join(word[0].upper() + word[1:] for word in argument)
            stated = said(trait, block[:own[0].start()], function[1])
            yield Function(crate.name, within, function[1], f'{function[0]}{rest} {stated}', tuple(parameters_of(head[1])),
                           ' '.join((head[2] or '').split()), '_'.join(argument).lower())


def functions(crate):
    """The public functions of a crate and those of traits, in the order of its sources."""
    found = []
    for source in sorted((crate / 'src').glob('**/*.rt')):
        text = PASSED_OVER.sub(' ', source.read_text())
        found += of_traits(crate, text)
        blocks = list(impls(text))
        for public in PUBLIC.finditer(text):
            module = '' if source.stem == 'lib' else source.stem
            within = next((kind for kind, begin, end in blocks if begin < public.start() < end), module)
            rest = re.split(r'\bfn\b', text[public.end():], maxsplit=1)[0]
            head = HEAD.match(rest)
            parameters, result = tuple(parameters_of(head[1])), ' '.join((head[2] or '').split())
            found.append(Function(crate.name, within, public[1], public[0] + rest, parameters, result))
    return found


def contracts(root):
    """Public functions that ask something of their caller, or that promise nothing."""
    for crate in libraries(root):
        for function in functions(crate):
            if function.has('requires'):
                yield f'{crate.name}: {function.shown} is public and has a `requires`'
            if not function.has('ensures'):
                yield f'{crate.name}: {function.shown} is public and has no `ensures`'


# ---- laws


def due(function):
    """The statements that a law of this function may have, as pairs of a name and a pattern; {} stands for the function's contract.

    What it gives back is the result, or of a reference the place and the content; every lent buffer comes beside it. A function may have its
    contract as clauses of the program logic.
    """
    lent = [i for i, (_, kind) in enumerate(function.parameters) if re.match(r"&(?:'\w+ )?mut\b", kind)]
    contents = [f's{".1" * i}.0.now' for i in lent]
    if function.result.startswith('&'):
        return [('.Reads', r'OneSeen (?:\{C = [^{}]*\} )?' + re.escape('{}.Post (λ κ x. (x.ref_ptr, x.now))'))]
    if lent:
        seen = contents[0] if len(lent) == 1 else f'({", ".join(contents)})'
        return [('.Reads', re.escape('OneAnswerAnd {}.Post (λ κ s. ' + seen + ')'))]
    return [('.Reads', re.escape('OneAnswer {}.Post')), ('', re.escape('OneEnsured 𝓤 {}.ended ({}.clauses 𝓛 mem run)'))]


def instance(function, statement):
    """What the law of a generic function says of each instance, its contract without the instance's types and constants, in their order;
    the statement itself of any other function."""
    found = GENERIC.fullmatch(statement) if function.generic else None
    if not found:
        return statement
    named = re.findall(r'\((\w+) : _\)', found[1])
    if len(set(named)) < len(named):
        return statement
    taken = ' '.join(named)
    return re.sub(rf'\((\w+\.Post) {taken}\)', r'\1', found[2], count=1)


def is_due(function, statement, names):
    """The statement is one that is due, over this very function's contract."""
    statement = instance(function, statement)
    for part, pattern in due(function):
        for name, path in names:
            if path == (function.crate, function.path + part):
                if re.fullmatch(pattern.replace(re.escape('{}'), re.escape(name)), statement):
                    return True
    return False


def misnamed(crate, text):
    """Names that could make a law say something else: of a contract twice over, of a form of its own, of a premise."""
    names = [name for _, _, name in USE.findall(text)]
    for name in sorted({name for name in names if names.count(name) > 1}):
        yield f'{crate.name}: {name} stands for two contracts in proofs/Unique.antt'
    for line in MODULE.findall(text):
        if line.strip() != EVERY_MODEL:
            yield f'{crate.name}: a module of proofs/Unique.antt is not that of every model: {line.strip()}'
    for line in BROUGHT.findall(text):
        if not SHARED.match(line):
            yield f'{crate.name}: no form of law comes from there: {line}'
    known = {form for forms in SHARED.findall(text) for form in forms.split(', ')} | set(FORM.findall(text))
    stated = [' '.join(statement.split()) for _, statement in LAW.findall(text)]
    for form in sorted({GENERIC.sub(r'\2', statement).split()[0] for statement in stated} - known):
        yield f'{crate.name}: {form} is neither defined nor shared in proofs/Unique.antt'


def unique(crate):
    """The crate's proofs/Unique.antt without comments."""
    page = crate / 'proofs/Unique.antt'
    return re.sub(r'--[^\n]*', '', page.read_text()) if page.exists() else ''


def law_names(public):
    """The public functions of a crate, each with the name of its law."""
    free = [function.name for function in public if not function.within]
    return {function: function.law_of_type if function.within and function.name in free else function.law for function in public}


def lawless(crate, text):
    """Public functions of a crate without a law of one answer over their own contract, and laws of no public function."""
    names = [(name, (owner, path)) for owner, path, name in USE.findall(text)]
    laws = {law: ' '.join(statement.split()) for law, statement in LAW.findall(text)}
    named = law_names(functions(crate))
    for function, law in named.items():
        if law not in laws:
            yield f'{crate.name}: {function.shown} is public and has no law {law} in proofs/Unique.antt'
        elif not is_due(function, laws[law], names):
            yield f'{crate.name}: {law} is not stated over the contract of {function.shown}: {laws[law]}'
    for law in sorted(set(laws) - set(named.values())):
        yield f'{crate.name}: {law} in proofs/Unique.antt is of no public function'
    yield from misnamed(crate, text)


def laws(root):
    """What is amiss with the laws of one answer. Each form of such a law is defined once."""
    forms = []
    for crate in libraries(root):
        text = unique(crate)
        yield from lawless(crate, text)
        forms += FORM.findall(text)
    for form in sorted({form for form in forms if forms.count(form) > 1}):
        yield f'{form} is defined {forms.count(form)} times'
