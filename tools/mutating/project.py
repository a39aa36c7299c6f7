"""The project as the files have it: crates, modules, declarations; which of them are rows, and which a contract or a promise reaches."""
import os
import re
import subprocess

from mutating.terms import TOKEN, argument_types, without_comments

PATH = re.compile(r'^Rattle\.([A-Za-z0-9_]+)\.(specs|proofs)\.(.+)$')
A_TACTIC = re.compile(r'\b(simp|rw|cc|search|ap|sym|absurd)\b|∙')


def contents(path):
    with open(path, encoding='utf8') as file:
        return file.read()


def module_of(path):
    """(crate, library, module) of a path in a `use` line; None if it is not one of the project's."""
    found = PATH.match(path)
    return found.groups() if found else None


class Declaration:
    """A top-level declaration: `kind` is definition, record or data; clauses and the unfolding line are places in the text."""

    def __init__(self, kind, name, start):
        self.kind, self.name, self.start, self.end = kind, name, start, start
        self.type, self.text, self.clauses, self.unfoldable, self.unfolding = '', '', [], False, None


class Module:
    """A file of specs/ or proofs/, taken apart at its lines that begin in column 0."""

    def __init__(self, key, path, text):
        self.key, self.path, self.text = key, path, text
        self.crate, self.library, self.name = key
        self.uses = []  # (path, names or None)
        self.declared = {}
        self.names = None  # filled by Project.resolve
        starts = [found.start() for found in re.finditer(r'(?m)^(?=[^\s})-]|-(?!-))', text)] + [len(text)]
        self.last = None
        for start, end in zip(starts, starts[1:]):
            self.take(start, without_comments(text[start:end]).rstrip())

    def take(self, start, item):
        if item.startswith('use '):
            self.take_use(item)
        elif re.match(r'(pub )?(record|data)\s', item):
            kind, name = re.match(r'(?:pub )?(record|data)\s+(\S+)', item).groups()
            self.declare(Declaration(kind, name, start), item)
            self.last = None
        elif item.startswith('unfolding ') and self.last:
            self.last.unfolding = (start, start + len(item))
        elif self.last and re.match(re.escape(self.last.name) + r'(?=[\s=])', item) and not re.match(r'\S+\s+:\s', item):
            self.last.clauses.append((start, start + len(item)))
            self.last.end = start + len(item)
        else:
            self.take_signature(start, item)

    def take_use(self, item):
        found = re.match(r'use\s+(\S+?)(?:\.\{([^}]*)\})?(?:\s+as\s+\S+)?\s*$', item, re.S)
        if found:
            names = found.group(2)
            self.uses.append((found.group(1), None if names is None else [name.strip() for name in names.split(',')]))

    def take_signature(self, start, item):
        self.last = None
        found = re.match(r'(abbrev |unfoldable )?(?:pub )?(\S+)\s+:\s', item)
        if found and not re.match(r'(pub )?mod ', item):
            self.last = Declaration('definition', found.group(2), start)
            self.last.unfoldable = found.group(1) == 'unfoldable '
            self.last.type = item[found.end():]
            self.declare(self.last, item)

    def declare(self, declaration, item):
        declaration.text, declaration.end = item, declaration.start + len(item)
        self.declared[declaration.name] = declaration

    def body(self, declaration):
        return ' '.join(self.text[start:end] for start, end in declaration.clauses)


def constructors(declaration):
    """The constructors of a data type, each with the types of its arguments."""
    return {name: argument_types(kind) for name, kind in re.findall(r'(?m)^  (\S+) : (.*)$', declaration.text)}


def record_fields(declaration):
    """The fields of a record, each with its type, in their order."""
    text = declaration.text
    return dict((name, kind.strip()) for name, kind in re.findall(r'(?ms)^  (?:pub )?(\S+) : (.*?)(?=^  (?:pub )?\S+ : |\Z)', text))


class Project:
    def __init__(self, root):
        self.root = root
        self.below_crate, self.modules = {}, {}
        self.load()
        self.imports = {key: self.imported(module) for key, module in self.modules.items()}
        self.under = {}
        self.types, self.constants, self.records, self.variants = {}, {}, [], {}
        self.gather_types()
        self.gather_code_types()
        self.rows, self.under_rows = {}, {}  # module of proofs/ -> the declarations that are rows; -> what they reach
        self.find_rows()
        self.by_host = self.reached(self.cited(['menkhodur']))
        self.by_contract = self.reached(self.cited(self.below_crate))
        self.by_promise = self.reached(self.proved_statements())

    def load(self):
        for line in contents(self.root + '/crates.txt').split('\n'):
            if ':' in line.split('#')[0]:
                name, below = line.split(':')
                self.below_crate[name.split()[0]] = below.split()
        for crate in self.below_crate:
            for library in ('specs', 'proofs'):
                self.load_library(crate, library)

    def load_library(self, crate, library):
        folder = f'{self.root}/crates/{crate}/{library}'
        for file in sorted(os.listdir(folder)) if os.path.isdir(folder) else []:
            if file.endswith('.antt') and file != 'Lib.antt':
                key = (crate, library, file[:-5])
                self.modules[key] = Module(key, f'{folder}/{file}', contents(f'{folder}/{file}'))

    def imported(self, module):
        return sorted({module_of(path) for path, _ in module.uses} & set(self.modules) - {module.key})

    def below(self, key):
        """A module and all that it imports, directly or not."""
        if key not in self.under:
            seen, todo = set(), [key]
            while todo:
                here = todo.pop()
                if here not in seen:
                    seen.add(here)
                    todo += self.imports[here]
            self.under[key] = seen
        return self.under[key]

    # ---- types, as far as like arguments, like fields and like variables need them

    def gather_types(self):
        for key, module in self.modules.items():
            for declaration in module.declared.values() if key[1] == 'specs' else ():
                self.gather_type(key, module, declaration)

    def gather_type(self, key, module, declaration):
        if declaration.kind == 'definition':
            self.types[key, declaration.name] = argument_types(declaration.type)
            constant = re.match(re.escape(declaration.name) + r'\s*=\s*(\d+)\s*$', module.body(declaration))
            if constant:
                self.constants[key, declaration.name] = int(constant.group(1))
        elif declaration.kind == 'data':
            self.types.update({(key, name): types for name, types in constructors(declaration).items()})
        else:
            self.records.append(record_fields(declaration))

    def sources(self, crates):
        for crate in crates:
            for folder, _, files in sorted(os.walk(f'{self.root}/crates/{crate}/src')):
                for file in sorted(files):
                    if file.endswith('.rt'):
                        yield contents(f'{folder}/{file}')

    def gather_code_types(self):
        """Structs and enums of the code are records and data of the definitions."""
        for text in self.sources(self.below_crate):
            text = re.sub(r'//.*', '', text)
            for fields in re.findall(r'struct \w+[^{;]*\{([^}]*)\}', text):
                named = re.findall(r'(?m)^\s*(?:pub )?(\w+): ([^,\n]+),?', fields)
                self.records.append(dict(named))
            for cases in re.findall(r'enum \w+\s*\{(.*?)\n\}', text, re.S):
                for name, kinds in re.findall(r'(?m)^\s*(\w+)\(([^)]*)\)', cases):
                    self.variants[name] = [kind.strip() for kind in kinds.split(',') if kind.strip()]

    # ---- rows

    def find_rows(self):
        """A row has no parameter, computes by `refl` alone, and stands in a file that imports nothing of proofs/."""
        for key, module in self.modules.items():
            if key[1] == 'proofs' and not any('proofs' in path.split('.') for path, _ in module.uses):
                rows = [one for one in module.declared.values() if self.is_row(module, one)]
                if rows:
                    self.rows[key] = rows

    @staticmethod
    def is_row(module, declaration):
        if declaration.kind != 'definition' or len(declaration.clauses) != 1 or '→' in declaration.type or 'λ' in declaration.type:
            return False
        body = module.body(declaration)
        if not re.match(re.escape(declaration.name) + r'\s*=', body) or not re.search(r'\brefl\b', body) or A_TACTIC.search(body):
            return False
        return not (set(TOKEN.findall(declaration.type + ' ' + body)) & set(module.declared)) - {declaration.name}

    def rows_reaching(self, key, place):
        """The rows of a file that compute with a definition: no other can refuse its mutants."""
        if key not in self.under_rows:
            names = self.resolve(self.modules[key])
            self.under_rows[key] = [(row, self.reached({names[token] for token in TOKEN.findall(row.type) if token in names})) for row in self.rows[key]]
        return [row for row, reached in self.under_rows[key] if place is None or place in reached]

    # ---- what is reached

    def resolve(self, module):
        """What the names of a file mean: (module, declaration); a constructor means its data type."""
        if module.names is None:
            module.names = {}
            for path, names in module.uses:
                for name in names or [] if module_of(path) in self.modules else []:
                    module.names[name] = (module_of(path), name)
            for one in module.declared.values():
                module.names[one.name] = (module.key, one.name)
                for name in constructors(one) if one.kind == 'data' else []:
                    module.names[name] = (module.key, one.name)
        return module.names

    def mentioned(self, key, name):
        module = self.modules[key]
        declaration = module.declared[name]
        text = declaration.text if declaration.kind != 'definition' else declaration.type + ' ' + module.body(declaration)
        names = self.resolve(module)
        return {self.declaring(*names[token]) for token in set(TOKEN.findall(text)) & set(names)}

    def declaring(self, key, name):
        """A constructor that is imported by its name means its data type."""
        declared = self.modules[key].declared
        if name not in declared:
            for one in declared.values():
                if one.kind == 'data' and name in constructors(one):
                    return key, one.name
        return key, name

    def reached(self, roots):
        seen, todo = set(), list(roots)
        while todo:
            key, name = todo.pop()
            if (key, name) not in seen and name in self.modules[key].declared:
                seen.add((key, name))
                todo += self.mentioned(key, name)
        return seen

    def cited(self, crates):
        """The definitions that the contracts of the crates' public functions name."""
        found = set()
        for text in self.sources(crates):
            names = {}
            for path, listed in re.findall(r'ghost use (\S+?)\.\{([^}]*)\};', text):
                if module_of(path) in self.modules:
                    names.update({name.strip(): (module_of(path), name.strip()) for name in listed.split(',')})
            for head in re.findall(r'pub (?:extern "C" )?fn .*?\n\{', text, re.S):
                found |= {names[token] for token in TOKEN.findall(head.replace('.', ' ')) if token in names}
        return found

    def proved_statements(self):
        """The statements of specs/ that a proof, not a row, has as its type."""
        found = set()
        for key, module in self.modules.items():
            for one in module.declared.values() if key[1] == 'proofs' and key not in self.rows else ():
                names = self.resolve(module)
                tokens = TOKEN.findall(one.type) if one.kind == 'definition' else []
                found |= {names[token] for token in tokens if token in names and names[token][0][1] == 'specs'}
        return found

    # ---- the definitions to change

    def definitions(self, crate, only_host=False, since=None):
        """The definitions of a crate that a contract or a promise reaches; with a commit, those that differ from it."""
        for key in sorted(key for key in self.modules if key[0] == crate and key[1] == 'specs' and not key[2].startswith('Code')):
            module = self.modules[key]
            new = self.changed(module, since) if since else set(module.declared)
            for one in module.declared.values():
                wanted = self.by_host if only_host else self.by_contract | self.by_promise
                if one.kind == 'definition' and one.name in new and not one.type.endswith('Type 0') and (key, one.name) in wanted:
                    yield module, one

    def changed(self, module, commit):
        said = subprocess.run(['git', '-C', self.root, 'show', f'{commit}:{os.path.relpath(module.path, self.root)}'], capture_output=True, check=False)
        before = Module(module.key, module.path, said.stdout.decode('utf8') if said.returncode == 0 else '')
        new = set()
        for one in module.declared.values():
            old = before.declared.get(one.name)
            if old is None or (old.type, before.body(old)) != (one.type, module.body(one)):
                new.add(one.name)
        return new
