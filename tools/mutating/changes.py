"""Single-place changes of a definition."""
import re
import sys

from mutating.terms import TOKEN, Reader, Unreadable, argument_types

LIKE_ARGUMENTS = {'get_or': [(1, 2)], 'set': [(1, 2)], 'replicate': [(0, 1)], 'ltb': [(0, 1)], 'leb': [(0, 1)], 'max': [], 'min': []}
SYMMETRIC = {'eqb', 'same', 'cond'}  # what is exchanged in a `cond` are its cases
OTHER_OPERATOR = {'&&': '||', '||': '&&', '+': '-', '-': '+', '/': '%', '%': '/', '*': '+'}
WORDS = {'&&': 'and for or', '||': 'or for and'}
IMPORTS = {
    'leb': 'leb', 'ltb': 'ltb', 'true': 'true', 'false': 'false', '-': '◌-◌', '+': '◌+◌', '/': '◌/◌', '%': '◌%◌', '&&': '◌&&◌', '||': '◌||◌',
}


def on_one_line(text):
    return ' '.join(text.split())


class Mutant:
    """text[start:end] of a module replaced by `new`; `nth` is its number among the same changes of its definition."""

    def __init__(self, module, definition, place, new, kind):
        self.module, self.definition, self.new, self.kind, self.nth = module, definition, new, kind, 0
        self.start, self.end = place

    def text(self):
        """The module's text with the change, and with what the change needs imported."""
        text = self.module.text[:self.start] + self.new + self.module.text[self.end:]
        have = {name for _, names in self.module.uses for name in names or []}
        for word, name in IMPORTS.items():
            if name not in have and word in TOKEN.findall(self.new):
                text = re.sub(r'(?m)^use ', f'use Rattle.std.specs.Prelude.{{{name}}}\nuse ', text, count=1)
        return text

    def change(self):
        return f'{self.definition.name}: `{on_one_line(self.module.text[self.start:self.end])}` -> `{on_one_line(self.new)}`'

    def key(self):
        """A name that stays when other definitions of the file change."""
        return f'{self.module.crate}/{self.module.name} {self.change()} #{self.nth}'

    def show(self):
        before = self.module.text[:self.start]
        line, column = before.count('\n') + 1, self.start - before.rfind('\n')
        return f'{self.module.crate}/specs/{self.module.name}.antt:{line}:{column} {self.change()} ({self.kind})'


def mutants_of(project, module, definition):
    """Every mutant of one definition, each text once."""
    changes = Changes(project, module, definition)
    clauses = changes.read_clauses()
    for first, second in zip(clauses, clauses[1:]):
        changes.exchange_clauses(first, second)
    for term, scope, _ in clauses:
        changes.walk(term, scope)
    numbers = {}
    for mutant in sorted(changes.made, key=lambda one: one.start):
        same = (module.text[mutant.start:mutant.end], mutant.new)
        numbers[same] = mutant.nth = numbers.get(same, 0) + 1
    return changes.made


class Changes:
    def __init__(self, project, module, definition):
        self.project, self.module, self.definition = project, module, definition
        self.names = project.resolve(module)
        self.made, self.seen = [], set()

    def of(self, part):
        return self.module.text[part.start:part.end]

    def add(self, start, end, new, kind):
        text, one = self.module.text, self.definition
        whole = on_one_line(text[one.start:start] + new + text[end:one.end])
        if text[start:end] != new and whole not in self.seen:
            self.seen.add(whole)
            self.made.append(Mutant(self.module, one, (start, end), new, kind))

    def replace(self, part, new, kind):
        self.add(part.start, part.end, new, kind)

    def exchange(self, first, second, kind):
        self.add(first.start, second.end, self.of(second) + self.module.text[first.end:second.start] + self.of(first), kind)

    # ---- clauses

    def read_clauses(self):
        """The term of each clause, with the names in its scope (name -> type or None) and the words of its patterns."""
        clauses = []
        for start, end in self.definition.clauses:
            equals = self.equals_sign(start, end)
            try:
                term = Reader(self.module.text, equals.end(), end).whole()
            except Unreadable as why:
                print(f'mutants: {self.module.path}: {self.definition.name} is not read: {why}', file=sys.stderr)
                continue
            patterns = TOKEN.findall(self.module.text[start:equals.start()])
            clauses.append((term, self.scope(patterns[1:]), set(patterns)))
        return clauses

    def equals_sign(self, start, end):
        depth = 0
        for token in TOKEN.finditer(self.module.text, start, end):
            depth += (token.group() in '({') - (token.group() in ')}')
            if token.group() == '=' and depth == 0:
                return token
        sys.exit(f'mutants: {self.module.path}: {self.definition.name} has a clause without =')

    def scope(self, patterns):
        """The variables of a clause's patterns with their types."""
        scope, depth, groups = {}, 0, []
        for token in patterns:
            if depth == 0 and token not in ')}':
                groups.append([])
            depth += (token in '({') - (token in ')}')
            groups[-1].append(token)
        explicit = [group for group in groups if group[0] != '{']
        for group, kind in zip(explicit, argument_types(self.definition.type)):
            self.bind(group, kind, scope)
        return scope

    def bind(self, pattern, kind, scope):
        """Binds the variables of one pattern of a type: a name, `(x ∷ xs)`, `(suc n)`, `(Case x y)`."""
        inner = pattern[1:-1] if pattern[0] == '(' else pattern
        if len(inner) == 1 and self.is_variable(inner[0]):
            scope[inner[0]] = kind
        elif len(inner) == 3 and inner[1] == '∷':
            scope.update({inner[0]: re.sub(r'^List \(?(.*?)\)?$', r'\1', kind), inner[2]: kind})
        elif inner and all(re.match(r'[^(){}]', token) for token in inner):
            kinds = ['ℕ'] if inner[0] == 'suc' else self.types_of(inner[0]) or []
            scope.update(dict(zip(inner[1:], kinds + [None] * len(inner))))
        else:
            scope.update({token: None for token in inner if self.is_variable(token)})

    def is_variable(self, token):
        return re.match(r"[a-zκ][\w'-]*$", token) is not None and token not in self.names and token not in ('zero', 'suc', 'true', 'false')

    def types_of(self, name):
        """The types of the arguments of a definition or a constructor; None if it is not known."""
        if name in self.names:
            key = self.names[name][0]
            return self.project.types.get(self.names[name]) or self.project.types.get((key, name))
        return self.project.variants.get(name)

    def exchange_clauses(self, first, second):
        """Two clauses next to each other, where neither uses a variable of its own."""
        (one, _, ours), (other, _, theirs) = first, second
        own = set(TOKEN.findall(self.of(one))) & (ours - theirs) | set(TOKEN.findall(self.of(other))) & (theirs - ours)
        if self.of(one) != self.of(other) and not own:
            self.exchange(one, other, 'cases exchanged')

    # ---- terms

    def walk(self, part, scope):
        change = getattr(self, 'change_' + part.kind, None)
        if change:
            change(part, scope)
        if part.kind == 'let':
            self.walk(part.parts[0], scope)
            self.walk(part.parts[1], {**scope, **dict(part.binds)})
            return
        inner = {**scope, **dict(part.binds)}
        for one in part.parts:
            self.walk(one, inner)

    def change_number(self, part, _):
        self.replace(part, str(int(part.sign) + 1), 'number')
        if int(part.sign):
            self.replace(part, str(int(part.sign) - 1), 'number')

    def change_text(self, part, _):
        inner = part.sign[1:-1]
        for place, letter in enumerate(inner if '\\' not in inner else ''):
            other = chr(ord(letter) + 1) if chr(ord(letter) + 1) not in '"\\' else chr(ord(letter) - 1)
            self.replace(part, f'"{inner[:place]}{other}{inner[place + 1:]}"', 'letter')

    def change_name(self, part, scope):
        if part.sign in scope:
            self.like_variable(part, scope)
        elif part.sign in ('true', 'false'):
            self.replace(part, 'false' if part.sign == 'true' else 'true', 'truth value')
        elif part.sign == 'zero':
            self.replace(part, '1', 'number')
        elif self.names.get(part.sign) in self.project.constants:
            self.replace(part, str(self.project.constants[self.names[part.sign]] + 1), 'constant')

    def like_variable(self, part, scope):
        """The next variable of the same type, in the order of the clause, the first behind the last."""
        kind = scope[part.sign]
        like = [name for name in scope if kind is not None and scope[name] == kind]
        if len(like) > 1:
            self.replace(part, like[(like.index(part.sign) + 1) % len(like)], 'like variable')

    def change_projection(self, part, scope):
        """The next field of the same type, of each record that has such a field; where the record has no such field, it does not type-check. What stands
        behind the name of a module is no field."""
        name, start, end = part.sign
        whole = part.parts[0]
        if whole.kind == 'name' and self.is_variable(whole.sign) and whole.sign not in scope:
            return
        for fields in self.project.records:
            like = [field for field in fields if fields[field] == fields.get(name[1:])]
            if len(like) > 1:
                self.add(start, end, '.' + like[(like.index(name[1:]) + 1) % len(like)], 'like field')

    def change_operator(self, part, _):
        (left, right), (sign, start, end) = part.parts, part.sign
        if sign in OTHER_OPERATOR:
            self.add(start, end, OTHER_OPERATOR[sign], WORDS.get(sign, 'operator'))
        if sign in ('&&', '||', '++', '∷'):
            self.replace(part, self.of(right), f'left of {sign} dropped')
        if sign in ('&&', '||', '++'):
            self.replace(part, self.of(left), f'right of {sign} dropped')
        if sign in ('-', '/', '%', '++'):
            self.exchange(left, right, 'operands exchanged')
        if sign == '∷' and right.kind == 'operator' and right.sign[0] == '∷':
            self.exchange(left, right.parts[0], 'elements exchanged')

    def change_application(self, part, scope):
        name = part.parts[0].sign if part.parts[0].kind == 'name' else None
        arguments = part.parts[1:]
        if name == 'cond' and len(arguments) == 3:
            self.exchange(arguments[1], arguments[2], 'cases exchanged')
            self.replace(part, self.of(arguments[1]), 'condition dropped')
            self.replace(part, self.of(arguments[2]), 'condition dropped')
        elif name in ('not', 'suc') and len(arguments) == 1:
            self.replace(part, self.of(arguments[0]), f'{name} dropped')
        elif name in ('ltb', 'leb'):
            self.replace(part.parts[0], 'leb' if name == 'ltb' else 'ltb', 'edge')
        elif name == 'eqb' and len(arguments) == 2:
            self.edges_of_equality(part, arguments)
        if name and name not in SYMMETRIC and name not in scope:
            self.like_arguments(name, arguments)

    def edges_of_equality(self, part, arguments):
        """At most and at least for equal; to be at most 0 is to be 0."""
        first, second = (self.of(one) for one in arguments)
        if second not in ('0', 'zero'):
            self.replace(part, f'leb {first} {second}', 'edge of equality')
        if first not in ('0', 'zero'):
            self.replace(part, f'leb {second} {first}', 'edge of equality')

    def like_arguments(self, name, arguments):
        pairs, last = LIKE_ARGUMENTS.get(name, []), {}
        kinds = self.types_of(name)
        if kinds:
            pairs = []
            for place, kind in enumerate(kinds[:len(arguments)]):
                pairs += [(last[kind], place)] if kind in last else []
                last[kind] = place
        for one, other in pairs:
            if other < len(arguments) and self.of(arguments[one]) != self.of(arguments[other]):
                self.exchange(arguments[one], arguments[other], 'arguments exchanged')

    def change_record(self, part, _):
        for fields in self.project.records:
            if set(fields) == set(part.sign):
                self.like_fields(part, fields)

    def like_fields(self, part, fields):
        """Two fields of one type exchanged."""
        last = {}
        for name, value in zip(part.sign, part.parts):
            kind = fields[name]
            if kind in last and self.of(last[kind]) != self.of(value):
                self.exchange(last[kind], value, 'fields exchanged')
            last[kind] = value
