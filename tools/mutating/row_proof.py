"""The proof of a file of rows in specs/: its `use` lines, its `unfolding` lines, a `refl` for each row."""
import re

from mutating.project import record_fields
from mutating.terms import TOKEN

WIDTH = 158


def depths(tokens):
    """Each token with how many brackets are open before it."""
    depth = 0
    for token in tokens:
        depth -= token in ')}'
        yield token, depth
        depth += token in '({'


def unbracketed(tokens):
    """The tokens without brackets around them all."""
    while tokens and tokens[0] == '(' and [place for place, (_, depth) in enumerate(depths(tokens)) if depth == 0] == [0, len(tokens) - 1]:
        tokens = tokens[1:-1]
    return tokens


def split_at(tokens, sign):
    parts = [[]]
    for token, depth in depths(tokens):
        if token == sign and depth == 0:
            parts.append([])
        else:
            parts[-1].append(token)
    return parts


class RowProof:
    def __init__(self, project, key):
        self.project, self.key, self.module = project, key, project.modules[key]
        self.records = [one for one in self.module.declared.values() if one.kind == 'record' and '(' not in one.text.split(':')[0]]

    def shape(self, tokens, module):
        """What proves a statement that computes: refl, a tuple of them, or a record of them."""
        parts = split_at(unbracketed(tokens), '×')
        if len(parts) > 1:
            return '(' + ', '.join(self.shape(part, module) for part in parts) + ')'
        tokens = unbracketed(tokens)
        if any(token == '≡' and depth == 0 for token, depth in depths(tokens)):
            return 'refl'
        key, name = self.project.resolve(module).get(tokens[0], (None, None))
        declared = self.project.modules[key].declared.get(name) if key else None
        return self.shape_of(self.project.modules[key], declared) if declared else '?'

    def shape_of(self, module, declared):
        if declared.kind == 'record':
            return 'record { ' + '; '.join(f'{name} = {self.shape(TOKEN.findall(kind), module)}' for name, kind in record_fields(declared).items()) + ' }'
        body = TOKEN.findall(module.body(declared))
        return self.shape(body[body.index('=') + 1:], module) if len(declared.clauses) == 1 else '?'

    def use_lines(self, key, names):
        lines = []
        for name in names:
            longer = lines[-1][:-1] + f', {name}}}' if lines else ''
            if lines and len(longer) <= 160:
                lines[-1] = longer
            else:
                lines.append(f'use Rattle.{key[0]}.specs.{key[2]}.{{{name}}}')
        return lines

    def unfolding_lines(self, words):
        lines = ['unfolding'] if words else []
        for word in words:
            if len(lines[-1]) + len(word) > WIDTH:
                lines.append('   ')
            lines[-1] += ' ' + word
        return lines

    def text(self):
        needed, order = {}, list(self.project.below_crate)
        for key, name in self.project.reached([(self.key, one.name) for one in self.records]):
            if self.project.modules[key].declared[name].unfoldable:
                needed.setdefault(key, []).append(name)
        lines = [f'-- {self.module.name}: each row computed.', '-- Assumes nothing.', 'use mathlib.Core.Path.{refl}']
        words = []
        for key in sorted(needed, key=lambda key: (order.index(key[0]), key[2])):
            words += sorted(needed[key])
            lines += self.use_lines(key, sorted(needed[key]))
        lines += self.use_lines(self.key, [one.name for one in self.records])
        for one in self.records:
            name = re.sub(r'(?<!^)(?=[A-Z])', '_', one.name).lower()
            lines += ['', f'pub {name} : {one.name}', *self.unfolding_lines(words), f'{name} = record {{']
            lines += [f'  {field} = {self.shape(TOKEN.findall(kind), self.module)};' for field, kind in record_fields(one).items()] + ['}']
        return '\n'.join(lines) + '\n'
