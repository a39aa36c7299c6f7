"""Terms of definitions, read as far as single-place changes need it: every part knows where it stands in the text of its file."""
import re

TOKEN = re.compile(r'"(?:[^"\\]|\\.)*"|[(){};,]|[^\s(){};,"]+')
COMMENT = re.compile(r'(?m)^\s*--.*$')
STRENGTH = {'→': 0, '×': 1, '≡': 2, '||': 3, '&&': 4, '∷': 5, '++': 5, '+': 6, '-': 6, '*': 7, '/': 7, '%': 7}
TO_THE_RIGHT = {'→', '×', '||', '&&', '∷', '++'}
ENDS = {')', '}', ';', ',', 'in', '=', ':'}


def without_comments(text):
    """The text with blanks for its comment lines, so that places stay."""
    return COMMENT.sub(lambda found: ' ' * len(found.group()), text)


class Unreadable(Exception):
    """A term of a form that this reader does not know."""


class Part:
    """A part of a term: what it is, where it stands (text[start:end]), its own parts, and its sign (an operator's place, a literal, the names of fields)."""

    def __init__(self, kind, start, end, parts=(), sign=None, binds=()):
        self.kind, self.start, self.end, self.parts, self.sign, self.binds = kind, start, end, list(parts), sign, list(binds)


class Reader:
    """Reads the term that stands in text[start:end]."""

    def __init__(self, text, start, end):
        clean = without_comments(text[start:end])
        self.tokens = [(found.group(), found.start() + start, found.end() + start) for found in TOKEN.finditer(clean)]
        self.at = 0

    def whole(self):
        term = self.term()
        if self.at != len(self.tokens):
            raise Unreadable(f'left over: {self.tokens[self.at][0]}')
        return term

    def peek(self):
        return self.tokens[self.at][0] if self.at < len(self.tokens) else None

    def next(self):
        if self.at >= len(self.tokens):
            raise Unreadable('the end')
        self.at += 1
        return self.tokens[self.at - 1]

    def expect(self, sign):
        token = self.next()
        if token[0] != sign:
            raise Unreadable(f'{token[0]} for {sign}')
        return token

    def skip_to(self, sign):
        """The tokens before a sign."""
        passed = []
        while self.peek() != sign:
            passed.append(self.next()[0])
        return passed

    def term(self, least=0):
        left = self.applied()
        while STRENGTH.get(self.peek(), -1) >= least:
            operator = self.next()
            right = self.term(STRENGTH[operator[0]] + (operator[0] not in TO_THE_RIGHT))
            left = Part('operator', left.start, right.end, [left, right], operator)
        if self.peek() == ',' and least == 0:
            self.next()
            right = self.term()
            left = Part('pair', left.start, right.end, [left, right])
        return left

    def applied(self):
        """A function with its arguments, or one atom, each with the projections behind it."""
        parts = []
        while self.peek() is not None and self.peek() not in STRENGTH and self.peek() not in ENDS:
            if parts and re.match(r'\..', self.peek()):
                parts.append(self.projected(parts.pop(), *self.next()))
            else:
                parts.append(self.atom())
        if not parts:
            raise Unreadable(f'nothing before {self.peek()}')
        return self.joined(parts)

    @staticmethod
    def joined(parts):
        return parts[0] if len(parts) == 1 else Part('application', parts[0].start, parts[-1].end, parts)

    def atom(self):
        sign, start, end = self.next()
        if sign == '(':
            return self.bracket(start)
        if sign == 'λ':
            return self.function(start)
        if sign == 'let':
            return self.named(start)
        if sign == 'record' and self.peek() == '{':
            return self.record(start)
        if sign == '{':
            return Part('implicit', start, self.closing())
        if re.match(r'[A-Za-z]\w*\'?(\.[a-z0-9_]+)+$', sign):
            name = sign.split('.')[0]
            return self.projected(Part('name', start, start + len(name), sign=name), sign[len(name):], start + len(name), end)
        kind = 'number' if sign.isdigit() else 'text' if sign.startswith('"') else 'name'
        return Part(kind, start, end, sign=sign)

    @staticmethod
    def projected(part, fields, start, end):
        """`part.field`, or `part.field.field`: each field is of what stands before it, tight."""
        for field in fields[1:].split('.'):
            sign = ('.' + field, start, start + 1 + len(field))
            part, start = Part('projection', part.start, sign[2], [part], sign), sign[2]
        assert start == end
        return part

    def bracket(self, start):
        inner = self.term()
        if self.peek() == ':':
            self.skip_to(')')
        return Part('bracket', start, self.expect(')')[2], [inner])

    def function(self, start):
        """`λ x y. body` or `λ (x y : T) (z : U). body`."""
        head = []
        while not self.peek().endswith('.'):
            head.append(self.next()[0])
        head.append(self.next()[0][:-1])
        body = self.term()
        return Part('function', start, body.end, [body], binds=bound_by(head))

    def named(self, start):
        """`let x = term in body`, with or without a type."""
        head = self.skip_to('=')
        self.next()
        value = self.term()
        self.expect('in')
        body = self.term()
        return Part('let', start, body.end, [value, body], binds=[(head[0], ' '.join(head[2:]) or None)])

    def record(self, start):
        self.expect('{')
        names, values = [], []
        while self.peek() != '}':
            names.append(self.next()[0])
            self.expect('=')
            values.append(self.term())
            if self.peek() == ';':
                self.next()
        return Part('record', start, self.next()[2], values, names)

    def closing(self):
        """The end of a bracket `{` whose inside does not matter."""
        depth = 1
        while depth:
            sign, _, end = self.next()
            depth += (sign == '{') - (sign == '}')
        return end


def bound_by(head):
    """The names that `x y` or `(x y : T) (z : U)` bind, each with its type or None."""
    if ':' not in head:
        return [(name, None) for name in head if name not in '()']
    groups = re.findall(r'\( ([^():]+) : ([^()]*(?:\([^()]*\)[^()]*)*) \)', ' '.join(head))
    return [(name, kind.strip()) for names, kind in groups for name in names.split()]


def argument_types(signature):
    """The types of a signature's arguments, one text each, in order."""
    pieces, piece, depth = [], [], 0
    for token in TOKEN.findall(without_comments(signature)):
        depth += (token in '({') - (token in ')}')
        if token == '→' and depth == 0:
            pieces.append(piece)
            piece = []
        else:
            piece.append(token)
    types = []
    for piece in pieces:
        groups = bound_by(piece) if piece and piece[0] == '(' and ':' in piece else []
        types += [kind for _, kind in groups] or [' '.join(piece)]
    return types
