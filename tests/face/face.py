"""The functions that can be called from outside a library crate, by name or as C's, read off its files. `python3 face.py` prints them, a line each."""
import os
import re
import sys
from typing import NamedTuple

sys.path.append(os.path.join(os.path.dirname(os.path.abspath(__file__)), os.pardir, 'docs'))
from rattle import ROOT, content, crates  # noqa: E402

TOKEN = re.compile(r'''//[^\n]*|/\*.*?\*/|b?"(?:\\.|[^"\\])*"|b?'(?:\\.|[^'\\\n])'|\w+|\S''', re.DOTALL)
CLOSING = {'{': '}', '(': ')', '[': ']'}
# what may stand between `pub` and `fn`
BETWEEN = {'extern', '"C"'}
# what a function's contract is made of: a word, a name or none, and braces
CLAUSES = {'requires', 'ensures', 'ghost'}
# what a trait's block may say of its functions without asking
SAYS = {'from_gives', 'try_from_gives', 'Value', 'view'}


class Function(NamedTuple):
    module: str
    name: str
    requires: bool


class Unread(Exception):
    """A form that this reader doesn't know; better said than passed over."""


def tokens(text):
    return [token for token in TOKEN.findall(text) if not token.startswith(('//', '/*'))]


def past(words, at):
    """Behind the bracket that closes the one at `at`."""
    opening, depth = words[at], 0
    for k in range(at, len(words)):
        depth += (words[k] == opening) - (words[k] == CLOSING[opening])
        if depth == 0:
            return k + 1
    raise Unread(f'{opening} is not closed')


def header(words, at):
    """Of a function whose name stands at `at`: whether it has a `requires`, and where it ends."""
    requires = False
    while words[at] != ';':
        if words[at] in CLAUSES:
            requires |= words[at] == 'requires'
            at = past(words, words.index('{', at))
        elif words[at] == '{':
            return requires, past(words, at)
        else:
            at = past(words, at) if words[at] in '([' else at + 1
    return requires, at + 1


def ending(words, at):
    """Behind the `;` or the block with which an item ends."""
    while words[at] != ';':
        if words[at] == '{':
            return past(words, at)
        at = past(words, at) if words[at] in '([' else at + 1
    return at + 1


def statement(words, at):
    """Behind the `;` of an item that may have blocks before it."""
    while words[at] != ';':
        at = past(words, at) if words[at] in CLOSING else at + 1
    return at + 1


class Crate:
    """The public functions of a crate; `source` gives the text of a module by its path, () for lib.rt.

    Private modules are read too: a method can be named wherever its type can, and C calls what is exported wherever it stands."""

    def __init__(self, source):
        self.source, self.functions, self.types, self.blocks = source, [], {}, []
        self._module((), tokens(source(())), True)
        for path, head, words in self.blocks:
            self._methods(path, head, words)

    def _module(self, path, words, named):
        at, public, exported = 0, False, False
        while at < len(words):
            if words[at] == 'pub':
                # pub(crate) and its like stay inside
                public = words[at + 1] != '('
                at = at + 1 if public else past(words, at + 1)
            elif words[at] in BETWEEN or words[at] == 'ghost' or words[at:at + 2] == ['const', 'fn']:
                exported |= words[at] in BETWEEN
                at += 1
            else:
                at = self._item(path, words, at, public and (named or exported))
                public = exported = False

    def _item(self, path, words, at, named):
        word = words[at]
        if word == '#':
            return past(words, words.index('[', at))
        if word == 'fn':
            return self._function(path, words, at, named, '')
        if word == 'mod':
            return self._child(path, words, at, named)
        if word == 'impl':
            return self._block(path, words, at)
        if word in ('struct', 'enum'):
            return self._type(path, words, at, named)
        if word in ('const', 'type') or word == 'use' and not named:
            return statement(words, at)
        raise Unread(f'{self._called(path)}: {"pub " if named else ""}{word}')

    @staticmethod
    def _called(path):
        return '::'.join(path) or 'lib'

    def _function(self, path, words, at, named, prefix):
        requires, end = header(words, at + 1)
        if named:
            self.functions.append(Function(self._called(path), prefix + words[at + 1], requires))
        return end

    def _child(self, path, words, at, named):
        child, inside = (*path, words[at + 1]), words[at + 2] == '{'
        end = past(words, at + 2) if inside else at + 3
        self._module(child, words[at + 3:end - 1] if inside else tokens(self.source(child)), named)
        return end

    def _type(self, path, words, at, named):
        self.types[path, words[at + 1]] = named
        return ending(words, at)

    def _block(self, path, words, at):
        """Read when all types are known: a type's block may stand in another module."""
        start = words.index('{', at)
        end = past(words, start)
        self.blocks.append((path, words[at + 1:start], words[start + 1:end - 1]))
        return end

    def _is_named(self, path, name):
        found = [(path, name)] if (path, name) in self.types else [place for place in self.types if place[1] == name]
        if len(found) != 1:
            raise Unread(f'{self._called(path)}: impl {name}, {"no type of this crate" if not found else "a type of several modules"}')
        return self.types[found[0]]

    def _methods(self, path, head, words):
        """A type's methods can be named where it can; a trait's functions, which have no `pub`, where the type that they are for can, or is another crate's."""
        trait = 'for' in head
        whole = head[head.index('for') + 1:] if trait else head
        name = re.sub('<.*?>', '', ''.join(whole))
        own = {kind for _, kind in self.types}
        foreign = trait and name not in own and any(word in own for word in head)
        if trait and not foreign and (path, name) not in self.types:
            raise Unread(f'{self._called(path)}: impl {name}, which may be a type of another module or crate')
        named = foreign or self._is_named(path, name)
        public, at = trait, 0
        while at < len(words):
            if words[at] == 'fn':
                at = self._function(path, words, at, public and named, f'{name}::')
                public = trait
            elif trait and words[at] in CLAUSES:
                if words[at + 1] not in SAYS:
                    raise Unread(f'{self._called(path)}: impl {name}, {words[at + 1]}, which may ask something')
                at = statement(words, at)
            else:
                public = trait or words[at] == 'pub' and words[at + 1] != '(' or public and words[at] in {*BETWEEN, 'const'}
                at += 1


def libraries():
    return [crate for crate in crates() if os.path.exists(os.path.join(ROOT, 'crates', crate, 'src', 'lib.rt'))]


def functions(crate):
    """A module a::b is the file a/b.rt."""
    return Crate(lambda path: content(os.path.join('crates', crate, 'src', *(path or ('lib',))) + '.rt')).functions


def rows():
    """What functions.txt holds: crate, module, function, in their order."""
    return sorted(f'{crate} {function.module} {function.name}' for crate in libraries() for function in functions(crate))


if __name__ == '__main__':
    print('\n'.join(rows()))
