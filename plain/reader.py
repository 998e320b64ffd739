"""Reads a file of Rattle and writes it as plain Rust.

The reader knows the items (use, mod, struct, enum, trait, impl, fn, const, type) and walks through
types and bodies token by token. Whatever it doesn't know it refuses, with the line. Changes are
marks on tokens, so that all else stays as it was written; each is counted under its name in
`rules`.
"""
from __future__ import annotations

import re
from collections import Counter
from collections.abc import Iterable
from dataclasses import dataclass, field

from plain import derives, known
from plain.rules import RULES
from plain.tokens import CLOSES, OPENS, Refused, Token, tokens_of

# Stands where something was struck out, until lines are tidied. No source has it.
GONE = '\0'
END = Token('end', '', 0)
PRELUDE = 'use rattle_std::prelude::*;\n'
# What a clause alone named is used no more.
ROOT = '#![forbid(unsafe_code)]\n#![allow(unused_imports, unused_variables)]\n\n'
RUNTIME = 'let rt = HostRuntime::of_process();'
FORMATTER = "(&self, f: &mut fmt::Formatter<'_>)"
ITEMS = frozenset({'use', 'mod', 'struct', 'enum', 'trait', 'impl', 'fn', 'const', 'type'})


@dataclass(frozen=True)
class Scope:
    """What a file may name: the libraries of its crate, the functions that any crate declares, and
    which libraries of the toolkit are the real ones.
    """

    libraries: frozenset[str]
    functions: frozenset[str] = frozenset()
    real: frozenset[str] = frozenset()


@dataclass
class Written:
    """A file as plain Rust, and how often each rule changed it."""

    text: str
    rules: Counter[str]


@dataclass
class Attribute:
    """An attribute: its first word, its arguments as text, and where it stands."""

    name: str
    words: list[str]
    start: int
    end: int


@dataclass
class Item:
    """What a struct or an enum is written with, where its derives need it."""

    name: str
    generics: derives.Generics
    variants: list[derives.Variant] = field(default_factory=list)


def plain(path: str, text: str, scope: Scope, is_root: bool = False) -> Written:
    """A file of Rattle as plain Rust. Raises `Refused`."""
    return Reader(path, text, scope).read(is_root)


class Reader:
    """Reads one file."""

    def __init__(self, path: str, text: str, scope: Scope) -> None:
        self.path, self.scope = path, scope
        self.tokens = tokens_of(text)
        self.out = [it.text for it in self.tokens]
        self.code = [at for at, it in enumerate(self.tokens) if it.is_code]
        self.at = 0
        self.rules: Counter[str] = Counter()
        self.imports: dict[str, str] = {}
        self.declared = {
            self.text(at + 1)
            for at in range(len(self.code))
            if self.text(at) in ('mod', 'struct', 'enum', 'trait', 'type')
        }
        for it in self.tokens:
            if '\0' in it.text or it.kind == 'string' and '\n' in it.text:
                raise Refused(path, it.line, 'a string over several lines, or a byte 0')
            if it.kind == 'block':
                raise Refused(path, it.line, 'a comment of the form /* .. */')

    # ---- tokens ----

    def token(self, at: int) -> Token:
        """The token of code at a place."""
        return self.tokens[self.code[at]] if 0 <= at < len(self.code) else END

    def text(self, at: int) -> str:
        """Its text, '' behind the end."""
        return self.token(at).text

    def is_path(self, at: int) -> bool:
        """Whether `::` stands here."""
        return self.text(at) == ':' and self.text(at + 1) == ':'

    def refuse(self, what: str, at: int) -> Refused:
        """The refusal of a form."""
        token = self.token(at)
        line = token.line or (self.tokens[-1].line if self.tokens else 1)
        return Refused(self.path, line, what)

    def expect(self, text: str) -> None:
        """Steps over a token that has to stand here."""
        if self.text(self.at) != text:
            raise self.refuse(
                f'`{text}` was expected, and there is `{self.text(self.at)}`', self.at
            )
        self.at += 1

    def name(self) -> str:
        """Steps over a name."""
        token = self.token(self.at)
        if token.kind != 'word':
            raise self.refuse(f'a name was expected, and there is `{token.text}`', self.at)
        self.at += 1
        return token.text

    def closing(self, at: int) -> int:
        """The place of the token that closes the bracket at a place."""
        opened: list[str] = []
        for to in range(at, len(self.code)):
            text = self.text(to)
            if self.token(to).kind != 'sign':
                continue
            if text in OPENS:
                opened.append(OPENS[text])
            elif text in CLOSES:
                if opened.pop() != text:
                    raise self.refuse(f'`{text}` closes another bracket', to)
                if not opened:
                    return to
        raise self.refuse('a bracket that isn\'t closed', at)

    def angle(self, at: int) -> int:
        """The place of the `>` that closes the `<` at a place."""
        depth = 0
        for to in range(at, len(self.code)):
            text = self.text(to)
            if text == '<':
                depth += 1
            elif text == '>' and self.text(to - 1) not in ('-', '='):
                depth -= 1
                if not depth:
                    return to
            elif text in ('{', '}', ';'):
                raise self.refuse(f'`{text}` among the parameters of a type', to)
        raise self.refuse('`<` that isn\'t closed', at)

    # ---- changes ----

    def count(self, rule: str) -> None:
        """Counts a change under its name."""
        assert rule in RULES, rule
        self.rules[rule] += 1

    def strike(self, start: int, end: int, rule: str, comments: bool = False) -> None:
        """Strikes out the tokens from one place to another, with the comments above where they are
        of them alone.
        """
        self.count(rule)
        first = self.code[start]
        if comments:
            first = self.with_comments(first)
        self.out[first] = GONE
        for at in range(first + 1, self.code[end] + 1):
            self.out[at] = ''

    def with_comments(self, first: int) -> int:
        """Where the comment lines begin that stand right above a token."""
        while (
            first >= 2
            and self.tokens[first - 1].kind == 'space'
            and self.tokens[first - 1].text.count('\n') == 1
            and self.tokens[first - 2].kind == 'line'
            and not self.tokens[first - 2].text.startswith('//!')
        ):
            before = self.tokens[first - 3] if first >= 3 else END
            if (
                before.kind == 'space'
                and '\n' not in before.text
                or before.kind not in ('space', 'end')
            ):
                return first  # a remark behind code
            first -= 2
        return first

    def replace(self, at: int, text: str, rule: str) -> None:
        """Writes another text for a token."""
        self.count(rule)
        self.out[self.code[at]] = text

    def behind(self, at: int, text: str) -> None:
        """Writes a text behind a token."""
        self.out[self.code[at]] += text

    # ---- the file ----

    def read(self, is_root: bool) -> Written:
        """Reads the whole file."""
        while self.text(self.at) == '#' and self.text(self.at + 1) == '!':
            self.inner_attribute()
        first = self.at
        while self.at < len(self.code):
            self.item('module')
        self.head(first, is_root)
        return Written(tidied(''.join(self.out)), self.rules)

    def head(self, first: int, is_root: bool) -> None:
        """Writes what each file begins with, below the comments at its top."""
        place = 0
        while place < len(self.tokens) and not self.tokens[place].is_code:
            place += 1
        # The comments right above the first item are of that item, unless they speak of the file.
        at = place
        while at and (
            self.tokens[at - 1].kind == 'space'
            and self.tokens[at - 1].text.count('\n') < 2
            or self.tokens[at - 1].text.startswith('///')
        ):
            at -= 1
        if any(self.tokens[it].text.startswith('///') for it in range(at, place)):
            place = at
        said = (ROOT if is_root else '') + PRELUDE + '\n'
        self.count('prelude')
        if is_root:
            self.count('forbid-unsafe')
        if place < len(self.out):
            self.out[place] = said + self.out[place]
        else:
            self.out.append('\n' + said)

    def inner_attribute(self) -> None:
        """`#![tactic(..)]` alone."""
        end = self.closing(self.at + 2)
        if self.text(self.at + 3) != 'tactic':
            raise self.refuse(f'the attribute `#![{self.text(self.at + 3)}..]`', self.at)
        self.strike(self.at, end, 'tactic')
        self.at = end + 1

    def attributes(self) -> list[Attribute]:
        """Steps over the attributes of an item; those of the prover are struck out."""
        found = []
        while self.text(self.at) == '#':
            if self.text(self.at + 1) != '[':
                raise self.refuse('`#` that is no attribute', self.at)
            end = self.closing(self.at + 1)
            it = Attribute(
                self.text(self.at + 2),
                [self.text(at) for at in range(self.at + 3, end)],
                self.at,
                end,
            )
            if it.name not in known.ATTRIBUTES:
                raise self.refuse(f'the attribute `#[{it.name}]`', self.at)
            if it.name in ('tactic', 'cycle'):
                self.strike(self.at, end, it.name)
            else:
                found.append(it)
            self.at = end + 1
        return found

    # ---- items ----

    def item(self, where: str) -> None:
        """An item of a module, a trait or an impl."""
        start = self.at
        given = self.attributes()
        self.visibility()
        word = self.text(self.at)
        if word == 'ghost':
            self.no_attributes(given)
            return self.ghost(start, where)
        if word not in ITEMS:
            raise self.refuse(f'an item that begins with `{word}`', self.at)
        if where != 'module' and word not in ('fn', 'const', 'type'):
            raise self.refuse(f'`{word}` within a trait or an impl', self.at)
        if word in ('struct', 'enum'):
            return self.shape(given, word)
        is_test = False
        for it in given:
            if it.name == 'test' and not it.words and word == 'fn':
                is_test = True
            elif not (it.name == 'cfg' and it.words == ['(', 'test', ')'] and word == 'mod'):
                raise self.refuse(f'the attribute `#[{it.name}]` before `{word}`', it.start)
        if word == 'const' and self.text(self.at + 1) == 'fn':
            self.at += 1
            word = 'fn'
        if word == 'fn':
            self.function(is_test)
        elif word == 'impl':
            self.implementation(start)
        else:
            {
                'use': self.use,
                'mod': self.module,
                'trait': self.trait,
                'const': self.constant,
                'type': self.alias,
            }[word]()

    def no_attributes(self, given: list[Attribute]) -> None:
        """Refuses attributes where none is known."""
        if given:
            raise self.refuse(f'the attribute `#[{given[0].name}]` here', given[0].start)

    def visibility(self) -> None:
        """Steps over `pub`, `pub(crate)` and `pub(super)`."""
        if self.text(self.at) == 'pub':
            self.at += 1
            if self.text(self.at) == '(':
                if (
                    self.text(self.at + 1) not in ('crate', 'super')
                    or self.text(self.at + 2) != ')'
                ):
                    raise self.refuse('a form of `pub(..)`', self.at)
                self.at += 3

    def ghost(self, start: int, where: str) -> None:
        """A ghost import or member, which is struck out."""
        self.at += 1
        if self.text(self.at) == 'use':
            while self.text(self.at) != ';':
                if (
                    self.text(self.at) in ('', 'fn', 'ghost')
                    or self.token(self.at).kind == 'string'
                ):
                    raise self.refuse('a ghost import that doesn\'t end', start)
                self.at += 1
            self.at += 1
            return self.strike(start, self.at - 1, 'ghost-use')
        if where == 'module':
            raise self.refuse(f'a ghost item `{self.text(self.at)}` of a module', self.at)
        self.name()
        if self.text(self.at) not in (':', '='):
            raise self.refuse(f'a ghost member that goes on with `{self.text(self.at)}`', self.at)
        while self.text(self.at) in (':', '=', 'by'):
            self.at += 1
            self.term()
        ends = (',', '}') if where == 'struct' else (';',)
        if self.text(self.at) not in ends:
            raise self.refuse(f'a ghost member that goes on with `{self.text(self.at)}`', self.at)
        if self.text(self.at) != '}':
            self.at += 1
        self.strike(start, self.at - 1, 'ghost-member', comments=True)

    def term(self) -> None:
        """Steps over a term of antt between braces. Forms in which a brace may stand for something
        else are refused.
        """
        if self.text(self.at) != '{':
            raise self.refuse(f'a term was expected, and there is `{self.text(self.at)}`', self.at)
        end = self.closing(self.at)
        for at in range(self.at, end):
            if self.token(at).kind in ('char', 'lifetime') or self.text(at) == "'":
                raise self.refuse('a quote within a term', at)
            if (
                self.text(at) + self.text(at + 1) in ('--', '{-', '-}')
                and self.code[at] + 1 == self.code[at + 1]
            ):
                raise self.refuse('a comment within a term', at)
        if any(
            it.kind in ('line', 'block') for it in self.tokens[self.code[self.at] : self.code[end]]
        ):
            raise self.refuse('a comment within a term', self.at)
        self.at = end + 1

    def generics(self) -> derives.Generics:
        """Steps over the parameters of an item."""
        found = derives.Generics()
        if self.text(self.at) != '<':
            return found
        end = self.angle(self.at)
        self.walk(self.at + 1, end)
        start, depth = self.at + 1, 0
        for at in range(start, end + 1):
            text = self.text(at)
            depth += (text in ('(', '[', '<')) - (
                text in (')', ']') or text == '>' and self.text(at - 1) != '-'
            )
            if at == end or text == ',' and not depth:
                if at > start:
                    found.declared.append(
                        tidied(''.join(self.out[self.code[start] : self.code[at]])).strip()
                    )
                    found.names.append(self.text(start))
                start = at + 1
        self.at = end + 1
        return found

    def until(self, *ends: str) -> None:
        """Walks through types up to the first of these outside of brackets."""
        start, at = self.at, self.at
        while self.text(at) not in ends:
            text = self.text(at)
            if not text or text in CLOSES or text == ';':
                raise self.refuse(f'`{text}` where one of {" ".join(ends)} was expected', at)
            at = (
                self.angle(at) + 1
                if text == '<'
                else self.closing(at) + 1
                if text in OPENS
                else at + 1
            )
        self.walk(start, at)
        self.at = at

    def where_clause(self, *ends: str) -> bool:
        """Steps over bounds after `where`, if there are any."""
        if self.text(self.at) != 'where':
            return False
        self.at += 1
        self.until(*ends)
        return True

    def shape(self, given: list[Attribute], word: str) -> None:
        """A struct or an enum, and what its derives stand for."""
        self.at += 1
        name = self.name()
        item = Item(name, self.generics())
        self.where_clause('{', ';')
        if self.text(self.at) == '(' and word == 'struct':
            end = self.closing(self.at)
            self.at += 1
            while self.at < end:
                self.no_attributes(self.attributes())
                self.visibility()
                self.until_comma(end)
            self.at = end + 1
            self.expect(';')
        elif self.text(self.at) == ';' and word == 'struct':
            self.at += 1
        elif self.text(self.at) == '{':
            self.members(item, word)
        else:
            raise self.refuse(f'a {word} that goes on with `{self.text(self.at)}`', self.at)
        for it in given:
            if it.name != 'derive':
                raise self.refuse(f'the attribute `#[{it.name}]` before `{word}`', it.start)
            self.derive(it, item)
        if item.variants and not any('Error' in it.words for it in given):
            raise self.refuse(
                '`#[error(..)]` without a derived Error', given[0].start if given else self.at - 1
            )

    def until_comma(self, end: int) -> None:
        """Walks through a type up to the next comma before a place, and over it."""
        start = self.at
        while self.at < end and self.text(self.at) != ',':
            text = self.text(self.at)
            self.at = (
                self.angle(self.at) + 1
                if text == '<'
                else self.closing(self.at) + 1
                if text in OPENS
                else self.at + 1
            )
        self.walk(start, self.at)
        self.at += self.at < end

    def members(self, item: Item, word: str) -> None:
        """The fields of a struct or the variants of an enum."""
        end = self.closing(self.at)
        self.at += 1
        while self.at < end:
            start = self.at
            given = self.attributes()
            self.visibility()
            if self.text(self.at) == 'ghost' and word == 'struct':
                self.no_attributes(given)
                self.ghost(start, 'struct')
            elif word == 'struct':
                self.no_attributes(given)
                self.name()
                self.expect(':')
                self.until_comma(end)
            else:
                self.variant(item, given, end)
        self.at = end + 1

    def variant(self, item: Item, given: list[Attribute], end: int) -> None:
        """A variant of an enum."""
        name, fields = self.name(), ''
        if self.text(self.at) in ('(', '{'):
            fields = self.text(self.at)
            close = self.closing(self.at)
            self.walk(self.at + 1, close)
            self.at = close + 1
        if self.text(self.at) == '=':
            self.until_comma(end)
        elif self.at < end:
            self.expect(',')
        for it in given:
            if (
                it.name != 'error'
                or len(it.words) != 3
                or self.token(it.start + 4).kind != 'string'
            ):
                raise self.refuse(
                    f'the attribute `#[{it.name}..]` of a variant in this form', it.start
                )
            item.variants.append(derives.Variant(name, it.words[1], fields))
            if 'thiserror' not in self.scope.real:
                self.strike(it.start, it.end, 'derive-error')

    def derive(self, it: Attribute, item: Item) -> None:
        """Writes what a derive stands for."""
        names = [word for word in it.words[1:-1] if word != ',']
        for name in names:
            if name not in known.DERIVES:
                raise self.refuse(f'a derive of `{name}`', it.start)
        if ('Copy' in names) != ('Clone' in names):
            raise self.refuse('a derive of one of Clone and Copy alone', it.start)
        kept = [
            name
            for name in names
            if name != 'Drop' and (name != 'Error' or 'thiserror' in self.scope.real)
        ]
        if 'Drop' in names:
            self.count('derive-drop')
        if 'Copy' in names:
            self.count('derive-copy')
            self.behind(self.at - 1, '\n\n' + derives.copied(item.name, item.generics))
        if 'Error' in names:
            self.count('derive-error')
            if 'thiserror' not in self.scope.real:
                try:
                    self.behind(self.at - 1, '\n\n' + derives.shown(item.name, item.variants))
                except ValueError as error:
                    raise self.refuse(str(error), it.start) from None
        for at in range(self.code[it.start], self.code[it.end] + 1):
            self.out[at] = ''
        self.out[self.code[it.start]] = f'#[derive({", ".join(kept)})]' if kept else GONE

    def function(self, is_test: bool) -> None:
        """A function: its signature, its clauses and its body."""
        self.at += 1
        head = self.at
        name = self.name()
        self.generics()
        close = self.closing(self.at)
        said = ''.join(self.text(at) for at in range(head + 1, close + 1))
        takes_runtime = name == 'main' or is_test
        if takes_runtime:
            if said != '(rt:HostRuntime)':
                raise self.refuse(f'`{name}` with other parameters than `rt: HostRuntime`', head)
            for at in range(self.code[self.at] + 1, self.code[close]):
                self.out[at] = ''
        elif 'fmt::Write' in said or 'Formatter' in said:
            if name != 'fmt' or said != '<W:fmt::Write>(&self,f:&mutfmt::Formatter<W>)':
                raise self.refuse('a formatter in another form', head)
            self.count('fmt')
            first, last = self.code[head + 1], self.code[close]
            self.out[first : last + 1] = [FORMATTER] + [''] * (last - first)
        else:
            self.walk(self.at + 1, close)
        self.at = close + 1
        result = self.at
        if self.text(self.at) == '-' and self.text(self.at + 1) == '>':
            self.at += 2
            self.until('{', ';', 'where', 'requires', 'ensures')
        result_end = self.at
        has_bounds = self.where_clause('{', ';', 'requires', 'ensures')
        has_clauses = self.clauses()
        if self.text(self.at) == ';':
            self.at += 1
            return
        if self.text(self.at) != '{':
            raise self.refuse(f'a function that goes on with `{self.text(self.at)}`', self.at)
        if has_clauses and not has_bounds:
            self.out[self.code[self.at] - 1] = ' '
        end = self.closing(self.at)
        self.walk(self.at + 1, end)
        if is_test:
            self.test(result, result_end, end)
        elif name == 'main':
            self.count('main')
            self.behind(self.at, '\n' + self.indent(self.at) + RUNTIME)
        self.at = end + 1

    def test(self, result: int, result_end: int, end: int) -> None:
        """Hands the body of a test to what makes the runtime and tells its error."""
        said = ''.join(self.text(at) for at in range(result, result_end))
        if said != '->Result<(),Fail>':
            raise self.refuse('a test that doesn\'t return Result<(), Fail>', result)
        self.count('test')
        for at in range(self.code[result], self.code[result_end]):
            self.out[at] = ''
        self.behind(
            self.at,
            '\n'
            + self.indent(self.at)
            + 'rattle_std::test::run(|rt: HostRuntime| -> Result<(), Fail> {',
        )
        self.out[self.code[end]] = '})\n' + self.indent(self.at)[:-4] + '}'

    def indent(self, at: int) -> str:
        """The space with which the statements of the block that opens at a place are indented."""
        space = self.tokens[self.code[at] + 1]
        return (
            space.text.rpartition('\n')[2]
            if space.kind == 'space' and '\n' in space.text
            else '    '
        )

    def clauses(self) -> bool:
        """Strikes out the clauses of a function, with the remarks between them. Whether there were
        any.
        """
        start = self.at
        while self.text(self.at) in ('requires', 'ensures'):
            self.at += 1
            if self.token(self.at).kind == 'word':
                self.at += 1
            if self.text(self.at) != '{':
                raise self.refuse(f'a clause that goes on with `{self.text(self.at)}`', self.at)
            self.term()
            self.count('contract')
        if self.at == start:
            return False
        for at in range(self.code[start - 1] + 1, self.code[self.at - 1] + 1):
            self.out[at] = ''
        return True

    def implementation(self, start: int) -> None:
        """An impl, of a trait or of a type's own."""
        self.at += 1
        self.generics()
        head = self.at
        self.until('{', 'for', 'where')
        if self.text(self.at) == 'for':
            name = self.trait_named(head)
            self.at += 1
            self.until('{', 'where')
            if name == 'Model':
                end = self.closing(self.at)
                self.members_of_model(end)
                self.strike(start, end, 'model', comments=True)
                self.at = end + 1
                return
        self.where_clause('{')
        self.block('impl')

    def trait_named(self, head: int) -> str:
        """The trait of an impl. A trait of the library that isn't known is refused."""
        name = ''
        for at in range(head, self.at):
            if self.text(at) == '<':
                break
            name += self.text(at)
        root = name.partition(':')[0]
        full = self.imports.get(root, root)
        is_library = (
            full.partition(':')[0] in ('std', *known.KIT_CRATES)
            or root not in self.imports
            and root not in self.declared
        )
        if (
            is_library
            and root not in ('crate', 'self', 'super')
            and root not in self.scope.libraries
            and name not in known.IMPLEMENTED
        ):
            raise self.refuse(f'an impl of `{name}`', head)
        return name

    def members_of_model(self, end: int) -> None:
        """A model has ghost members alone: a function in it would be lost."""
        at = self.at + 1
        while at < end:
            if self.text(at) in OPENS:
                at = self.closing(at)
            elif self.text(at) == 'fn':
                raise self.refuse('a function in an impl of Model', at)
            at += 1

    def block(self, where: str) -> None:
        """The items between braces."""
        end = self.closing(self.at)
        self.at += 1
        while self.at < end:
            self.item(where)
        self.at = end + 1

    def trait(self) -> None:
        """A trait."""
        self.at += 1
        self.name()
        self.generics()
        if self.text(self.at) == ':':
            self.until('{', 'where')
        self.where_clause('{')
        self.block('trait')

    def constant(self) -> None:
        """`const NAME: type = value;`"""
        self.at += 1
        self.name()
        self.expect(':')
        self.until('=', ';')
        if self.text(self.at) == '=':
            self.at += 1
            self.value()
        self.expect(';')

    def value(self) -> None:
        """Walks through a value up to its `;`."""
        start = self.at
        while self.text(self.at) != ';':
            if not self.text(self.at):
                raise self.refuse('a value that doesn\'t end', start)
            self.at = self.closing(self.at) + 1 if self.text(self.at) in OPENS else self.at + 1
        self.walk(start, self.at)

    def alias(self) -> None:
        """`type NAME = type;`, and an associated type with its bounds."""
        self.at += 1
        self.name()
        self.generics()
        self.value()
        self.expect(';')

    def module(self) -> None:
        """`mod name;`, or the module of tests."""
        self.at += 1
        self.name()
        if self.text(self.at) == '{':
            self.behind(self.at, '\n    ' + PRELUDE.rstrip())
            self.count('prelude')
            self.block('module')
        else:
            self.expect(';')

    # ---- imports ----

    def use(self) -> None:
        """An import."""
        start = self.at
        self.at += 1
        root = self.at
        leaves: list[tuple[str, str]] = []
        self.tree('', leaves)
        self.expect(';')
        if leaves == [('Model', 'std::marker::Model')]:
            return self.strike(start, self.at - 1, 'model')
        if leaves == [('Error', 'thiserror::Error')]:
            if 'thiserror' not in self.scope.real:
                self.strike(start, self.at - 1, 'derive-error')
            return None
        word = self.text(root)
        if word == 'std':
            self.replace(root, 'rattle_std', 'std-path')
        elif word in known.KIT_CRATES:
            self.hold_to_library(word, root)
            self.replace(root, f'rattle_std::{word}', 'kit-path')
        elif (
            word not in ('crate', 'self', 'super')
            and word not in self.scope.libraries
            and word not in self.declared
        ):
            raise self.refuse(
                f'an import of `{word}`, which crates.txt doesn\'t name for this crate', root
            )
        for name, path in leaves:
            if word == 'std' or word in known.KIT_CRATES:
                self.hold_to_path(path, root)
            elif name == '*' and path != 'super::*':
                raise self.refuse(f'an import of all names: {path}', root)
            self.imports[name] = path
        return None

    def tree(self, path: str, leaves: list[tuple[str, str]]) -> None:
        """One tree of an import: its leaves are added, each by its name here and its path."""
        while True:
            if self.text(self.at) == '{':
                end = self.closing(self.at)
                self.at += 1
                while self.at < end:
                    self.tree(path, leaves)
                    if self.at < end:
                        self.expect(',')
                self.at = end + 1
                return
            if self.text(self.at) == '*':
                self.at += 1
                leaves.append(('*', path + '*'))
                return
            word = self.name()
            if self.is_path(self.at):
                self.at += 2
                path += word + '::'
                continue
            full = path[:-2] if word == 'self' else path + word
            name = full.rpartition(':')[2]
            if self.text(self.at) == 'as':
                self.at += 1
                name = self.name()
            leaves.append((name, full))
            return

    def hold_to_library(self, word: str, at: int) -> None:
        """Refuses a library of the toolkit that crates.txt doesn't name for this crate."""
        if word not in self.scope.libraries:
            raise self.refuse(
                f'the library {word}, which crates.txt doesn\'t name for this crate', at
            )

    def hold_to_path(self, path: str, at: int) -> None:
        """Refuses a path of a library that isn't known."""
        if path not in known.STD and path not in known.KIT and path not in known.MODULES:
            raise self.refuse(f'the path {path}', at)

    # ---- types and bodies ----

    def walk(self, start: int, end: int) -> None:
        """Walks through types, or through the statements of a body."""
        at = start
        while at < end:
            token = self.token(at)
            if token.kind == 'other':
                raise self.refuse(f'`{token.text}` outside of a clause', at)
            if token.text == '#':
                at = self.attribute_within(at)
            elif token.kind == 'word':
                at = self.word(at)
            else:
                if token.text == '.' and self.text(at + 1) == '.':
                    self.hold_to_range(at)
                at += 1

    def hold_to_range(self, at: int) -> None:
        """Refuses `a..` without an end as a value: as an iterator it ends otherwise in Rattle."""
        if self.text(at - 1) not in ('(', ',', '[', '{', '.', '|') and self.text(at + 2) in (
            ')',
            '{',
            ';',
        ):
            raise self.refuse('a range without an end', at)

    def attribute_within(self, at: int) -> int:
        """An attribute of a statement or an arm: only those of the prover are known."""
        end = self.closing(at + 1) if self.text(at + 1) == '[' else at
        if self.text(at + 2) != 'tactic' or end == at:
            raise self.refuse(f'the attribute `#[{self.text(at + 2)}]` within a body', at)
        self.strike(at, end, 'tactic')
        return end + 1

    def word(self, at: int) -> int:
        """A word of a type or a body: the place behind what was read."""
        text, after = self.text(at), self.text(at + 1)
        is_field = self.text(at - 1) == '.' and self.text(at - 2) != '.'
        if is_field:
            if after == '(' or self.is_path(at + 1):
                self.method(at)
            return at + 1
        if text in known.REFUSED_WORDS or text in ITEMS and text not in ('use', 'impl', 'for'):
            raise self.refuse(f'`{text}` within a type or a body', at)
        if text == 'impl':
            raise self.refuse('`impl Trait` as a type', at)
        if text == 'use':
            kept, self.at = self.at, at
            self.use()
            at, self.at = self.at, kept
            return at
        if text == 'Drop':
            return self.drop_bound(at)
        if after == '!' and self.text(at + 2) in OPENS and self.code[at] + 1 == self.code[at + 1]:
            return self.macro(at)
        if self.is_path(at + 1):
            return self.path_of(at)
        return at + 1

    def drop_bound(self, at: int) -> int:
        """`Drop` among the bounds of a type."""
        before, after = self.text(at - 1), self.text(at + 1)
        if before == '+':
            self.strike(at - 1, at, 'drop-bound')
        elif before == ':' and self.text(at - 2) != ':' and after == '+':
            self.strike(at, at + 1, 'drop-bound')
            self.out[self.code[at + 1] + 1] = ''
        elif (
            before == ':'
            and self.text(at - 2) != ':'
            and after in (',', '>', '{', ';', '=', 'where')
        ):
            self.strike(at - 1, at, 'drop-bound')
        else:
            raise self.refuse('`Drop` that isn\'t a bound', at)
        return at + 1

    def method(self, at: int) -> None:
        """A call of a method."""
        name = self.text(at)
        if name not in known.METHODS and name not in self.scope.functions:
            raise self.refuse(f'the method `.{name}(..)`', at)
        if self.is_path(at + 1) and name != 'parse':
            raise self.refuse(f'`.{name}::<..>(..)`', at)
        if name == 'collect':
            self.replace(at, 'collect_in', 'collect')
        elif name == 'to_vec':
            self.replace(at, 'vec_in', 'to-vec')
        elif name == 'is_none_or':
            self.replace(at, 'map_or', 'none-or')
            self.behind(at + 1, 'true, ')

    def macro(self, at: int) -> int:
        """A macro: the place of its arguments, which are walked through like all else."""
        name, first = self.text(at), at + 3
        if name not in known.MACROS:
            raise self.refuse(f'the macro `{name}!`', at)
        form = known.MACROS[name]
        if (
            form == 'in'
            and self.text(first) != 'in'
            or form == 'rt'
            and self.text(first + 1) != ';'
        ):
            raise self.refuse(f'`{name}!` without what it is passed in Rattle', at)
        if form == 'in':
            self.strike(first, first, name)
            self.out[self.code[first] + 1] = ''
            self.out[self.code[at]] = f'rattle_std::{name}_in'
        elif name == 'println':
            self.replace(at, f'rattle_std::{name}_to', 'print')
        elif form == 'rt':
            self.strike(first, first + 1, 'assert')
            if self.tokens[self.code[first + 1] + 1].text == ' ':
                self.out[self.code[first + 1] + 1] = ''
        return first + (form == 'in')

    def path_of(self, at: int) -> int:
        """A path of two or more words: the place behind it."""
        words, to = [self.text(at)], at + 1
        while self.is_path(to) and self.token(to + 2).kind == 'word':
            words.append(self.text(to + 2))
            to += 3
        if self.is_path(to):
            raise self.refuse(f'a path that goes on with `::{self.text(to + 2)}`', to)
        root = words[0]
        full = self.imports.get(root) or known.PRELUDE.get(root) or root
        path = '::'.join([full, *words[1:]])
        of_library = path.partition(':')[0]
        if root in known.PRIMITIVES:
            if path not in known.OF_PRIMITIVES:
                raise self.refuse(f'the path {path}', at)
        elif of_library == 'std' or of_library in known.KIT_CRATES:
            self.hold_to_path(path, at)
            self.library_path(at, root, path)
        return to

    def library_path(self, at: int, root: str, path: str) -> None:
        """Writes a path in a library as it stands in the export."""
        if path == 'std::boxed::Box::new':
            self.replace(at, 'rattle_std::boxed', 'box-new')
        elif root == 'str':
            self.replace(at, 'core::str', 'str-path')
        elif root == 'std':
            self.replace(at, 'rattle_std', 'std-path')
        elif root in known.KIT_CRATES and root not in self.imports:
            self.hold_to_library(root, at)
            self.replace(at, f'rattle_std::{root}', 'kit-path')


def tidied(text: str) -> str:
    """The text without the lines of which nothing is left, and without blank lines that stood
    between such.
    """
    text = re.sub(r'^[ \t]*\0[ \t\0]*\n', '', text, flags=re.M)
    text = re.sub(r'[ \t]*\0(?=[ \t]*(?:\n|[,;>)]))', '', text).replace('\0', '')
    text = re.sub(r'[ \t]+\n', '\n', text)
    text = re.sub(r'\n{3,}', '\n\n', text)
    text = re.sub(r'\{\n\n', '{\n', text)
    return re.sub(r'\n\n([ \t]*\})', r'\n\1', text).lstrip('\n')


def functions_in(texts: Iterable[str]) -> frozenset[str]:
    """The names of all functions that some texts declare."""
    return frozenset(name for text in texts for name in re.findall(r'\bfn ([A-Za-z_]\w*)', text))
