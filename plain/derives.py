"""What the derives of Rattle and of thiserror stand for, in plain Rust."""
from __future__ import annotations

import re
from dataclasses import dataclass, field


@dataclass
class Generics:
    """The parameters of a type: as they are declared, and as they are named."""

    declared: list[str] = field(default_factory=list)
    names: list[str] = field(default_factory=list)

    def head(self, bound: str) -> str:
        """The parameters of an impl, with this bound on each type."""
        return f'<{", ".join(bounded(it, bound) for it in self.declared)}>' if self.declared else ''

    def given(self) -> str:
        """The parameters as arguments of the type."""
        return f'<{", ".join(self.names)}>' if self.names else ''


def bounded(parameter: str, bound: str) -> str:
    """A parameter with this bound, if it is a type."""
    if parameter.startswith("'"):
        return parameter
    return f'{parameter} + {bound}' if ':' in parameter else f'{parameter}: {bound}'


@dataclass(frozen=True)
class Variant:
    """A variant of an error: its name, the literal of its message, and how its fields are written:
    `{`, `(` or nothing.
    """

    name: str
    message: str
    fields: str


def copied(name: str, generics: Generics) -> str:
    """The clone of a type that is `Copy`."""
    return (
        f'impl{generics.head("Copy")} rattle_std::Clone for {name}{generics.given()} {{\n'
        '    fn clone(&self) -> Result<Self, rattle_std::alloc::AllocError> {\n'
        '        Ok(*self)\n'
        '    }\n'
        '}'
    )


PLACE = re.compile(r'\{([^{}]*)\}')


def shown(name: str, variants: list[Variant]) -> str:
    """Display and Error of an enum, as thiserror derives them.

    Raises ValueError with what is wrong where a message has a form that isn't known."""
    arms = ''.join(f'            {name}::{arm(it)},\n' for it in variants)
    return (
        f'impl ::core::fmt::Display for {name} {{\n'
        "    fn fmt(&self, f: &mut ::core::fmt::Formatter<'_>) -> ::core::fmt::Result {\n"
        '        match self {\n'
        f'{arms}'
        '        }\n'
        '    }\n'
        '}\n\n'
        f'impl ::std::error::Error for {name} {{}}'
    )


def arm(variant: Variant) -> str:
    """The arm of a match that writes a variant's message."""
    message = variant.message.replace('{{', '').replace('}}', '')
    names = list(dict.fromkeys(PLACE.findall(message)))
    for it in names:
        if not re.fullmatch('[a-z_][a-z0-9_]*', it):
            raise ValueError(f'a message of an error with {{{it}}}: only names of fields are known')
    if names and variant.fields != '{':
        raise ValueError(
            'a message of an error that names fields, of a variant that has none by name'
        )
    pattern = {'': '', '(': '(..)', '{': f' {{ {"".join(it + ", " for it in names)}.. }}'}[
        variant.fields
    ]
    return f'{variant.name}{pattern} => write!(f, {variant.message})'
