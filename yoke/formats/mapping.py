"""Properties of a feature as tags of the map, by a file of rules, or as they are.

A file of rules has a line for each tag:

    # addresses of the town
    addr:street = {STRASSE}
    addr:housenumber = {HNR}{ZUSATZ}
    building = {ART|Wohnhaus=house|Garage=garage|*=yes}
    source = Stadt Neuburg, 2024
    required {STRASSE} addr:housenumber
    *

- `{NAME}` is the value of a property. The tag isn't set where its first property is missing or empty; further ones count
  as nothing then. `{{` and `}}` are braces.
- `{NAME|FROM=TO|..}` gives each value another text; `*=TO` is for all others. Without it a value that isn't named sets no
  tag, and the report counts it.
- A text without a property is set in each feature.
- A line `required` names properties, in braces, and tags that have a rule. A feature in which one of them is missing or
  empty is left out, and listed.
- A line `*` keeps each property that no rule names, under its own name. Without rules all are kept so.
- Lines that are empty or begin with `#` are skipped.

A property whose name begins with `@` is metadata, as Overpass writes it, and never becomes a tag
under its own name.

Of values blanks at the ends are trimmed; true and false are `yes` and `no`; null and empty texts
set no tag; lists and objects set none either, and are counted.
"""
import difflib
import re
from collections import Counter
from dataclasses import dataclass
from decimal import Decimal
from typing import (
    Any,
    Dict,
    FrozenSet,
    Iterable,
    List,
    Mapping as MappingOf,
    Optional,
    Set,
    Tuple,
    Union,
)

from yoke import opl

PART = re.compile('{{|}}|{([^{}]*)}|[{}]')
CONTROL = re.compile('[\x00-\x1f\x7f-\x9f\ud800-\udfff\ufffe\uffff]')
METADATA = '@'  # with which the name of a property begins that is never a tag
REQUIRED = re.compile('required((?:[ \t]+(?:{[^{}]+}|[^{}= \t]+))+)')
Properties = MappingOf[str, Any]


class Left(Exception):
    """A feature is left out; the text says why."""


@dataclass(frozen=True)
class Property:
    """A property in a rule: its name, and what its values become, or None where they stay."""

    name: str
    values: Optional[Dict[str, str]] = None

    def text(self, properties: Properties, notes: 'Counter[str]') -> str:
        """The text of the property; empty where it sets nothing."""
        found = scalar(properties.get(self.name), self.name, notes)
        if not found or self.values is None:
            return found
        if found not in self.values and '*' not in self.values:
            notes[f'{self.name} {found} has no rule'] += 1
        return self.values.get(found, self.values.get('*', ''))


@dataclass(frozen=True)
class Rule:
    """A tag: its key, and the texts and properties of which its value is put together."""

    key: str
    parts: Tuple[Union[str, Property], ...]

    @property
    def properties(self) -> List[str]:
        """The names of the properties in it."""
        return [part.name for part in self.parts if isinstance(part, Property)]

    def value(self, properties: Properties, notes: 'Counter[str]') -> str:
        """The value; empty where the tag isn't set."""
        texts = [
            part if isinstance(part, str) else part.text(properties, notes) for part in self.parts
        ]
        first = next(
            (text for text, part in zip(texts, self.parts) if isinstance(part, Property)), 'x'
        )
        return ''.join(texts).strip() if first else ''


@dataclass(frozen=True)
class Mapping:
    """The rules of a file; `keeps_others` where properties that no rule names are kept.

    `others` are the names of those that are kept, None for all. `required` are names of properties
    in braces, and keys.
    """

    rules: Tuple[Rule, ...] = ()
    keeps_others: bool = True
    others: Optional[FrozenSet[str]] = None
    required: Tuple[str, ...] = ()

    def tags(self, properties: Properties, notes: 'Counter[str]') -> Dict[str, str]:
        """The tags of a feature; Left where one of them is none that the map takes, or what is
        required is missing.

        `notes` counts what sets no tag.
        """
        named = self.named()
        pairs = [(rule.key, rule.value(properties, notes)) for rule in self.rules]
        if self.keeps_others:
            pairs += [
                (name.strip(), scalar(value, name, notes))
                for name, value in properties.items()
                if name not in named and self.keeps(name)
            ]
        tags: Dict[str, str] = {}
        for key, value in pairs:
            if value:
                check(key, value, tags)
                tags[key] = value
        for name in self.required:
            found = (
                scalar(properties.get(name[1:-1]), name, Counter())
                if name[0] == '{'
                else tags.get(name)
            )
            if not found:
                raise Left(f'{name.strip("{}")} is missing, and it is required')
        return tags

    def named(self) -> Set[str]:
        """The names of the properties that rules name."""
        return {name for rule in self.rules for name in rule.properties}

    def keeps(self, name: str) -> bool:
        """Whether a property that no rule names becomes a tag under its own name."""
        return not name.startswith(METADATA) and (self.others is None or name in self.others)

    def uses(self, name: str) -> bool:
        """Whether tags come from a property."""
        return name in self.named() or self.keeps_others and self.keeps(name)

    def unknown(self, names: Iterable[str]) -> Optional[Tuple[str, str]]:
        """A property that a rule or `required` names and a file doesn't have, and the nearest that
        it has, or an empty text.
        """
        there = list(names)
        wanted = [name for rule in self.rules for name in rule.properties]
        wanted += [name[1:-1] for name in self.required if name[0] == '{']
        missing = next((name for name in wanted if name not in there), None)
        return None if missing is None else (missing, nearest(missing, there))


def nearest(name: str, names: Iterable[str]) -> str:
    """The name of some that a misspelt one most likely means; empty where none is near."""
    plain = {one.casefold().strip(): one for one in reversed(list(names))}
    found = difflib.get_close_matches(name.casefold().strip(), plain, 1, 0.6)
    return plain[found[0]] if found else ''


def check(key: str, value: str, tags: MappingOf[str, str]) -> None:
    """Left where a tag is none that the map takes, or its key stands in the tags already."""
    if not key:
        raise Left('a property has no name')
    if key in tags:
        raise Left(f'the tag {key} would stand twice')
    for what, text in (('key', key), ('value', value)):
        if len(text) > opl.LONGEST:
            raise Left(
                f'{key[:40]}: the {what} has {len(text)} characters, and the map takes {opl.LONGEST}'
            )
        found = CONTROL.search(text)
        if found:
            raise Left(
                f'{CONTROL.sub("?", key[:40])}: the {what} has the control character U+{ord(found[0]):04X}'
            )


def scalar(value: Any, name: str, notes: 'Counter[str]') -> str:
    """A value as the text of a tag; empty where it sets none."""
    if value is None:
        return ''
    if isinstance(value, bool):
        return 'yes' if value else 'no'
    if isinstance(value, (int, Decimal)):
        if abs(Decimal(value).adjusted()) > opl.LONGEST:
            raise Left(f'{name[:40]}: a number of more than {opl.LONGEST} digits')
        return number(Decimal(value))
    if isinstance(value, str):
        return value.strip()
    notes[f'{name} is a list or an object'] += 1
    return ''


def number(value: Decimal) -> str:
    """A number without an exponent and without zeros at its end."""
    text = f'{value:f}'
    return text.rstrip('0').rstrip('.') if '.' in text else text


# ---- the file ----


def read(text: str) -> Mapping:
    """The rules of a file; ValueError, with the line, where one is none."""
    rules: List[Rule] = []
    required: List[Tuple[int, str]] = []
    keeps_others = False
    for line_number, line in enumerate(text.split('\n'), 1):
        line = line.strip()
        words = REQUIRED.fullmatch(line)
        if line == '*':
            keeps_others = True
        elif words:
            required += [
                (line_number, word) for word in re.findall('{[^{}]+}|[^{}= \t]+', words[1])
            ]
        elif line and line[0] != '#':
            key, equals, value = map(str.strip, line.partition('='))
            if not key or not equals or not value or key in [rule.key for rule in rules]:
                raise ValueError(
                    'line {}: {}'.format(
                        line_number,
                        f'the tag {key} has a rule already'
                        if key and equals and value
                        else 'KEY = VALUE is wanted',
                    )
                )
            rules.append(rule_of(key, value, f'line {line_number}: '))
    if not rules and not keeps_others:
        raise ValueError('it has no rule')
    for line_number, word in required:
        keys = [rule.key for rule in rules]
        if word[0] != '{' and word not in keys:
            near = nearest(word, keys)
            raise ValueError(
                f'line {line_number}: {word} is required, and no rule sets it'
                + (f': did you mean {near}?' if near else '')
            )
    return Mapping(tuple(rules), keeps_others, None, tuple(word for _, word in required))


def rule_of(key: str, value: str, where: str = '') -> Rule:
    """The rule KEY = VALUE; ValueError, which begins with `where`, if it is none."""
    if key.startswith(METADATA):
        raise ValueError(f'{where}no tag has a key that begins with {METADATA}, as {key} does')
    return Rule(key, tuple(_parts(value, where)))


def _parts(text: str, where: str) -> List[Union[str, Property]]:
    parts: List[Union[str, Property]] = []
    at = 0
    for found in PART.finditer(text):
        parts.append(text[at : found.start()])
        if found[0] in ('{{', '}}'):
            parts.append(found[0][0])
        elif found[1]:
            parts.append(_property(found[1], where))
        else:
            raise ValueError(f'{where}a brace by itself, or without a name')
        at = found.end()
    return [part for part in parts + [text[at:]] if part != '']


def _property(text: str, where: str) -> Property:
    name, *values = text.split('|')
    pairs = [value.split('=', 1) for value in values]
    if not name or any(len(pair) < 2 for pair in pairs):
        raise ValueError(f'{where}{{{text}}} is no {{NAME}} or {{NAME|FROM=TO}}')
    return Property(name, {pair[0].strip(): pair[1].strip() for pair in pairs} if values else None)
