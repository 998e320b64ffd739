"""Which columns of a table become tags: those that rules or `--columns` name, or that a person has
seen and confirmed.
"""
import sys
from dataclasses import replace
from typing import Callable, Iterable, List, Mapping as MappingOf, Optional, Sequence

from yoke.formats.mapping import Mapping, nearest
from yoke.formats.suspicions import Accepted, Suspicion, is_metadata, listed, samples, words_of
from yoke.sides import plain
from yoke.trouble import Refused, Usage

MOST = 40  # columns in a list

Ask = Callable[[str], bool]


def options(names: Sequence[str]) -> str:
    """How the columns that are tags are named on a command line."""
    return f'{words_of("--columns", names)}, or name a file of rules by --tags'


def is_terminal() -> bool:
    """Whether a person can be asked."""
    return sys.stdin.isatty() and sys.stderr.isatty()


def asked(question: str) -> bool:
    """Whether a person at the terminal says yes; no where there is no terminal."""
    if not is_terminal():
        return False
    sys.stdout.flush()
    print(f'{question} [y/N] ', end='', file=sys.stderr, flush=True)
    return sys.stdin.readline().strip().lower() in ('y', 'yes')


def word_of(names: Iterable[str]) -> str:
    """The names in a word as `--columns` takes it."""
    return ','.join('"{}"'.format(name.replace('"', '""')) for name in names)


def mapping_of(
    rules: Optional[Mapping],
    given: Optional[Sequence[str]],
    names: Sequence[str],
    used: Iterable[str],
    columns: MappingOf[str, Sequence[str]],
    accepted: Accepted,
    ask: Ask = asked,
    way: Callable[[Sequence[str]], str] = options,
) -> Mapping:
    """The rules by which columns become tags, all of which the user named or confirmed.

    `names` are those of the columns, `used` those that mean something else, such as the key of an
    object; `columns` has their values. `given` are the words of `--columns`. Usage where a name is
    none, Refused where the user has to name them first, in the way that `way` tells.
    """
    if rules is not None:
        check_rules(rules, names)
    named = rules.named() if rules else set()
    if given is not None:
        wanted = [name for word in given for name in listed(word)]
        check_names(wanted, names)
        return replace(rules or Mapping(), keeps_others=True, others=frozenset(wanted))
    if rules is not None and not rules.keeps_others:
        return rules
    left = [
        name
        for name in names
        if name and name not in named and name not in used and not is_metadata(name)
    ]
    chosen = replace(rules or Mapping(), others=frozenset(left))
    if not left or accepted.takes(Suspicion('columns', '', '')):
        return chosen
    lines = listing(left, columns)
    is_seen = ask is asked and is_terminal()
    for line in lines if is_seen else ():
        print(line)
    if ask('become tags. Are all of them tags?'):
        return chosen
    filled = [name for name in left if any(text.strip() for text in columns.get(name, ()))] or left
    raise Refused(
        f'nothing is done: say which columns are tags, such as {way(filled)}; --accept columns takes all of these',
        () if is_seen else lines,
    )


def never_asked(question: str) -> bool:
    """No, where there is nobody to ask."""
    return False


def listing(names: Sequence[str], columns: MappingOf[str, Sequence[str]]) -> List[str]:
    """A line for each column, with a sample of its values."""
    width = min(max(len(plain(name)) for name in names), 30)
    lines = [
        f'column {plain(name):{width}}  {samples(columns.get(name, ()))}' for name in names[:MOST]
    ]
    return lines + ([f'and {len(names) - MOST} more columns'] if len(names) > MOST else [])


def check_names(wanted: Iterable[str], names: Sequence[str]) -> None:
    """Usage where a name is none of these columns, or is metadata."""
    for name in wanted:
        if name not in names:
            raise Usage(unknown(name, names))
        if is_metadata(name):
            raise Usage(f'{name} is metadata, as Overpass writes it, and never a tag')


def check_names_used(missing: Sequence[str], names: Sequence[str]) -> None:
    """Usage where a condition names columns that aren't there."""
    for name in missing:
        raise Usage('a condition: ' + unknown(name, names))


def check_rules(rules: Mapping, names: Sequence[str]) -> None:
    """Usage where a rule names a column that isn't there."""
    found = rules.unknown(names)
    if found:
        raise Usage('the rules: ' + unknown(found[0], names))


def unknown(name: str, names: Sequence[str]) -> str:
    """What to say of a column that isn't there."""
    near = nearest(name, names)
    shown: List[str] = [plain(one) for one in names[:MOST]]
    return f'there is no column {plain(name)}: ' + (
        f'did you mean {plain(near)}?' if near else f'it has {", ".join(shown)}'
    )
