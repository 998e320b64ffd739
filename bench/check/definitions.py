"""The definitions of this repository and of the toolkit's library, and those that a text of them
rests on.

Each word of a text is followed, by the `use` lines of its file, to the definition that has it in
crates/*/specs, to the type of the program in crates/*/src, or to what the toolkit defines, and from
there on. So what is reached is at least what the text rests on; of the toolkit it may be more,
since there a lemma that a definition cites is followed too. The logic's own words (numbers, lists,
equality) aren't followed.

A law may settle a definition: it says of every answer when the definition gives it, in other words.
Then what the law says is followed in the definition's place, since it leaves no other answer; the
law is proved of it.

A type with an `impl Model` is in definitions and contracts what its `Value` says: so that is
followed in the type's place, and how the type is kept isn't.

Lines are counted without comments and empty ones.
"""
import collections
import copy
import pathlib
import re
import shutil
import textwrap

TOP = pathlib.Path(__file__).resolve().parents[2]
CRATES = TOP / 'crates'

HEAD = re.compile(r'\s*(?:(?:abbrev|unfoldable) (?:pub )?|pub (?:record|data) )(\S+)')
# the toolkit's files have definitions without such a word too, in modules, and private ones
KIT_HEAD = re.compile(
    r'(\s*)(?:(?:abbrev|unfoldable) )?(?:pub )?(?:(record|data) (\S+)|([^\s(){}\[\],;:=|]+) :(?= |$))'
)
ENDS = ('use ', 'pub use ', 'pub mod ', 'module ')
WORD = re.compile(r'[^\s(){}\[\],;:λ→×≡]+')
TYPE = re.compile(
    r'^(?:pub(?:\([a-z]+\))? )?(?:enum|struct|trait) (\w+)\b(?:[^\n]*[;}]$|.*?^\}$)', re.M | re.S
)
# what a type with private fields is in the logic
MODEL = re.compile(r'^impl(?:<[^>]*>)? Model for (\w+)[^\n]*\{$(.*?)^\}$', re.M | re.S)
VALUE = re.compile(r'^ +ghost Value = \{.*\};$', re.M)
USE = re.compile(
    r'^(?:pub |ghost )?use ((?:Rattle|lib)\.[\w.]+?)(?:\.\{([^}\n]*)\}| as (\w+));?$', re.M
)

# the definitions that a law settles, by their crates, and where the law stands in src/ with its
# name
SETTLED = {
    ('chunking', 'chunks'): ('law.rt', 'chunks_are_told'),
    ('map_search', 'query_of_words'): ('law.rt', 'read_as_spelled'),
    ('merge_cases', 'same_kind'): ('law.rt', 'same_kind_is_told'),
    ('merge_cases', 'same_pick'): ('law.rt', 'same_pick_is_told'),
    ('merge_cases', 'same_value'): ('law.rt', 'same_value_is_told'),
    ('opl_file', 'lines_of'): ('law.rt', 'lines_are_told'),
    ('opl_line', 'field_into'): ('law.rt', 'field_is_told'),
    ('opl_text', 'time_text'): ('time.rt', 'time_is_told'),
    ('opl_text', 'unescaped'): ('text.rt', 'read_as_spelled'),
    ('osm_base', 'same_content'): ('law.rt', 'same_content_is_told'),
    ('osm_base', 'same_coord'): ('law.rt', 'same_coord_is_told'),
    ('osm_base', 'same_members'): ('law.rt', 'same_members_is_told'),
    ('osm_base', 'same_meta'): ('law.rt', 'same_meta_is_told'),
    ('osm_base', 'same_refs'): ('law.rt', 'same_refs_is_told'),
    ('osm_base', 'same_text'): ('law.rt', 'same_text_is_told'),
    ('osm_table', 'same_entry'): ('law.rt', 'same_entry_is_told'),
    ('osm_table', 'same_mine'): ('law.rt', 'same_mine_is_told'),
    ('osm_table', 'same_why'): ('law.rt', 'same_why_is_told'),
    ('saved_session', 'entry_lines'): ('law.rt', 'entry_is_told'),
    ('saved_session', 'saved'): ('law.rt', 'text_is_told'),
    ('saved_session', 'saved_entry'): ('law.rt', 'entry_text_is_told'),
    ('saved_session', 'saved_lines'): ('law.rt', 'lines_are_told'),
    ('saved_session', 'saved_table'): ('law.rt', 'saved_table_is_told'),
    ('tool_api', 'is_candidate'): ('law.rt', 'is_candidate_is_told'),
    ('tool_api', 'is_clash'): ('law.rt', 'is_clash_is_told'),
    ('upload_order', 'downs'): ('laws.rt', 'downs_are_told'),
    ('upload_order', 'made'): ('laws.rt', 'made_are_told'),
    ('upload_order', 'ups'): ('laws.rt', 'ups_are_told'),
}
# how it reads: variables, the definition of some of them, an answer that is another, and what is
# said of them
LAW = re.compile(
    r'\{ ((?:\(\w+ : [^()]*(?:\([^()]*\)[^()]*)*\) )+)→ \((\w+) ((?:\w+ )*)≡ (\w+)\) ↔ (.+) \}'
)

Definition = collections.namedtuple('Definition', 'crate file line name lines text')


def without_comment(line, mark):
    return '' if line.lstrip().startswith(mark) else line


def operators(name):
    """The tokens by which a name is met: `◌>>◌` as `>>`, `if◌then◌else◌` as three words."""
    return [part for part in name.split('◌') if part] if '◌' in name else [name]


def kit_folder():
    """The folder of the toolkit's library, or None where there is no `rt` on the path."""
    rt = shutil.which('rt')
    folder = pathlib.Path(rt).resolve().parents[1] / 'rattle' if rt else None
    return folder if folder and (folder / 'std' / 'specs').is_dir() else None


class File:
    """What a file takes from others, and what it defines."""

    def __init__(self, path, home, crate):
        self.path, self.names, self.aliases, self.own, self.crate = path, {}, {}, {}, crate
        self.key = path
        self.place = str(path.relative_to(home))
        self.text = path.read_text()
        self.take(self.text)

    def take(self, text):
        """Notes what the `use` lines of a text take from others."""
        for place, listed, alias in USE.findall(text):
            place = place[len('Rattle.') :] if place.startswith('Rattle.') else place
            if alias:
                self.aliases[alias] = place
            for item in filter(None, re.split(r',\s*', listed)):
                name, _, called = item.partition(' as ')
                for token in operators(called or name):
                    self.names[token] = (place, name)

    def define(self, name, block):
        """Notes a definition by its lines with their numbers."""
        text = '\n'.join(line for _, line in block)
        made = Definition(self.crate, self.place, block[0][0], name, len(block), text)
        parts = (
            re.findall(r'^\s+(?:pub )?(\w+) :', text, re.M)
            if re.match(r'\s*(pub )?data ', text)
            else []
        )
        for token in operators(name) + parts:
            self.own.setdefault(token, made)

    def define_all(self, head_of, name_of):
        """Notes each definition of the file: from a head, which `head_of` finds in a line, to the
        next one, or to what ends it.
        """
        block, name = [], None
        for number, line in enumerate(self.text.split('\n'), 1):
            line = without_comment(line, '--')
            head = head_of(line)
            if head or line.startswith(ENDS):
                if name:
                    self.define(name, block)
                block, name = [], name_of(head) if head else None
            if name and line.strip():
                block.append((number, line))
        if name:
            self.define(name, block)


class Specs(File):
    """A file of definitions of this repository."""

    def __init__(self, path):
        super().__init__(path, TOP, path.relative_to(CRATES).parts[0])
        self.define_all(HEAD.match, lambda head: head[1])


class KitSpecs(File):
    """A file of definitions of the toolkit."""

    def __init__(self, path, home, crate):
        super().__init__(path, home, crate)
        self.within = None  # how far in the head of the record or data stands whose fields or variants these are
        self.define_all(self.head, lambda head: head[3] or head[4])

    def head(self, line):
        """The head of a definition that a line is, or None; what is further in than a record or
        data belongs to it.
        """
        if (
            not line.strip()
            or self.within is not None
            and len(line) - len(line.lstrip()) > self.within
        ):
            return None
        found = KIT_HEAD.match(line)
        self.within = len(found[1]) if found and found[2] else None
        return found


class Source(File):
    """A file of a program, for its types."""

    def __init__(self, path, home, crate):
        super().__init__(path, home, crate)
        self.uses = {}
        for place, listed, one in re.findall(
            r'^(?:pub )?use ([\w:]+?)::(?:\{([^}]*)\}|(\w+));', self.text, re.M
        ):
            for name in filter(None, re.split(r',\s*', listed or one)):
                self.uses[name.split('::')[-1].strip()] = place
        self.types = {}
        for hit in TYPE.finditer(self.text):
            self.types.setdefault(hit[1], hit)
        self.models = {hit[1]: hit for hit in MODEL.finditer(self.text) if VALUE.search(hit[2])}

    def seen(self, name):
        """The file by which the words of the type's declaration are followed: with what its `impl
        Model` takes, if it has one.
        """
        if name not in self.models:
            return self
        within = copy.copy(self)
        within.key, within.names, within.aliases = (self.path, name), {}, {}
        within.take(textwrap.dedent(self.models[name][2]))
        return within

    def declared(self, name):
        """The type of this name that the file declares, or None."""
        hit = self.types.get(name)
        if not hit:
            return None
        if name in self.models:
            model = self.models[name]
            value = VALUE.search(model[2])[0]
            number = self.text[: self.text.index(value, model.start())].count('\n') + 1
            return Definition(
                self.crate,
                self.place,
                number,
                name,
                3,
                '\n'.join((model[0].split('\n')[0], value, '}')),
            )
        lines = [without_comment(line, '//') for line in hit[0].split('\n')]
        lines = [line for line in lines if line.strip() and not line.strip().startswith('#[')]
        number = self.text[: hit.start()].count('\n') + 1
        return Definition(self.crate, self.place, number, name, len(lines), '\n'.join(lines))


class Tree:
    """All files, and what was reached of them: of the repository, and of the toolkit where its
    folder is given.
    """

    def __init__(self, kit=None):
        self.specs, self.sources, self.kit = {}, {}, kit
        self.kit_files, self.kit_sources, self.passed, self.meanings = {}, {}, {}, {}
        for path in sorted(CRATES.glob('*/specs/**/*.antt')):
            self.specs['.'.join(path.relative_to(CRATES).with_suffix('').parts)] = Specs(path)
        for path in sorted(CRATES.glob('*/src/**/*.rt')):
            self.sources[path] = Source(path, TOP, path.relative_to(CRATES).parts[0])
        self.forget()

    def forget(self):
        """Begins anew: nothing is reached."""
        self.reached, self.of_kit, self.library, self.users = {}, {}, set(), {}

    def source_type(self, crate, modules, name):
        """The type of the program that has this name there."""
        for base in [CRATES / crate / 'src' / pathlib.Path(*modules)] if modules else []:
            for path in (base.with_suffix('.rt'), base / 'mod.rt'):
                if path in self.sources and self.sources[path].declared(name):
                    return self.sources[path].seen(name), self.sources[path].declared(name)
        for path, source in self.sources.items():
            if source.crate == crate and source.declared(name):
                return source.seen(name), source.declared(name)
        return None

    def passed_on(self, parts):
        """The place of a module of the toolkit: its own, or the one from which its crate passes it
        on.
        """
        library = self.kit / parts[0] / 'specs' / 'Lib.antt'
        if (
            len(parts) < 3
            or not library.is_file()
            or (library.parent / (parts[2] + '.antt')).is_file()
        ):
            return parts
        if library not in self.passed:
            places = re.findall(r'^pub use Rattle\.([\w.]+)$', library.read_text(), re.M)
            self.passed[library] = {place.split('.')[-1]: place.split('.') for place in places}
        return self.passed[library].get(parts[2], parts[:3]) + parts[3:]

    def kit_file(self, parts):
        """A file of the toolkit by its place, as `core.specs.List` or `lib.Chars`, or None."""
        parts = self.passed_on(parts)
        path = (
            self.kit / 'logic' / 'Lib' / pathlib.Path(*parts[1:])
            if parts[0] == 'lib' and parts[1:]
            else self.kit / pathlib.Path(*parts)
        )
        path = path.with_name(path.name + '.antt')
        if path not in self.kit_files:
            self.kit_files[path] = KitSpecs(path, self.kit, parts[0]) if path.is_file() else None
        return self.kit_files[path]

    def kit_type(self, crate, modules, name):
        """The type of a toolkit's crate that has this name in a module."""
        for end in range(len(modules), 0, -1):
            path = (self.kit / crate / 'src' / pathlib.Path(*modules[:end])).with_suffix('.rt')
            if path.is_file():
                source = self.kit_sources.setdefault(path, Source(path, self.kit, crate))
                made = source.declared(name)
                return (source, made) if made else None
        return None

    def found_in_kit(self, place, name):
        """The file and the definition of a name that a `use` line takes from the toolkit."""
        self.library.add((place.split('.')[0], name))
        if not self.kit:
            return None
        crate, *path = place.split('.')
        if path[:2] == ['specs', 'declared']:
            modules = [part for part in path[2:] if part[0].islower()]
            named = [
                part for part in path[2:] if part[0].isupper() and not part.startswith('The')
            ] or [name]
            return self.kit_type(crate, modules, named[0])
        for end in range(len(path), 0, -1):
            file = self.kit_file([crate] + path[:end])
            if file:
                wanted = operators((path[end:] + [name])[0])[0]
                if wanted in file.own:
                    return file, file.own[wanted]
                return self.found(*file.names[wanted]) if wanted in file.names else None
        return None

    def found(self, place, name):
        """The file and the definition of a name that a `use` line takes from a place."""
        crate, *path = place.split('.')
        if not (CRATES / crate).is_dir():
            return self.found_in_kit(place, name)
        if path[:2] == ['specs', 'declared']:
            modules = [part for part in path[2:] if part != 'TheVariants']
            named = [part for part in modules if part[0].isupper()] or [name]
            return self.source_type(
                crate, [part for part in modules if not part[0].isupper()], named[0]
            )
        for end in range(len(path), 0, -1):
            file = self.specs.get('.'.join([crate] + path[:end]))
            if file:
                wanted = operators((path[end:] + [name])[0])[0]
                return (file, file.own[wanted]) if wanted in file.own else None
        return None

    def meaning(self, file, word):
        """What a word of a file leads to, if it is another definition."""
        key = (file.key, word)
        if key not in self.meanings:
            hit = self.sought(file, word)
            self.meanings[key] = (
                self.law(hit[1].crate, hit[1].name)[:2]
                if hit and (hit[1].crate, hit[1].name) in SETTLED
                else hit
            )
        return self.meanings[key]

    def law(self, crate, name):
        """The file and the law that settles a definition, and what it says of it: for all that the
        definition may be given, and for every answer.
        """
        place, function = SETTLED[crate, name]
        source = self.sources[CRATES / crate / 'src' / place]
        ((_, text),) = clauses(source.path, function)
        text = ' '.join(text.split())
        said = said_of(name, text)
        if not said:
            raise SystemExit(f'{function} of {source.place} settles no {name}')
        number = source.text[: source.text.index('fn ' + function)].count('\n') + 1
        return source, Definition(crate, source.place, number, function, 1, text), said

    def check_laws(self):
        """Ends where a law rests on the definition that it settles."""
        for crate, name in SETTLED:
            source, law, said = self.law(crate, name)
            self.forget()
            self.follow(source, said)
            if law[:4] in self.reached:
                raise SystemExit(f'{law.name} of {law.file} rests on {name}')
        self.forget()

    def sought(self, file, word):
        first, _, rest = word.partition('.')
        if first in file.aliases and rest:
            return self.found(file.aliases[first], rest.split('.')[0])
        if first in file.own:
            return file, file.own[first]
        if first in file.names:
            return self.found(*file.names[first])
        if isinstance(file, Source) and first[:1].isupper():
            if file.declared(first):
                return file.seen(first), file.declared(first)
            place = file.uses.get(first, '').split('::')
            if place[0] == 'crate' and len(place) > 1:
                return (
                    self.source_type(file.crate, place[1:], first)
                    if file.path in self.sources
                    else None
                )
            if (CRATES / place[0]).is_dir() and place[0]:
                return self.source_type(place[0], [], first)
        return None

    def follow(self, file, text, name=None):
        """Reaches all that the words of a text lead to. The text is of the definition of that key,
        if of any.
        """
        left = [(file, text, name)]
        while left:
            file, text, user = left.pop()
            # in a definition `<` may be part of a word, in a type of the program it is not
            words = WORD.findall(
                text.translate({ord(c): ' ' for c in '<>'}) if isinstance(file, Source) else text
            )
            # a `do` binds by these
            for word in dict.fromkeys(words + (['>>', '>>='] if 'do' in words else [])):
                hit = self.meaning(file, word)
                if not hit:
                    continue
                there, key = (
                    self.of_kit
                    if isinstance(hit[0], KitSpecs) or hit[0].path in self.kit_sources
                    else self.reached,
                    hit[1][:4],
                )
                self.users.setdefault(user, {})[key] = None
                if key not in there:
                    there[key] = hit[1]
                    left.append((hit[0], hit[1].text, key))

    def in_order(self):
        """What was reached of the repository, each after what it rests on but for what rests on
        itself.
        """
        done, listed = set(), []
        left = [(key, False) for key in reversed(list(self.users.get(None, ())))]
        while left:
            key, is_after = left.pop()
            if is_after:
                listed.append(self.reached[key])
            elif key in self.reached and key not in done:
                done.add(key)
                left.append((key, True))
                left += [
                    (it, False) for it in reversed(list(self.users.get(key, ()))) if it not in done
                ]
        return listed


def said_of(name, law):
    """What a law says of a definition, for whatever it is given and for every answer; or None."""
    hit = LAW.fullmatch(law)
    if not hit or hit[2] != name:
        return None
    return (
        hit[5]
        if sorted(hit[3].split() + [hit[4]]) == sorted(re.findall(r'\((\w+) :', hit[1]))
        else None
    )


def clauses(path, function):
    """What a function promises, and what it asks for: the clauses by name, '' where one has none."""
    text = path.read_text()
    text = text[re.search(fr'\bfn {function}\b', text).start() :]
    text = text[: re.search(r'\n *\{\}?\n', text).start()]
    text = re.sub(r'^\s*//.*$', '', text, flags=re.M)
    return re.findall(
        r'^ +(?:ensures|requires) (\w*) ?(\{.*?)(?=^ +(?:ensures|requires) |\Z)', text, re.M | re.S
    )
