"""model [--max-objects N] [--max-file N] SCRIPT: writes what `editor` has to write for a script
over the files in this folder, and ends as `editor` has to end.

It was written from README.md and docs/ alone, by an engineer who had not seen the crates; nine of
its readings were turned when the first comparison had made the guide plainer, and others when docs/
said more of `save`, `fuse` and meetings. A difference from the program is a bug, here or there, or
a sentence that the documents lack. A new command is added to it from its section of the pages in
docs/. It takes well-formed scripts for granted, and ends with a message on a line that it can't
read; files may be as bad as they like.
"""
import calendar
import pathlib
import re
import sys
from collections import namedtuple
from itertools import count, repeat

Content = namedtuple(
    'Content', 'tags body'
)  # body: (x, y) of a node, keys of a way, (key, role) of a relation
Entry = namedtuple(
    'Entry', 'meta base mine conflict', defaults=[None]
)  # base, mine: a content, None if deleted
Conflict = namedtuple('Conflict', 'why meta theirs')  # why: BOTH, BACK or HELD; meta: of theirs
Change = namedtuple('Change', 'verb key version content')  # of an upload; content: None of a delete
INCOMPLETE = Entry(None, None, None)  # only ever this one object, tested with `is`
NEW = (0, 0, '', 0, '')  # the metadata of a new object, which has the base None
BOTH, BACK, HELD = 'changed', 'withdrawn', 'held'  # as `conflicts` writes them
KINDS = 'nwr'
SEVENTH = 10**7  # coordinates are whole numbers of 10^-7 degree
Limits = namedtuple('Limits', 'objects file', defaults=[2_000_000, 268_435_456])
LONG_LINE = 16_777_216


class Refused(Exception):
    """A refusal, with the text behind the word `refused`."""


# ---- keys, texts, coordinates ----


def rank(key):
    """Nodes before ways before relations, positive ids rising and then -1, -2 and on."""
    number = int(key[1:])
    return KINDS.index(key[0]), number < 0, abs(number)


def first(keys):
    return min(keys, key=rank)


def is_new(key):
    return key[1] == '-'


def read_key(word):
    return word[0] + str(int(word[1:]))


def read_text(word):
    return re.sub('%([0-9a-fA-F]{1,6})%', lambda hit: chr(int(hit[1], 16)), word)


ESCAPED = re.compile('[\x00-\x20\x7f-\xa0\xad%,=@\u0600-\U0010ffff]')


def write_text(text):
    return ESCAPED.sub(
        lambda hit: ('%{:02x}%' if ord(hit[0]) < 256 else '%{:04x}%').format(ord(hit[0])), text
    )


def read_degrees(word):
    sign, word = (-1, word[1:]) if word.startswith('-') else (1, word)
    whole, _, part = word.partition('.')
    return sign * (int(whole) * SEVENTH + int(part.ljust(7, '0') or 0))


def read_place(x, y):
    """A place from two words; one off the map is outside the grammar of a file, and of a script."""
    place = (read_degrees(x[1:]), read_degrees(y[1:]))
    if off_the_map(place):
        raise ValueError('off the map')
    return place


def off_the_map(place):
    return abs(place[0]) > 180 * SEVENTH or abs(place[1]) > 90 * SEVENTH


def write_degrees(units):
    text = f'{abs(units) // SEVENTH}.{abs(units) % SEVENTH:07d}'.rstrip('0').rstrip('.')
    return '-' + text if units < 0 else text


def read_tags(word):
    """The value of a `T` as pairs, in the order of their keys' bytes (which is that of their code
    points).
    """
    return (
        tuple(sorted(tuple(map(read_text, pair.split('='))) for pair in word.split(',')))
        if word
        else ()
    )


def read_nodes(word):
    """The value of an `N` as keys; a location behind a reference is dropped."""
    return tuple(read_key(re.match('n-?[0-9]+', ref)[0]) for ref in word.split(',')) if word else ()


def read_members(word):
    parts = [member.partition('@') for member in word.split(',')] if word else []
    return tuple((read_key(key), read_text(role)) for key, _, role in parts)


def read_line(line):
    """The key, metadata and content of an OPL line; the content is None of a deleted object."""
    words = [word for word in re.split('[ \t]+', line) if word]
    field = {word[0]: word[1:] for word in words[1:]}
    key = read_key(words[0])
    version = 0 if is_new(key) else int(field.get('v', 0))
    meta = (
        version,
        int(field.get('c', 0)),
        field.get('t', ''),
        int(field.get('i', 0)),
        read_text(field.get('u', '')),
    )
    if field.get('d') == 'D':
        return key, meta, None
    if key[0] == 'n':
        body = read_place('x' + field['x'], 'y' + field['y'])
    else:
        body = read_nodes(field.get('N', '')) if key[0] == 'w' else read_members(field.get('M', ''))
    return key, meta, Content(read_tags(field.get('T', '')), body)


def write_line(key, entry):
    version, changeset, time, uid, user = entry.meta
    head = '{} v{} d{} c{} t{} i{} u{} T'.format(
        key, version, 'D' if entry.mine is None else 'V', changeset, time, uid, write_text(user)
    )
    if entry.mine is None:
        return head + {'n': ' x y', 'w': ' N', 'r': ' M'}[key[0]]
    tags, body = entry.mine
    head += ','.join(write_text(tag) + '=' + write_text(value) for tag, value in tags)
    if key[0] == 'n':
        return '{} x{} y{}'.format(head, *map(write_degrees, body))
    if key[0] == 'w':
        return head + ' N' + ','.join(body)
    return head + ' M' + ','.join(member + '@' + write_text(role) for member, role in body)


# ---- the table ----


def refers(key, content):
    """The keys that an object refers to, in its order."""
    if content is None or key[0] == 'n':
        return ()
    return content.body if key[0] == 'w' else tuple(member for member, _ in content.body)


def repoint(users, key, before, after):
    """Keeps a table of who refers to each key, where the content of one object changes."""
    if before is not after:
        for ref in set(refers(key, before)):
            users[ref].discard(key)
        for ref in set(refers(key, after)):
            users.setdefault(ref, set()).add(key)


class Table:
    """The entries by key, whose mine and whose base refers to each key, and the number of the next
    new id.
    """

    def __init__(self, limits=Limits()):
        self.entries, self.referrers, self.base_referrers, self.number = {}, {}, {}, 1
        self.limits = limits
        self.server = None  # of an editor of a meeting

    def entry(self, key):
        return self.entries.get(key)

    def mine(self, key):
        """The content of an object that is there, else None."""
        entry = self.entries.get(key)
        return entry.mine if entry else None

    def users(self, key):
        return self.referrers.get(key, ())

    def base_users(self, key):
        """The objects that refer to the key in the version that was downloaded."""
        return self.base_referrers.get(key, ())

    def put(self, key, entry):
        """Sets or, with None, takes away an entry, and keeps the referrers."""
        before, after = self.entries.get(key) or INCOMPLETE, entry or INCOMPLETE
        repoint(self.referrers, key, before.mine, after.mine)
        repoint(self.base_referrers, key, before.base, after.base)
        if entry is None:
            self.entries.pop(key, None)
        else:
            self.entries[key] = entry

    def apply(self, patch):
        changes, _, self.number = patch
        for key, (_, after) in changes.items():
            self.put(key, after)

    def revert(self, patch):
        changes, self.number, _ = patch
        for key, (before, _) in changes.items():
            self.put(key, before)

    def with_mine(self, key, content):
        """The entry of a known object with another content, or deleted with None; a new one that is
        deleted has none.
        """
        entry = self.entries[key]
        if content is None and is_new(key):
            return None
        return entry._replace(mine=content)


# ---- tests that several jobs make ----


def there(table, key, kinds=KINDS):
    """The content of an object that a step names, by the refusals 1, 2, 3, 6 and 4."""
    entry = table.entry(key)
    if entry is None:
        raise Refused('1 ' + key)
    if entry is INCOMPLETE:
        raise Refused('2 ' + key)
    if entry.mine is None:
        raise Refused('3 ' + key)
    if key[0] not in kinds:
        raise Refused('6 ' + key)
    no_conflict(table, key)
    return entry.mine


def no_conflict(table, key):
    if table.entry(key).conflict:
        raise Refused('4 ' + key)


def once(keys):
    seen = set()
    for key in keys:
        if key in seen:
            raise Refused('9 ' + key)
        seen.add(key)


def may_refer(table, keys):
    for key in keys:
        entry = table.entry(key)
        if entry is None:
            raise Refused('1 ' + key)
        if entry is not INCOMPLETE and entry.mine is None:
            raise Refused('3 ' + key)


def all_downloaded(table, nodes):
    for node in nodes:
        if table.entry(node) is INCOMPLETE:
            raise Refused('2 ' + node)


def unused(table, key, named):
    others = [user for user in table.users(key) if user not in named]
    if others:
        raise Refused(f'5 {key} {first(others)}')


def fits(key, content):
    texts = [text for pair in content.tags for text in pair]
    if key[0] == 'w' and not 1 <= len(content.body) <= 2000:
        return False
    if key[0] == 'r':
        texts += [role for _, role in content.body]
        if len(content.body) > 32000:
            return False
    return all(len(text) <= 255 for text in texts)


# ---- the jobs: each gives what it changes as a dict of entries, and the keys that it made ----


def job_node(table, x, y, tags):
    return add(table, 'n', Content(read_tags(tags[1:]), read_place(x, y)))


def job_way(table, tags, nodes):
    return add(table, 'w', Content(read_tags(tags[1:]), read_nodes(nodes[1:])))


def job_relation(table, tags, members):
    return add(table, 'r', Content(read_tags(tags[1:]), read_members(members[1:])))


def add(table, kind, content):
    may_refer(table, refers(kind, content))
    key = kind + str(-table.number)
    return {key: Entry(NEW, None, content)}, [key]


def job_tag(table, keys, tags):
    keys = read_keys(keys)
    once(keys)
    draft = {}
    for key in keys:
        tags_of = dict(there(table, key).tags)
        for tag, value in read_tags(tags[1:]):
            tags_of[tag] = value
            if not value:
                del tags_of[tag]
        draft[key] = table.with_mine(
            key, table.mine(key)._replace(tags=tuple(sorted(tags_of.items())))
        )
    return draft, []


def job_move(table, keys, dx, dy):
    keys, dx, dy = read_keys(keys), read_degrees(dx), read_degrees(dy)
    once(keys)
    nodes = set()
    for key in keys:
        content = there(table, key, 'nw')
        nodes |= {key} if key[0] == 'n' else set(content.body)
    draft = {}
    for node in sorted(nodes, key=rank):
        content = there(table, node)
        place = (content.body[0] + dx, content.body[1] + dy)
        if off_the_map(place):
            raise Refused('8 ' + node)
        draft[node] = table.with_mine(node, content._replace(body=place))
    return draft, []


def job_place(table, key, x, y):
    return rebody(table, key, 'n', read_place(x, y))


def job_nodes(table, key, nodes):
    return rebody(table, key, 'w', read_nodes(nodes[1:]))


def job_members(table, key, members):
    return rebody(table, key, 'r', read_members(members[1:]))


def job_reverse(table, key):
    key = read_key(key)
    return rebody(table, key, 'w', there(table, key, 'w').body[::-1])


def rebody(table, key, kind, body):
    key = read_key(key)
    content = there(table, key, kind)._replace(body=body)
    may_refer(table, refers(key, content))
    return {key: table.with_mine(key, content)}, []


def job_delete(table, keys):
    keys = read_keys(keys)
    once(keys)
    for key in keys:
        there(table, key)
    for key in keys:
        unused(table, key, set(keys))
    return {key: table.with_mine(key, None) for key in keys}, []


def job_purge(table, keys):
    keys = read_keys(keys)
    once(keys)
    for key in keys:
        if table.entry(key) is None:
            raise Refused('1 ' + key)
        no_conflict(table, key)
    named = set(keys)
    for key in keys:
        if is_new(key):
            unused(table, key, named)
    return {key: INCOMPLETE if set(table.users(key)) - named else None for key in keys}, []


def job_erase(table, keys):
    keys = read_keys(keys)
    once(keys)
    for key in keys:
        there(table, key)
    named, draft = set(keys), {}
    fallen = {key for key in keys if key[0] == 'w'}
    for way in {user for key in keys for user in table.users(key) if user[0] == 'w'} - named:
        left = nodes_left(table.mine(way).body, named)
        if len(left) < 2:
            fallen.add(way)
        else:
            draft[way] = table.with_mine(way, table.mine(way)._replace(body=left))
    gone = named | fallen
    for node in {node for way in fallen for node in table.mine(way).body} - named:
        # what goes too is no user; one in conflict stays
        if (
            table.mine(node)
            and not table.mine(node).tags
            and not table.entry(node).conflict
            and set(table.users(node)) <= named | fallen
        ):
            gone.add(node)
    for relation in {user for key in gone for user in table.users(key) if user[0] == 'r'} - gone:
        content = table.mine(relation)
        members = tuple(member for member in content.body if member[0] not in gone)
        draft[relation] = table.with_mine(relation, content._replace(body=members))
    draft.update((key, table.with_mine(key, None)) for key in gone)
    return draft, []


def nodes_left(nodes, named):
    """A way's nodes without those named, and of equal ones side by side one."""
    left = []
    for node in nodes:
        if node not in named and left[-1:] != [node]:
            left.append(node)
    return tuple(left)


def job_split(table, key, keys):
    key, keys = read_key(key), read_keys(keys)
    way = there(table, key, 'w')
    seen = set()
    for node in keys:
        if node in seen:
            raise Refused('9 ' + node)
        seen.add(node)
        if node[0] != 'n':
            raise Refused('6 ' + node)
        if node not in way.body:
            raise Refused('10 ' + node)
    all_downloaded(table, way.body)
    pieces = cut(way.body, seen)
    if len(pieces) < 2:
        raise Refused('11 ' + key)
    longest = max(map(len, pieces))
    stays = next(i for i, piece in enumerate(pieces) if len(piece) == longest)
    made = ['w' + str(-table.number - i) for i in range(len(pieces) - 1)]
    names = made[:stays] + [key] + made[stays:]
    draft = {name: Entry(NEW, None, Content(way.tags, piece)) for name, piece in zip(names, pieces)}
    draft[key] = table.with_mine(key, way._replace(body=pieces[stays]))
    for relation in table.users(key):
        content, members = table.mine(relation), []
        for i, (member, role) in enumerate(content.body):
            members += (
                [(name, role) for name in in_place(table, content, i, key, names, pieces)]
                if member == key
                else [(member, role)]
            )
        draft[relation] = table.with_mine(relation, content._replace(body=tuple(members)))
    return draft, made


def cut(nodes, named):
    """The pieces of a way cut at each place of the named nodes, but for the ends of an open way."""
    places = [i for i, node in enumerate(nodes[:-1]) if node in named]
    if nodes[0] == nodes[-1]:
        if len(places) < 2:
            return []
        start = places[0]
        nodes, places = nodes[start:-1] + nodes[: start + 1], [
            place - start for place in places[1:]
        ]
    ends = [0] + [place for place in places if place > 0] + [len(nodes) - 1]
    return [nodes[i : j + 1] for i, j in zip(ends, ends[1:])]


def in_place(table, relation, i, key, names, pieces):
    """What stands in a relation for its i-th member, the way that was cut."""
    if dict(relation.tags).get('type') == 'restriction' and relation.body[i][1] in ('from', 'to'):
        via = {
            node
            for member, role in relation.body
            if role == 'via'
            for node in ([member] if member[0] == 'n' else ends(table, member, key))
        }
        return [
            next((name for name, piece in zip(names, pieces) if via & {piece[0], piece[-1]}), key)
        ]
    return (
        names
        if runs_forward(table, relation.body, i, key, pieces[0][0], pieces[-1][-1])
        else names[::-1]
    )


def runs_forward(table, members, i, key, start, end):
    """Whether the i-th member is passed along the way: by the member before it, else by the one
    behind it.
    """
    for j, near, far in (i - 1, start, end), (i + 1, end, start):
        if 0 <= j < len(members):
            nodes = ends(table, members[j][0], key)
            if (near in nodes) != (far in nodes):
                return near in nodes
    return True


def ends(table, member, key):
    """The first and the last node of a member that is another way than `key`."""
    nodes = (
        table.mine(member).body if member[0] == 'w' and member != key and table.mine(member) else ()
    )
    return nodes[:1] + nodes[-1:]


def job_combine(table, keys):
    keys = read_keys(keys)
    once(keys)
    for key in keys:
        there(table, key, 'w')
    for key in keys:
        all_downloaded(table, table.mine(key).body)
        if not table.mine(key).body:
            raise Refused('12 ' + key)
    nodes = table.mine(keys[0]).body
    if nodes[-1] not in ends(table, keys[1], None):
        nodes = nodes[::-1]
    for key in keys[1:]:
        more = table.mine(key).body
        more = more if nodes[-1] == more[0] else more[::-1]
        if nodes[-1] != more[0]:
            raise Refused('12 ' + key)
        nodes += more[1:]
    draft, stays = made_one(table, keys, nodes)
    for relation in sorted({user for key in keys for user in table.users(key)}, key=rank):
        content = table.mine(relation)
        members = folded(content.body, keys, stays)
        if members is None:
            raise Refused('14 ' + relation)
        draft[relation] = table.with_mine(relation, content._replace(body=members))
    return draft, []


def made_one(table, keys, body):
    """The draft that leaves of several objects one, with the tags of all and this body; and which
    one stays.
    """
    values = {}
    for key in keys:
        for tag, value in table.mine(key).tags:
            values.setdefault(tag, set()).add(value)
    for tag in sorted(values):
        if len(values[tag]) > 1:
            raise Refused('13 ' + write_text(tag))
    stays = next((key for key in keys if not is_new(key)), keys[0])
    draft = {key: table.with_mine(key, None) for key in keys}
    draft[stays] = table.with_mine(
        stays, Content(tuple((tag, values[tag].pop()) for tag in sorted(values)), body)
    )
    return draft, stays


def folded(members, keys, stays):
    """The members with each run of all the ways made one; None where one of them stands in no such
    run.
    """
    out, i = [], 0
    while i < len(members):
        if members[i][0] not in keys:
            out.append(members[i])
            i += 1
            continue
        run = members[i : i + len(keys)]
        if [key for key, _ in run] not in (keys, keys[::-1]) or len({role for _, role in run}) > 1:
            return None
        out.append((stays, run[0][1]))
        i += len(keys)
    return tuple(out)


def job_squeeze(table, keys):
    keys = read_keys(keys)
    once(keys)
    for key in keys:
        there(table, key, 'w')
    draft = {}
    for key in keys:
        way = table.mine(key)
        left = nodes_left(way.body, ())
        if left == way.body:
            raise Refused('32 ' + key)
        draft[key] = table.with_mine(key, way._replace(body=left))
    return draft, []


def job_fuse(table, keys):
    keys = read_keys(keys)
    once(keys)
    for key in keys:
        there(table, key, 'n')
    place = table.mine(keys[0]).body
    for key in keys:
        if table.mine(key).body != place:
            raise Refused('33 ' + key)
    draft, stays = made_one(table, keys, place)
    names = {key: stays for key in keys if key != stays}
    for user in {user for key in keys for user in table.users(key)}:
        content = renamed(user, table.mine(user), names)
        if user[0] == 'w':
            content = content._replace(body=without_runs(content.body, stays))
        draft[user] = table.with_mine(user, content)
    return draft, []


def without_runs(nodes, of):
    """A way's nodes, where the one node stands once for each run of it."""
    return tuple(node for i, node in enumerate(nodes) if node != of or i == 0 or nodes[i - 1] != of)


# ---- files ----


def read_file(table, name):
    """The bytes of a file that a step names."""
    path = pathlib.Path(read_text(name))
    if not path.exists():
        raise Refused('19')
    with open(path, 'rb') as file:
        data = file.read(table.limits.file + 1)
    if len(data) > table.limits.file:
        raise Refused('20 toolong')
    return data


def numbered_lines(data):
    """The lines of a file or a script with their numbers, each without one CR at its end; the
    skipped ones too.
    """
    for number, line in enumerate(data.split(b'\n'), 1):
        yield number, line, line[:-1] if line.endswith(b'\r') else line


def read_objects(data, importing):
    """What a file has, by key and in its order: the metadata and the content of each object."""
    objects = {}
    for number, whole, line in numbered_lines(data):
        if len(whole) > LONG_LINE:
            raise Refused(f'20 longline {number}')
        if not line.strip(b' \t') or line[:1] in (b'#', b'c'):
            continue
        line = line.decode(errors='surrogateescape')
        fault = fault_of(line, importing)
        if fault:
            raise Refused(f'20 line {number} fault {fault}')
        key, meta, content = read_line(line)
        if key in objects:
            raise Refused(f'20 twice {number}')
        objects[key] = meta, content
    return objects


def job_download(table, name, *parts):
    told = {
        key: Entry(meta, content, content)
        for key, (meta, content) in read_objects(read_file(table, name), False).items()
    }
    return merged(table, part_of(told, *parts)), []


def part_of(told, *parts):
    """What a box and tags take of a file's objects; all of them without either."""
    box = next((read_box(part[1:]) for part in parts if part[0] == 'B'), None)
    wanted = next((read_tags(part[1:]) for part in parts if part[0] == 'F'), ())
    if not parts:
        return told
    there = {key: entry.mine for key, entry in told.items() if entry.mine is not None}
    inside = {
        key
        for key, content in there.items()
        if key[0] == 'n' and (box is None or in_box(content.body, box))
    }
    ways = {
        key
        for key, content in there.items()
        if key[0] == 'w'
        and has_tags(content, wanted)
        and (box is None or not inside.isdisjoint(content.body))
    }
    nodes = {key for key in inside if has_tags(there[key], wanted)}
    nodes |= {node for way in ways for node in there[way].body if node in there}
    near = relations_of(there, nodes | ways)
    taken = nodes | ways | near | relations_of(there, near)
    return {key: entry for key, entry in told.items() if key in taken or entry.mine is None}


def read_box(word):
    return tuple(map(read_degrees, word.split(',')))


def in_box(place, box):
    west, south, east, north = box
    return west <= place[0] <= east and south <= place[1] <= north


def has_tags(content, wanted):
    tags = dict(content.tags)
    return all(tag in tags and value in ('*', tags[tag]) for tag, value in wanted)


def relations_of(contents, members):
    """The relations that have one of the members."""
    return {
        key
        for key, content in contents.items()
        if key[0] == 'r' and not members.isdisjoint(refers(key, content))
    }


def job_generate(table, number):
    told = {}
    for key, tags, body in city(int(number)):
        content = Content(tags, body)
        told[key] = Entry((1, 1, '2020-01-01T00:00:00Z', 1, 'city'), content, content)
    return merged(table, told), []


def city(streets):
    """The objects of the made-up city."""
    for k in range(1, 9 * streets + 2):
        row, column = divmod(k - 1, 1000)
        yield f'n{k}', (), (column * SEVENTH // 1000, row * SEVENTH // 1000)
    for j in range(1, streets + 1):
        nodes = tuple(f'n{k}' for k in range(9 * (j - 1) + 1, 9 * j + 2))
        yield f'w{j}', (('highway', 'residential'), ('name', f'Street {j}')), nodes
    for q in range(1, streets // 10 + 1):
        members = tuple((f'w{j}', '') for j in range(10 * (q - 1) + 1, 10 * q + 1))
        yield f'r{q}', (('ref', str(q)), ('type', 'route')), members


def job_import(table, name):
    objects = read_objects(read_file(table, name), True)
    news = {
        key: content for key, (_, content) in objects.items() if is_new(key) and content is not None
    }
    names = {key: key[0] + str(-table.number - i) for i, key in enumerate(news)}
    for key, content in news.items():
        for ref in refers(key, content):
            if is_new(ref) and ref not in names:
                raise Refused('1 ' + ref)
            may_refer(table, () if is_new(ref) else (ref,))
    draft = {
        names[key]: Entry(NEW, None, renamed(key, content, names)) for key, content in news.items()
    }
    return draft, list(draft)


def renamed(key, content, names):
    """The content of an object with other keys in place of some that it refers to."""
    if content is None or key[0] == 'n':
        return content
    if key[0] == 'w':
        return content._replace(body=tuple(names.get(node, node) for node in content.body))
    return content._replace(
        body=tuple((names.get(member, member), role) for member, role in content.body)
    )


# ---- the fifteen faults of a line ----

FIELDS = 'vdctiuTxyNM'
OF_KIND = {'x': 'n', 'y': 'n', 'N': 'w', 'M': 'r'}
MOST = {'v': 2_000_000_000, 'c': 4_294_967_295, 'i': 4_294_967_295}
ID = '-?[0-9]{1,19}'
COORDINATE = r'-?[0-9]{1,3}(?:\.[0-9]{1,7})?'


def fault_of(line, importing):
    """The fault of a line that isn't skipped, None where it has none."""
    head, *fields = re.split('[ \t]+', line)
    if not head or head[0] not in KINDS:
        return 1
    if not is_id(head[1:]):
        return 2
    if head[1] == '-' and not importing:
        return 15
    seen = {}
    for field in filter(None, fields):
        letter, value = field[0], field[1:]
        if letter not in FIELDS:
            return 4
        if OF_KIND.get(letter, head[0]) != head[0]:
            return 14
        if letter in seen:
            return 3
        fault = fault_of_value(letter, value)
        if fault:
            return fault
        if (
            letter in 'NM'
            and not importing
            and any(item[1] == '-' for item in value.split(',') if item)
        ):
            return 15
        seen[letter] = value
    if head[1] != '-' and int(seen.get('v', 0)) == 0:
        return 10
    if head[0] == 'n' and seen.get('d') != 'D' and not (seen.get('x') and seen.get('y')):
        return 9
    return None


def fault_of_value(letter, value):
    """The fault of a field's value by itself."""
    if letter in MOST:
        return None if re.fullmatch('[0-9]{1,10}', value) and int(value) <= MOST[letter] else 5
    if letter == 'd':
        return None if value in ('V', 'D') else 4
    if letter == 't':
        return None if not value or is_time(value) else 7
    if letter == 'u':
        return None if is_text(value) else 6
    if letter in 'xy':
        return None if not value or is_coordinate(value, letter) else 8
    return (
        {'T': fault_of_tags, 'N': fault_of_nodes, 'M': fault_of_members}[letter](value)
        if value
        else None
    )


MOST_ID = 10**18


def is_id(word):
    return re.fullmatch(ID, word) is not None and 1 <= abs(int(word)) <= MOST_ID


def is_coordinate(word, axis):
    return (
        re.fullmatch(COORDINATE, word) is not None
        and abs(read_degrees(word)) <= (180 if axis == 'x' else 90) * SEVENTH
    )


def is_time(word):
    hit = re.fullmatch('([0-9]{4})-([0-9]{2})-([0-9]{2})T([0-9]{2}):([0-9]{2}):([0-9]{2})Z', word)
    if not hit:
        return False
    year, month, day, hour, minute, second = map(int, hit.groups())
    return (
        year >= 1
        and 1 <= month <= 12
        and 1 <= day <= calendar.monthrange(year, month)[1]
        and hour <= 23
        and minute <= 59
        and second <= 59
    )


def is_text(word):
    """Whether it is a text: raw characters and escapes. A byte that is no UTF-8 was read as a lone
    surrogate.
    """
    rest = re.sub(
        '%([0-9a-fA-F]{1,6})%', lambda hit: 'x' if is_scalar(int(hit[1], 16)) else '%', word
    )
    return re.search('[\x00-\x20%,=\ud800-\udfff]', rest) is None


def is_scalar(number):
    return 0 < number < 0xD800 or 0xDFFF < number <= 0x10FFFF


def fault_of_tags(value):
    keys, rest = set(), value
    while True:
        word, separator, rest = cut_at(rest, '[=,]')
        if not is_text(word):
            return 6
        if not word or separator != '=' or read_text(word) in keys:
            return 11
        keys.add(read_text(word))
        word, separator, rest = cut_at(rest, '[=,]')
        if not is_text(word):
            return 6
        if separator == '=':
            return 11
        if not separator:
            return None


def fault_of_members(value):
    rest = value
    while True:
        word, separator, rest = cut_at(rest, '[@,]')
        if separator != '@' or word[:1] not in tuple(KINDS) or not is_id(word[1:]):
            return 13
        word, separator, rest = cut_at(rest, ',')
        if not is_text(word):
            return 6
        if not separator:
            return None


def cut_at(text, separators):
    """What stands before the first separator, the separator, and what stands behind it; both empty
    where there is none.
    """
    hit = re.search(separators, text)
    return (text[: hit.start()], hit[0], text[hit.end() :]) if hit else (text, '', '')


def fault_of_nodes(value):
    for item in value.split(','):
        hit = re.fullmatch(f'n({ID})(?:x({COORDINATE})?y({COORDINATE})?)?', item)
        if (
            not hit
            or not is_id(hit[1])
            or not all(
                not hit[i] or is_coordinate(hit[i], axis) for i, axis in ((2, 'x'), (3, 'y'))
            )
        ):
            return 12
    return None


# ---- a download over what is known ----


def known(entry):
    """The metadata and the content of the version of the server that is known of an object."""
    return (
        (entry.conflict.meta, entry.conflict.theirs) if entry.conflict else (entry.meta, entry.base)
    )


def merged(table, told):
    """What a file changes: first each object by itself, and then what refers to what."""
    after, leaving, unlike = {}, set(), []
    for key, news in told.items():
        entry = table.entry(key)
        if entry is None or entry is INCOMPLETE:
            after[key] = news
            continue
        (version, *_), content = known(entry)
        if news.meta[0] == version and (news.mine is None) != (content is None):
            unlike.append(key)
        elif news.meta[0] > version:
            own = by_itself(key, entry, news)
            if own:
                after[key] = own
            else:
                leaving.add(key)
    if unlike:
        raise Refused(f'17 {first(unlike)} {told[first(unlike)].meta[0]}')
    return with_references(table, told, after, leaving)


def by_itself(key, entry, news):
    """The entry of a known object of which the file tells a newer version; None where it is about
    to go.
    """
    if entry.mine == entry.base:
        if news.mine is None and entry.mine is not None:
            return None
        back = entry.conflict is not None and entry.conflict.why == BACK
        return news._replace(conflict=Conflict(BACK, news.meta, news.mine)) if back else news
    if entry.mine == news.mine:
        return news
    joined = (
        joined_content(entry.base, entry.mine, news.mine)
        if entry.base and entry.mine and news.mine
        else None
    )
    if joined and (fits(key, joined) or joined == news.mine):
        return news._replace(mine=joined)
    return entry._replace(conflict=Conflict(BOTH, news.meta, news.mine))


def joined_content(base, mine, theirs):
    """The content with the changes of both sides; None where they changed one part and not alike."""
    tags, body = joined_parts(base, mine, theirs)
    return None if body is CLASH or CLASH in tags.values() else content_of(tags, body)


def content_of(tags, body):
    """A content from values by tag, where None says that there is no such tag."""
    return Content(
        tuple(sorted((tag, value) for tag, value in tags.items() if value is not None)), body
    )


def joined_parts(base, mine, theirs):
    """The values by tag and the body, each CLASH where both sides changed it and not alike."""
    sides = [dict(side.tags) for side in (base, mine, theirs)]
    tags = {tag: joined_part(*(side.get(tag) for side in sides)) for tag in set().union(*sides)}
    return tags, joined_part(base.body, mine.body, theirs.body)


CLASH = object()


def joined_part(base, mine, theirs):
    return theirs if mine == base else mine if theirs in (base, mine) else CLASH


def with_references(table, told, after, leaving):
    """What comes back, is held or goes, and is only referred to, behind what each object is by
    itself.
    """

    def now(key):
        return after.get(key) or table.entry(key)

    refs = set()  # what the objects refer to that the file changes and those that come back
    back, todo = {}, [ref for key, entry in after.items() for ref in refers(key, entry.mine)]
    while todo:
        ref = todo.pop()
        if ref in refs:
            continue
        refs.add(ref)
        entry = now(ref)
        if entry and entry is not INCOMPLETE and entry.mine is None and known(entry)[1] is not None:
            meta, content = known(entry)
            back[ref] = Entry(meta, content, content, Conflict(BACK, meta, content))
            todo += refers(ref, content)
    after.update(back)
    held, todo = set(), [
        key
        for key in leaving
        if key in refs
        or any(user not in after and user not in leaving for user in table.users(key))
    ]
    while todo:
        key = todo.pop()
        if key in leaving and key not in held:
            held.add(key)
            todo += refers(key, table.mine(key))
    for key in held:
        after[key] = table.entry(key)._replace(conflict=Conflict(HELD, told[key].meta, None))
    for key in leaving - held:
        after[key] = told[key]
    for ref in refs:
        entry = now(ref)
        if entry is None or entry.mine is None:
            after[ref] = INCOMPLETE
    for key, entry in told.items():
        for ref in refers(key, entry.mine):
            if ref not in told and ref not in after and table.entry(ref) is None:
                after[ref] = INCOMPLETE
    for key, entry in told.items():
        if (
            entry.mine is None
            and after.get(key) is entry
            and any(user not in after or user in held for user in table.users(key))
        ):
            after[key] = INCOMPLETE
    return after


# ---- conflicts ----


def in_conflict(table):
    return sorted((key for key, entry in table.entries.items() if entry.conflict), key=rank)


def conflicts(table):
    """Four lines for each object in conflict: its key and why, and its three sides."""
    lines = []
    for key in in_conflict(table):
        entry = table.entry(key)
        why, meta, theirs = entry.conflict
        lines.append(f'conflict {key} {why}\n')
        for side, its_meta, content in (
            ('base', entry.meta, entry.base),
            ('mine', entry.meta, entry.mine),
            ('theirs', meta, theirs),
        ):
            lines.append(f'{side} {write_line(key, Entry(its_meta, None, content))}\n')
    return ''.join(lines)


def job_resolve(table, key, form, *choice):
    key = read_key(key)
    entry = table.entry(key)
    if entry is None:
        raise Refused('1 ' + key)
    if not entry.conflict:
        raise Refused('15 ' + key)
    mine = resolved(key, entry, form, choice)
    if mine is None:
        unused(table, key, {key})
    refs = [ref for ref in refers(key, mine) if ref != key]
    for ref in refs:
        if table.entry(ref) not in (None, INCOMPLETE) and table.mine(ref) is None:
            raise Refused('3 ' + ref)
    draft = {ref: INCOMPLETE for ref in refs if table.entry(ref) is None}
    draft[key] = Entry(entry.conflict.meta, entry.conflict.theirs, mine)
    return draft, []


def resolved(key, entry, form, choice):
    """What mine is behind a `resolve`: a content, or None if the object is deleted then."""
    why, _, theirs = entry.conflict
    if form == 'mine':
        return None if why == BACK else entry.mine
    if form == 'theirs':
        return theirs
    if (
        why != BOTH
        or entry.mine is None
        or theirs is None
        or form == 'parts'
        and entry.base is None
    ):
        raise Refused('16 ' + key)
    side = {'mine': entry.mine, 'theirs': theirs}
    if form == 'mix':
        return Content(side[choice[0]].tags, side[choice[1]].body)
    tags, body = joined_parts(entry.base, entry.mine, theirs)
    listed = [read_text(tag) for tag in choice[1][1:].split(',')] if choice[1] != 'K' else []
    for tag in listed:
        if tags.get(tag) is not CLASH:
            raise Refused('29 ' + write_text(tag))
    ours, other = dict(entry.mine.tags), dict(theirs.tags)
    for tag in [tag for tag, value in tags.items() if value is CLASH]:
        tags[tag] = (other if tag in listed else ours).get(tag)
    return content_of(tags, side[choice[0]].body if body is CLASH else body)


# ---- find and check ----


def listed(word, lines):
    return ''.join(line + '\n' for line in [f'{word} {len(lines)}'] + lines)


def found(table, *query):
    words = list(query)
    keys = either(table, words)
    if words:
        raise ValueError('words behind the query')
    return listed('found', sorted(keys, key=rank))


def either(table, words):
    """The keys that meet the query with which the words begin; its words are taken from them."""
    keys = both(table, words)
    while words[:1] == ['or']:
        words.pop(0)
        keys = keys | both(table, words)
    return keys


def both(table, words):
    keys = single(table, words)
    while words[:1] == ['and']:
        words.pop(0)
        keys = keys & single(table, words)
    return keys


def single(table, words):
    word = words.pop(0)
    if word == '(':
        keys = either(table, words)
        if words.pop(0) != ')':
            raise ValueError('no bracket')
        return keys
    if word in AROUND:
        return AROUND[word](table, single(table, words))
    if word[0] == 'T':
        wanted = read_tags(word[1:])
        return {
            key
            for key, entry in table.entries.items()
            if entry.mine and has_tags(entry.mine, wanted)
        }
    return {key for key, entry in table.entries.items() if TESTS[word](key, entry)}


AROUND = {
    'not': lambda table, keys: table.entries.keys() - keys,
    'child': lambda table, keys: {ref for key in keys for ref in refers(key, table.mine(key))},
    'parent': lambda table, keys: {user for key in keys for user in table.users(key)},
}
TESTS = {
    'node': lambda key, entry: key[0] == 'n',
    'way': lambda key, entry: key[0] == 'w',
    'relation': lambda key, entry: key[0] == 'r',
    'new': lambda key, entry: is_new(key),
    'changed': lambda key, entry: entry.mine != entry.base,
    'deleted': lambda key, entry: entry is not INCOMPLETE and entry.mine is None,
    'incomplete': lambda key, entry: entry is INCOMPLETE,
    'conflict': lambda key, entry: entry.conflict is not None,
}


def checked(table):
    """Which nodes lie at one place, which ways have a node twice side by side, and which rings
    aren't closed.
    """
    there = sorted((key for key, entry in table.entries.items() if entry.mine), key=rank)
    ways = [key for key in there if key[0] == 'w']
    first_at, lines = {}, []
    for key in [key for key in there if key[0] == 'n']:
        of = first_at.setdefault(table.mine(key).body, key)
        lines += [f'doubled {key} {of}'] if of != key else []
    lines += [
        'repeated ' + key
        for key in ways
        if nodes_left(table.mine(key).body, ()) != table.mine(key).body
    ]
    lines += ['openring ' + key for key in ways if is_open_ring(table, table.mine(key).body)]
    return listed('check', lines)


def is_open_ring(table, nodes):
    if len(nodes) < 3 or nodes[0] == nodes[-1]:
        return False
    start, end = table.mine(nodes[0]), table.mine(nodes[-1])
    return start is not None and end is not None and start.body == end.body


# ---- what an upload sends ----


def changes_of(table):
    """The changes that bring the edits to the server, in the order in which they are sent."""
    clashing = in_conflict(table)
    if clashing:
        raise Refused(f'23 {len(clashing)} {clashing[0]}')
    changed = sorted(
        (key for key, entry in table.entries.items() if entry.mine != entry.base), key=rank
    )
    sent = [key for key in changed if table.mine(key)]
    for key in sent:
        for ref in refers(key, table.mine(key)):
            if table.entry(ref) is INCOMPLETE and not vouched(table, ref):
                raise Refused(f'24 {key} {ref}')
    made = made_in_order(table, [key for key in sent if table.entry(key).base is None])
    edited = [key for key in sent if table.entry(key).base is not None]
    gone = {
        kind: [key for key in changed if key[0] == kind and not table.mine(key)] for kind in KINDS
    }
    return (
        [with_content(table, key) for key in made + edited]
        + relations_gone(table, gone['r'])
        + [Change('delete', key, table.entry(key).meta[0], None) for key in gone['w'] + gone['n']]
    )


def with_content(table, key):
    """The change that makes an object, or that gives it what it has here."""
    entry = table.entry(key)
    return Change('create' if is_new(key) else 'modify', key, entry.meta[0], entry.mine)


def vouched(table, ref):
    """Whether the downloaded version of an object says that the server has what is only referred
    to.
    """
    return any(
        table.mine(user) is None or user in table.users(ref) for user in table.base_users(ref)
    )


def made_in_order(table, left):
    """What the server doesn't have there yet, each behind what it refers to, of those that are
    ready the first by rank.
    """
    order, missing = [], set(left)
    needs = {key: missing.intersection(refers(key, table.mine(key))) for key in left}
    while left:
        ready = next((key for key in left if missing.isdisjoint(needs[key])), None)
        if ready is None:
            raise Refused('25 ' + ','.join(left))
        order.append(ready)
        left.remove(ready)
        missing.remove(ready)
    return order


def relations_gone(table, left):
    """The changes that delete relations, each before what it refers to; some are emptied where
    there is no such order.
    """
    changes, version = [], {key: table.entry(key).meta[0] for key in left}
    users = {
        key: table.base_users(key) & version.keys() if table.base_users(key) else set()
        for key in left
    }
    while left:
        free = next((key for key in left if not users[key]), None)
        turn = free or next(key for key in left if any(key in users[other] for other in left))
        if free:
            changes.append(Change('delete', free, version[free], None))
            left.remove(free)
        else:
            changes.append(Change('modify', turn, version[turn], Content((), ())))
            version[turn] += 1
        for key in left:
            users[key].discard(turn)
    return changes


def uploaded(table, size):
    """The text of an upload; its changes have to go through on a server, and to bring it the edits."""
    changes = changes_of(table)
    server = Server(table)
    for change in changes:
        server.take(change)
    server.assert_edited(changes)
    chunks = [changes[i : i + size] for i in range(0, len(changes), size)]
    lines = [f'upload changes {len(changes)} chunks {len(chunks)}\n']
    for number, chunk in enumerate(chunks, 1):
        lines.append(f'chunk {number} of {len(chunks)}\n')
        lines += [change.verb + ' ' + write_change(change) + '\n' for change in chunk]
    return ''.join(lines)


def write_change(change):
    if change.verb == 'delete':
        return f'{change.key} v{change.version}'
    return write_line(change.key, Entry((change.version,) + NEW[1:], None, change.content))


def rehearsed(table):
    changes = changes_of(table)
    server = Server(table)
    for number, change in enumerate(changes, 1):
        try:
            server.take(change)
        except NotTaken as reason:
            return 'rehearse: the server refuses change {} of {}, {} {}: {}\n'.format(
                number, len(changes), change.verb, write_change(change), reason
            )
    server.assert_edited(changes)
    return f'rehearse accepted {len(changes)}\n'


# ---- what a server answers ----


def confirm(table, name):
    """Takes the answers to the first changes of an upload; what they answer counts as the server's."""
    data = read_file(table, name)
    for change, new in answers_of(table, data, changes_of(table)):
        settle(table, change, new)


def answers_of(table, data, changes):
    """The changes that are answered, each with the key that it got if it makes an object."""
    answers, given = [], set()
    for number, _, line in numbered_lines(data):
        if not line.strip(b' \t') or line.startswith(b'#'):
            continue
        change = changes[len(answers)] if len(answers) < len(changes) else None
        new = change and new_key(change, re.split('[ \t]+', line.decode(errors='surrogateescape')))
        if not new:
            raise Refused(f'26 {number}')
        if change.verb == 'create' and (table.entry(new) or new in given):
            raise Refused('27 ' + new)
        given.add(new)
        answers.append((change, new))
    return answers


def new_key(change, words):
    """The key that the object has behind the answer; None where the words are no answer to the
    change.
    """
    if (
        len(words) != (4 if change.verb == 'create' else 3)
        or words[0] != change.verb
        or not is_key(words[1])
        or read_key(words[1]) != change.key
        or change.version == 2_000_000_000
        or words[-1] != f'v{change.version + 1}'
    ):
        return None
    if change.verb != 'create':
        return change.key
    new = read_key(words[2]) if is_key(words[2]) else None
    return new if new and new[0] == change.key[0] and not is_new(new) else None


def is_key(word):
    return word[:1] in tuple(KINDS) and is_id(word[1:])


def settle(table, change, new):
    """The table behind one answer."""
    entry = table.entry(change.key)
    base = (
        None if change.verb == 'delete' else entry.mine or change.content
    )  # emptied: still to be deleted
    if new != change.key:
        table.put(change.key, None)
    table.put(new, Entry((change.version + 1,) + NEW[1:], base, entry.mine))
    for user in list(table.users(change.key)) if new != change.key else ():
        its = table.entry(user)
        table.put(user, its._replace(mine=renamed(user, its.mine, {change.key: new})))


# ---- a session that is put away ----


def saved(table):
    lines = [f'session 1 {table.number}']
    for key in sorted(table.entries, key=rank):
        lines += saved_lines(key, table.entry(key))
    return ''.join(line + '\n' for line in lines + ['session end'])


def saved_lines(key, entry):
    if entry is INCOMPLETE:
        return ['incomplete ' + key]
    base = 'new' if is_new(key) else 'live' if entry.base else 'gone'
    mine = 'same' if entry.mine == entry.base else 'own' if entry.mine else 'none'
    lines = [
        'known {} {} {} {}'.format(
            key, base, mine, entry.conflict.why if entry.conflict else 'none'
        )
    ]
    lines += [saved_side('base', key, entry.meta, entry.base)] if base != 'new' else []
    lines += [saved_side('mine', key, meta_of_mine(key), entry.mine)] if mine == 'own' else []
    return lines + (
        [saved_side('theirs', key, entry.conflict.meta, entry.conflict.theirs)]
        if entry.conflict
        else []
    )


def saved_side(word, key, meta, content):
    return word + ' ' + write_line(key, Entry(meta, None, content))


def meta_of_mine(key):
    return NEW if is_new(key) else (1,) + NEW[1:]


def taken_up(table, name):
    """The table of a saved session."""
    lines = [
        line.decode(errors='surrogateescape')
        for _, _, line in numbered_lines(read_file(table, name))
    ]
    lines = lines if lines[-1] else lines[:-1]
    start = next((i for i, line in enumerate(lines) if line.startswith('session ')), len(lines))
    numbered = iter(enumerate(lines[start:] + [''], start + 1))
    after, shapes, last = Table(table.limits), {}, None
    number, line = next(numbered)
    hit = re.fullmatch('session 1 ([1-9][0-9]{0,18})', line)
    right(hit and int(hit[1]) <= MOST_ID, number)
    after.number = int(hit[1])
    number, line = next(numbered)
    while line != 'session end':
        key, shape = saved_shape(number, line)
        right(last is None or rank(last) < rank(key), number)
        after.put(key, saved_entry(key, shape, numbered))
        shapes[key], last = shape, key
        number, line = next(numbered)
    for key in sorted(after.entries, key=rank):
        if not can_be(after, key, shapes[key]):
            raise Refused('31 ' + key)
    if len(after.entries) > after.limits.objects:
        raise Refused('18')
    return after


def right(test, number):
    if not test:
        raise Refused(f'30 {number}')


FIRST = re.compile(
    'incomplete ([^ ]+)|known ([^ ]+) (live|gone|new) (same|own|none) (none|changed|held|withdrawn)'
)


def saved_shape(number, line):
    """The key of the object whose first line this is, and the three words; none of what is only
    referred to.
    """
    hit = FIRST.fullmatch(line)
    key = hit and (hit[1] or hit[2])
    right(key and is_key(key) and read_key(key) == key, number)
    right(hit[4] != 'none' or hit[3] == 'live', number)
    return key, () if hit[1] else hit.groups()[2:]


def saved_entry(key, shape, numbered):
    """The entry of an object, from the lines behind its first one."""
    if not shape:
        return INCOMPLETE
    base_word, mine_word, why = shape
    meta, base, conflict = NEW, None, None
    if base_word != 'new':
        number, meta, base = read_side(numbered, 'base', key)
        right((base is None) == (base_word == 'gone'), number)
    mine = base if mine_word == 'same' else None
    if mine_word == 'own':
        number, its_meta, mine = read_side(numbered, 'mine', key)
        right(mine is not None and mine != base and its_meta == meta_of_mine(key), number)
    if why != 'none':
        _, its_meta, theirs = read_side(numbered, 'theirs', key)
        conflict = Conflict(why, its_meta, theirs)
    return Entry(meta, base, mine, conflict)


def read_side(numbered, word, key):
    """The number of the next line, and the metadata and the content in it."""
    number, line = next(numbered)
    text = line[len(word) + 1 :]
    right(line.startswith(word + ' ') and not fault_of(text, True), number)
    its_key, meta, content = read_line(text)
    right(its_key == key and saved_side(word, key, meta, content) == line, number)
    return number, meta, content


def can_be(table, key, shape):
    """Whether a session can have such an object."""
    entry = table.entry(key)
    for ref in refers(key, entry.mine):
        if (
            table.entry(ref) is None
            or table.entry(ref) is not INCOMPLETE
            and table.mine(ref) is None
        ):
            return False
    if entry.mine and entry.mine != entry.base and not fits(key, entry.mine):
        return False
    if shape[:1] == ('new',):
        return is_new(key) and -int(key[1:]) < table.number and shape == ('new', 'own', 'none')
    theirs = entry.conflict.theirs if entry.conflict else None
    if is_new(key) or any(map(is_new, refers(key, entry.base) + refers(key, theirs))):
        return False
    return entry.conflict is None or can_clash(entry)


def can_clash(entry):
    """Whether the three sides go with the cause of the conflict."""
    why, meta, theirs = entry.conflict
    newer = meta[0] > entry.meta[0]
    if why == BOTH:
        return newer and entry.mine not in (entry.base, theirs)
    if entry.base is None or entry.mine != entry.base:
        return False
    return newer and theirs is None if why == HELD else (meta, theirs) == (entry.meta, entry.base)


# ---- a server ----


class NotTaken(Exception):
    """The number of the server's reason against a change, and what it carries."""


UNKNOWN = Content(
    (), ()
)  # what the server has of an object that a downloaded version only refers to


class Server:
    """A server of API 0.6 that has just the downloaded versions of a table, until it takes changes."""

    def __init__(self, table):
        self.table = table
        self.things = {}  # what changes made: the version and the content, None of a deleted one
        self.referrers = {}  # the keys of things that refer, or once referred, to a key
        self.ids = {}  # the key that each placeholder stands for

    def thing(self, key):
        """The version and the content of an object; the content is None if it is deleted, both if
        there never was one.
        """
        if key in self.things:
            return self.things[key]
        entry = None if is_new(key) else self.table.entry(key)
        if entry not in (None, INCOMPLETE):
            return entry.meta[0], entry.base
        return (None, UNKNOWN) if self.table.base_users(key) else (None, None)

    def users(self, key):
        """The objects that refer to the key."""
        users = set(self.table.base_users(key)) | self.referrers.get(key, set())
        return {user for user in users if key in refers(user, self.thing(user)[1])}

    def free_key(self, kind):
        return kind + str(MOST_ID + 1 + len(self.ids))  # behind all ids of files

    def put(self, key, version, content):
        self.things[key] = version, content
        for ref in refers(key, content):
            self.referrers.setdefault(ref, set()).add(key)

    def take(self, change):
        """Does a change and gives the key of its object, or raises NotTaken."""
        key = self.free_key(change.key[0]) if change.verb == 'create' else change.key
        version, there = self.thing(key)
        if change.verb == 'create':
            if version is not None or there is not None:
                raise NotTaken('1')
            self.ids[change.key] = key
        elif version is None or change.verb == 'delete' and there is None:
            raise NotTaken('2')
        elif version != change.version:
            raise NotTaken(f'3 {version}')
        content = self.with_ids(key, change.content)
        if content is not None and (
            not fits(key, content) or key[0] == 'n' and off_the_map(content.body)
        ):
            raise NotTaken('6')
        for ref in refers(key, content):
            if self.thing(ref)[1] is None:
                raise NotTaken('4 ' + ref)
        if content is None and self.users(key):
            raise NotTaken('5 ' + first(self.users(key)))
        self.put(key, (version or 0) + 1, content)
        return key

    def with_ids(self, key, content):
        """The content with the server's ids in place of the placeholders that it knows by now."""
        return renamed(key, content, self.ids)

    def assert_edited(self, changes):
        """Each object that is changed here, or that a change is about, is on the server what it is
        here.
        """
        keys = {key for key, entry in self.table.entries.items() if entry.mine != entry.base}
        for key in keys | {change.key for change in changes}:
            _, content = self.thing(self.ids.get(key, key))
            assert content == self.with_ids(
                key, self.table.mine(key)
            ), f'{key} is another on the server'


# ---- a meeting ----

Taken = namedtuple(
    'Taken', 'change key before after'
)  # before, after: the version and the content on the server


class Shared(Server):
    """The server of a meeting, and what stood there before each change that it took."""

    def __init__(self):
        super().__init__(None)
        self.log = []

    def thing(self, key):
        return self.things.get(key, (None, None))

    def users(self, key):
        return {
            user for user in self.referrers.get(key, ()) if key in refers(user, self.thing(user)[1])
        }

    def free_key(self, kind):
        """The least one that is free here and in the table of the editor that sends."""
        return next(
            key
            for key in map('{}{}'.format, repeat(kind), count(1))
            if key not in self.things and self.table.entry(key) is None
        )

    def serve(self, objects):
        """Takes over the objects of a file."""
        there = {key for key, (_, content) in objects.items() if content is not None}
        for key in sorted(there, key=rank):
            if not there.issuperset(refers(key, objects[key][1])):
                raise Refused('34 ' + key)
        for key, (meta, content) in objects.items():
            self.put(key, meta[0], content)

    def told(self, back):
        """What stood here so many accepted changes ago."""
        if back > len(self.log):
            raise Refused(f'35 {len(self.log)}')
        things = dict(self.things)
        for key, before in reversed(self.log[len(self.log) - back :]):
            things[key] = before
        return {
            key: Entry((version,) + NEW[1:], content, content)
            for key, (version, content) in things.items()
            if version is not None
        }

    def receive(self, table, changes):
        """Takes the changes of an editor one by one; gives those that it took, and what is said of
        it.
        """
        self.table, self.ids, taken = table, {}, []
        for number, change in enumerate(changes, 1):
            before = self.thing(change.key)
            try:
                key = self.take(change)
            except NotTaken as reason:
                return taken, f'sent {len(taken)} refused {number} {reason}\n'
            self.log.append((key, before))
            taken.append(Taken(change, key, before, self.thing(key)))
        return taken, f'sent {len(taken)}\n'


def assert_seen(table, taken):
    """Each version that a change took the place of is one that its editor had seen, or that the
    same send made.
    """
    left = {}
    for change, key, before, after in taken:
        if change.verb != 'create':
            entry = table.entry(key)
            if before != left.get(key, (entry.meta[0], entry.base)):
                sys.exit(
                    'model: {} {} took the place of what its editor had not seen'.format(
                        change.verb, write_change(change)
                    )
                )
        left[key] = after


def job_fetch(table, back, *parts):
    try:
        return merged(table, part_of(table.server.told(int(back)), *parts)), []
    except Refused as refusal:
        if str(refusal).startswith('17 '):
            sys.exit(f'model: a fetch tells one version in two ways: {refusal}')
        raise


# ---- the session ----


def read_keys(word):
    return [read_key(key) for key in word.split(',')]


JOBS = {name[4:]: job for name, job in list(globals().items()) if name.startswith('job_')}
MERGES = ('download', 'generate', 'fetch')


def run_job(table, verb, words):
    """Does a job on the table; gives what it changed, for undo, and the keys that it made."""
    draft, made = JOBS[verb](table, *words)
    changes = {
        key: (table.entry(key), entry) for key, entry in draft.items() if entry != table.entry(key)
    }
    if verb not in ('delete', 'purge'):
        for key in sorted(changes, key=rank) if verb not in MERGES + ('resolve',) else ():
            if changes[key][0]:
                no_conflict(table, key)
        for key in sorted(changes, key=rank) if verb not in MERGES else ():
            after = changes[key][1]
            if (
                after
                and after.mine
                and not fits(key, after.mine)
                and (verb != 'resolve' or after.mine != after.base)
            ):
                raise Refused('7 ' + key)
        more = sum((before is None) - (after is None) for before, after in changes.values())
        if (
            len(table.entries) + more > table.limits.objects
            or made
            and table.number + len(made) > MOST_ID
        ):
            raise Refused('18')
    patch = (changes, table.number, table.number + len(made))
    table.apply(patch)
    return patch, made


def counted(table):
    tally = dict.fromkeys(['n', 'w', 'r', 'incomplete', 'deleted', 'changed', 'conflicts'], 0)
    for key, entry in table.entries.items():
        if entry is INCOMPLETE:
            tally['incomplete'] += 1
            continue
        tally[key[0] if entry.mine else 'deleted'] += 1
        tally['changed'] += entry.mine != entry.base
        tally['conflicts'] += entry.conflict is not None
    return (
        'count nodes {n} ways {w} relations {r} incomplete {incomplete} deleted {deleted} changed {changed} '
        'conflicts {conflicts}\n'.format(**tally)
    )


def printed(table):
    return ''.join(
        write_line(key, table.entry(key)) + '\n'
        for key in sorted(table.entries, key=rank)
        if table.entry(key) is not INCOMPLETE
    )


TEXTS = {
    'print': printed,
    'count': counted,
    'conflicts': conflicts,
    'rehearse': rehearsed,
    'find': found,
    'check': checked,
    'save': saved,
}


class Session:
    """The table, the steps done and undone (each the patches of its jobs), and the open group."""

    def __init__(self, limits=Limits()):
        self.table, self.past, self.undone, self.group, self.skips = (
            Table(limits),
            [],
            [],
            None,
            False,
        )

    def step(self, verb, words):
        """Does one step of the script; gives its reply without the line number, and its text."""
        if self.skips:
            self.skips = verb != 'end'
            return 'skipped', ''
        try:
            return self.do(verb, words)
        except Refused as refusal:
            if self.group is not None:
                for patch in reversed(self.group):
                    self.table.revert(patch)
                self.group, self.skips = None, True
            return 'refused ' + str(refusal), ''

    def do(self, verb, words):
        if verb in TEXTS:
            return 'ok', TEXTS[verb](self.table, *words)
        if verb == 'upload':
            return 'ok', uploaded(self.table, int(words[0]))
        if verb == 'confirm':
            confirm(self.table, *words)
            self.forget()
        elif verb == 'resume':
            self.table = taken_up(self.table, *words)
            self.forget()
        elif verb == 'begin':
            self.group = []
        elif verb == 'end':
            self.past += [self.group] if self.group else []
            self.group = None
        elif verb == 'undo':
            self.go(
                int(words[0]),
                self.past,
                self.undone,
                '21',
                lambda step: [self.table.revert(patch) for patch in reversed(step)],
            )
        elif verb == 'redo':
            self.go(
                int(words[0]),
                self.undone,
                self.past,
                '22',
                lambda step: [self.table.apply(patch) for patch in step],
            )
        elif verb in JOBS:
            patch, made = run_job(self.table, verb, words)
            self.accepted(patch)
            return ' '.join(['ok'] + ([','.join(made)] if made else [])), ''
        else:
            raise ValueError(f'{verb} is no step')
        return 'ok', ''

    def forget(self):
        self.past.clear()
        self.undone.clear()

    def accepted(self, patch):
        self.undone.clear()
        (self.past if self.group is None else self.group).append(
            [patch] if self.group is None else patch
        )

    def go(self, count, source, target, number, turn):
        if len(source) < count:
            raise Refused(number)
        for _ in range(count):
            turn(source[-1])
            target.append(source.pop())


LOOKS = ('print', 'conflicts', 'count', 'find', 'check', 'save', 'upload', 'rehearse')


class Editor(Session):
    """One of the editors of a meeting, and what the server took of what it sent and waits for, None
    if it doesn't.
    """

    def __init__(self, limits, server):
        super().__init__(limits)
        self.table.server, self.waits = server, None

    def do(self, verb, words):
        if verb in ('answer', 'lost'):
            return self.hear(verb)
        if self.waits is not None and verb not in LOOKS:
            raise Refused('37')
        if verb == 'send':
            return 'ok', self.send(int(words[0]))
        return super().do(verb, words)

    def send(self, most):
        changes = changes_of(self.table)[:most]
        for change in changes:
            if change.version == MOST['v']:
                raise Refused('38 ' + change.key)
        self.waits, text = self.table.server.receive(self.table, changes)
        assert_seen(self.table, self.waits)
        return text

    def hear(self, verb):
        if self.waits is None:
            raise Refused('36')
        if verb == 'answer':
            for taken in self.waits:
                settle(self.table, taken.change, taken.key)
            self.forget()
        self.waits = None
        return 'ok', ''


class Meeting:
    """Four editors at one server, whose lines come one after the other."""

    def __init__(self, limits):
        self.server = Shared()
        self.editors = [Editor(limits, self.server) for _ in range(4)]
        self.now = self.editors[0]

    def step(self, verb, words):
        if verb == 'editor':
            self.now = self.editors[int(words[0]) - 1]
            return 'ok', ''
        if verb != 'serve':
            return self.now.step(verb, words)
        try:
            self.server.serve(read_objects(read_file(self.now.table, *words), False))
        except Refused as refusal:
            return 'refused ' + str(refusal), ''
        return 'ok', ''


def words_of(line):
    """The words of a script line, none if it is skipped."""
    line = line[:-1] if line.endswith('\r') else line
    return [] if line.startswith('#') or not line.strip(' \t') else re.split('[ \t]+', line)


def read_words(words):
    """The limits and the script's name; None for bad words."""
    limits, names, words = {}, [], list(words)
    while words:
        word = words.pop(0)
        if word == '--':
            names += words
            break
        if not word.startswith('-') or word == '-':
            names.append(word)
            continue
        option, equals, number = word.partition('=')
        if option not in OPTIONS or option in limits or not equals and not words:
            return None
        number = number if equals else words.pop(0)
        if not re.fullmatch('[+]?[0-9]+', number) or not 1 <= int(number) <= OPTIONS[option]:
            return None
        limits[option] = int(number)
    if len(names) != 1 or not is_utf8(names[0]):
        return None
    return Limits(**{option[6:]: number for option, number in limits.items()}), names[0]


OPTIONS = {'--max-objects': 5_000_000, '--max-file': 1_073_741_824}


def is_utf8(word):
    """Whether the bytes of a word are UTF-8; Python reads others as lone surrogates."""
    return re.search('[\ud800-\udfff]', word) is None


def end(status, text):
    sys.stderr.write(f'editor: {text}\n')
    sys.exit(status)


def main():
    words = read_words(sys.argv[1:])
    if words is None:
        end(2, 'bad words')
    limits, name = words
    if not name or not pathlib.Path(name).exists():
        end(3, 'no script')
    for text in written(Session(limits), pathlib.Path(name).read_bytes().decode()):
        sys.stdout.buffer.write(text.encode())


def written(session, script):
    """What each step of a script writes: its reply line, and the text behind it."""
    for number, line in enumerate(script.split('\n'), 1):
        words = words_of(line)
        if words:
            session = Meeting(session.table.limits) if words[0] == 'serve' else session
            try:
                reply, text = session.step(words[0], words[1:])
            except (AttributeError, IndexError, KeyError, TypeError, ValueError) as fault:
                sys.exit(f'model: script line {number} is outside the grammar: {fault!r}')
            yield f'{number} {reply}\n{text}'
