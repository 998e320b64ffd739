"""Which features are which objects, which are new, and which a person has to look at.

Where two or more objects, or two or more features, are about as good as each other, all of them are
ambiguous: a wrong match changes somebody's object, and a doubtful one costs a look.
"""
from collections import defaultdict
from dataclasses import dataclass, field
from typing import Dict, List, Mapping, Optional, Sequence, Tuple

from yoke.conflate.names import Names, plain
from yoke.conflate.rules import Rules
from yoke.conflate.shapes import Grid, Thing, apart, metres, overlap
from yoke.formats.drawing import NEAR

FAR = 10  # times `within` for an id
SOME = 0.1  # share of an outline below which another outline has nothing to do with it


@dataclass(frozen=True)
class Candidate:
    """An object that may be a feature: how much so, 0 to 1 and above 1 by an id; metres; why."""

    score: float
    metres: float
    thing: Thing
    why: str


@dataclass
class Found:
    """What a feature is: `same` (nothing to do), `update`, `new`, `ambiguous` or `skip`; and its
    candidates, the best one first."""

    feature: Thing
    kind: str = 'new'
    candidates: List[Candidate] = field(default_factory=list)
    why: str = ''

    @property
    def best(self) -> Thing:
        """The object that it is."""
        return self.candidates[0].thing


def match(
    rules: Rules,
    features: Sequence[Thing],
    things: Sequence[Thing],
    known: Optional[Mapping[str, str]] = None,
) -> List[Found]:
    """A Found for each feature. `known` are keys of objects by the names of features."""
    lat = max((abs(y) for feature in features for _, y in feature.path), default=0.0)
    grid = Grid(things, rules.within, lat)
    names = Names(
        one.tags[key] for one in [*things, *features] for key in rules.like if key in one.tags
    )
    by_id = ids_of(rules, things)
    by_key = {thing.name: thing for thing in things}
    found: List[Found] = []
    wanted: Dict[str, List[Found]] = defaultdict(list)
    for feature in features:
        one = Found(feature)
        object_ = by_key.get((known or {}).get(feature.name, ''))
        if object_ is not None:
            one.candidates = [
                Candidate(2.0, metres(feature.middle, object_), object_, 'the list of ids')
            ]
        else:
            one.candidates = candidates(rules, feature, grid, by_id, names)
        if one.candidates and one.candidates[0].score >= rules.least:
            wanted[one.best.name].append(one)
        found.append(one)
    for one in found:
        decide(rules, one, wanted)
    find_doubles(rules, found, names, lat)
    return found


def ids_of(rules: Rules, things: Sequence[Thing]) -> Dict[Tuple[str, str], List[Thing]]:
    """Things by the keys that the rules call ids, and their values."""
    found: Dict[Tuple[str, str], List[Thing]] = defaultdict(list)
    for thing in things:
        for key in rules.id:
            if key in thing.tags:
                found[key, plain(thing.tags[key])].append(thing)
    return found


def candidates(
    rules: Rules,
    feature: Thing,
    grid: Grid,
    by_id: Mapping[Tuple[str, str], List[Thing]],
    names: Names,
) -> List[Candidate]:
    """What a feature may be, the best one first."""
    near = {thing.name: thing for thing in grid.near(feature.middle)}
    if len(feature.path) > 1:
        for place in feature.path:
            near.update((thing.name, thing) for thing in grid.near(place))
    for key in rules.id:
        if key in feature.tags:
            near.update(
                (thing.name, thing) for thing in by_id.get((key, plain(feature.tags[key])), ())
            )
    found = []
    for thing in near.values():
        far = metres(feature.middle, thing)
        if len(feature.path) > 1:
            far = min([far, *(metres(place, thing) for place in feature.path)])
        judged = score(rules, feature, thing, far, names) if far <= rules.within * FAR else None
        if judged and judged[0] >= rules.doubt:
            found.append(Candidate(judged[0], far, thing, judged[1]))
    return sorted(found, key=lambda one: (-one.score, one.metres, one.thing.name))


def score(
    rules: Rules, feature: Thing, thing: Thing, far: float, names: Names
) -> Optional[Tuple[float, str]]:
    """How much a feature and an object are the same, and why; None where they can't be."""
    tags, other = feature.tags, thing.tags
    for key in rules.id:
        if key in tags and key in other:
            is_equal = plain(tags[key]) == plain(other[key])
            return (1.5 - far / (rules.within * FAR) / 2, key) if is_equal else None
    if far > rules.within:
        return None
    reasons = equal_keys(rules, tags, other)
    if reasons is None:
        return None
    place, shared = 1 - far / rules.within, None
    if len(feature.path) > 1 and len(thing.path) > 1 and feature.is_area == thing.is_area:
        is_named = any(key in tags and key in other for key in rules.like)
        place = shared = overlap(feature, thing, rules.within, both=not is_named)
        if shared < SOME:
            return None
        if shared >= rules.overlap:
            reasons.append('overlap')
        elif feature.is_area:
            reasons.append('some overlap')
    return judged_by(rules, feature, thing, far, names, reasons, place, shared)


def equal_keys(
    rules: Rules, tags: Mapping[str, str], other: Mapping[str, str]
) -> Optional[List[str]]:
    """The keys by which two are alike; None where one that has to be equal isn't."""
    reasons = []
    for key in [*rules.same, *rules.equal]:
        if key in tags and key in other:
            one, another = tags[key], other[key]
            if one != another and (key in rules.same or plain(one) != plain(another)):
                return None
            reasons.append(key)
    return reasons


def judged_by(
    rules: Rules,
    feature: Thing,
    thing: Thing,
    far: float,
    names: Names,
    reasons: List[str],
    place: float,
    shared: Optional[float],
) -> Optional[Tuple[float, str]]:
    """The score of a feature and an object that may be the same."""
    tags, other = feature.tags, thing.tags
    likes = likenesses(rules, tags, other, names)
    alike = max(likes, default=0.0)
    parts = [(0.35, place)]
    if likes:
        parts.append((0.5, alike))
        if alike >= rules.unlike:
            reasons.append('name')
    has_all = bool(rules.equal) and all(key in tags and key in other for key in rules.equal)
    if has_all:
        parts.append((0.5, 1.0))
    elif any(key in reasons for key in rules.same):
        parts.append((0.15, 1.0))
    if not reasons:
        return None
    total = sum(weight * value for weight, value in parts) / sum(weight for weight, _ in parts)
    below = rules.least - 0.001
    if likes and alike < rules.unlike and not has_all:
        # another shop of the kind moved in, or both are there: that is for a person
        is_near = far <= rules.within / 2
        return (
            (max(rules.doubt, min(total, below)), ' '.join(reasons) + ', unlike names')
            if is_near
            else None
        )
    if not likes and not has_all and shared is None and far > rules.within / 4:
        total = min(total, below)  # a kind and a place alone count only near by
    if shared is not None and shared < rules.overlap:
        total = min(total, below)
        total = max(total, rules.doubt) if feature.is_area else total  # two outlines at one place
    elif shared is not None and feature.is_area and not likes:
        total = max(total, rules.least)  # outlines without names agree by as much as the rule wants
    return total, ' '.join(reasons)


def likenesses(
    rules: Rules, tags: Mapping[str, str], other: Mapping[str, str], names: Names
) -> List[float]:
    """How alike the names of two are; empty where one has none."""
    return [
        names.alike(tags[one], other[another])
        for one in rules.like
        if one in tags
        for another in rules.like
        if another in other and (one == another or one not in other)
    ]


def find_doubles(rules: Rules, found: Sequence[Found], names: Names, lat: float) -> None:
    """New features that another feature of the file may be are ambiguous: both would be made."""
    features = [one.feature for one in found if one.kind in ('new', 'ambiguous')]
    grid, by_id = Grid(features, rules.within, lat), ids_of(rules, features)
    for one in found:
        if one.kind == 'new':
            near = [
                other
                for other in candidates(rules, one.feature, grid, by_id, names)
                if is_double(rules, one.feature, other, names)
            ]
            named = {other.thing.name for other in near} | {one.feature.name}
            near += [
                Candidate(1.0, metres(one.feature.middle, other), other, 'the same tags')
                for other in grid.near(one.feature.middle)
                if other.name not in named and has_same_tags(one.feature, other)
            ]
            if near:
                one.kind, one.candidates = 'ambiguous', near
                one.why = f'{near[0].thing.name} of the file is as like'


def is_double(rules: Rules, feature: Thing, other: Candidate, names: Names) -> bool:
    """Whether a feature and another one of the file are the same. A kind and a place aren't enough
    for that, nor an address, as they are for an object: trees stand side by side, and shops in one
    house. Lines of one name are often parts of one road."""
    tags, theirs = feature.tags, other.thing.tags
    if other.thing is feature or other.score < rules.least:
        return False
    if any(key in tags and key in theirs for key in rules.id):
        return True
    if is_line(feature) or is_line(other.thing):
        return False
    likes = likenesses(rules, tags, theirs, names)
    return (
        max(likes, default=0.0) >= rules.unlike
        if likes
        else feature.is_area and other.thing.is_area and tags == theirs
    )


def is_line(thing: Thing) -> bool:
    """Whether it is neither a point nor an outline."""
    return len(thing.path) > 1 and not thing.is_area


def has_same_tags(feature: Thing, other: Thing) -> bool:
    """Whether two points or lines with the same tags are so near that they are one."""
    if feature.tags != other.tags:
        return False
    if is_line(feature) and is_line(other):
        return apart(feature.path, other.path) <= NEAR
    return len(feature.path) == len(other.path) == 1 and metres(feature.middle, other) <= NEAR


def decide(rules: Rules, one: Found, wanted: Mapping[str, List[Found]]) -> None:
    """Says what a feature is."""
    if not one.candidates:
        return
    best = one.candidates[0].score
    rivals = [
        other.candidates[0].score for other in wanted.get(one.best.name, ()) if other is not one
    ]
    one.kind = 'ambiguous'
    if best < rules.least:
        one.why = 'not alike enough'
    elif len(one.candidates) > 1 and one.candidates[1].score > best - rules.margin:
        one.why = 'two objects are about as alike'
    elif rivals and max(rivals) > best - rules.margin:
        one.why = 'another feature is as like or more like the same object'
    else:
        one.kind = 'update'
