// One edit: its sides as pictures, and part by part in a table, with what can be decided of it.

import { $, button, el, plain, quote, spoken } from './texts.js';
import { chosen, editOf, state, stateOf, without } from './state.js';
import { minis } from './map.js';

let acts = {};          // what buttons do: answer(said), decide(pairs), pickCandidate(how)

export function setUp(given) { acts = given; }

export function detail() {
  const box = $('detail'), item = chosen();
  const kept = box.contains(document.activeElement) ? document.activeElement.dataset.what : null;
  if (!item) box.replaceChildren(el('p', 'meta', state.all.length ? 'Nothing is shown: take a filter away.' : 'Nothing is edited.'));
  else box.replaceChildren(...(item.candidates ? question(item) : edit(item)));
  if (item && box.item !== item) box.scrollTop = 0;
  box.item = item;
  minis();
  if (kept) ([...box.querySelectorAll('button')].find(one => one.dataset.what === kept) || box).focus();      // the buttons are new ones
}

function named(one, what) { one.dataset.what = what; return one; }

const head = (item, buttons) => el('div', 'row', el('h2', '', item.key + ' ', plain(item.title, 120)), ...buttons);
const place = () => ', ' + (state.at + 1) + ' of ' + state.shown.length;

function edit(item) {
  const is = stateOf(item), said = state.how.get(item.key) || '';
  const words = item.conflict ? [['mine (a)', said === 'mine'], ['theirs (r)', said === 'theirs']] : [['accept (a)', is === 'accepted'], ['reject (r)', is === 'rejected']];
  const buttons = [
    named(button(words[0][0], 'yes', words[0][1], () => acts.answer('accepted')), 'a'),
    named(button(words[1][0], 'no', words[1][1], () => acts.answer('rejected')), 'r'),
    named(button('undecided (u)', '', null, () => acts.answer('undecided')), 'u')];
  const kids = [head(item, buttons), about(item)];
  if (state.because.has(item.key)) kids.push(el('div', 'note', 'It is rejected with ' + state.because.get(item.key) + ': they hang together.'));
  if (item.conflict) kids.push(el('div', 'note', item.why + '; the server has version ' + item.their_version + (item.their_user ? ' by ' : ''), item.their_user ? plain(item.their_user) : null,
    item.their_deleted ? ', deleted' : '', item.by_parts ? '. Choose part by part, or a side for all.' : '.'));
  kids.push(pictures(item), table(item));
  return kids;
}

function about(item) {
  const from = item.version === null ? 'no server has it' : 'from version ' + item.version + (item.user ? ' by ' : '');
  return el('div', 'meta', editOf(item) + ', ' + from, item.user ? plain(item.user) : null, item.time ? ', ' + item.time.slice(0, 10) : '',
    item.corners ? ', with ' + item.corners + (item.corners === 1 ? ' corner' : ' corners') : '', place());
}

function pictures(item) {
  const figure = (which, name) => {
    const canvas = el('canvas');
    canvas.which = which; canvas.setAttribute('role', 'img'); canvas.setAttribute('aria-label', 'picture of ' + name);
    return el('figure', '', el('figcaption', which, name), canvas);
  };
  return el('div', 'sides', figure('before', item.before ? 'before' : 'before: not there'),
    figure('after', item.after ? (item.conflict ? 'mine' : 'after') : 'after: deleted'),
    item.conflict ? figure('theirs', item.their_deleted ? 'theirs: deleted' : 'theirs') : null);
}

// ---- part by part ----

const heading = (...names) => el('thead', '', el('tr', '', ...names.map(name => { const one = el('th', '', name); one.scope = 'col'; return one; })));
function rowHead(name) { const one = el('th', '', plain(name)); one.scope = 'row'; return one; }

function cell(text, kind) {
  if (text === null || text === undefined) return el('td', 'none ' + kind, '–');
  return el('td', kind, text === '' ? el('span', 'odd', 'empty') : plain(text));
}

function table(item) {
  const rows = [...item.tags.map(([name, ...sides]) => part(item, name, sides, null, true)),
    ...item.lists.map(([name, was, mine, theirs, note]) => part(item, name, [was, mine, theirs], note, false))];
  const order = row => (row.classList.contains('clash') ? 2 : 0) + (row.classList.contains('dif') ? 1 : 0);
  rows.sort((one, other) => order(other) - order(one));
  return el('table', '', heading('part', 'before', item.conflict ? 'mine' : 'after', ...(item.conflict ? ['theirs'] : [])), el('tbody', '', ...rows));
}

function part(item, name, [was = null, mine = null, theirs = null], note, isTag) {
  const isMine = was !== mine, isTheirs = Boolean(item.conflict) && was !== theirs, isLong = note && mine !== null && mine.length > 120;
  const clashes = item.by_parts && (isTag ? item.clash_tags.includes(name) : item.clash_part === name);
  const second = cell(isLong ? note : mine, isMine ? 'came' : '');
  if (note && !isLong) second.append(el('div', 'meta', note));
  const row = el('tr', (isMine || isTheirs ? 'dif ' : '') + (clashes ? 'clash' : ''), rowHead(name), cell(was, isMine ? 'gone' : ''), second, item.conflict ? cell(theirs, isTheirs ? 'other' : '') : null);
  if (clashes) for (const [column, side] of [[2, 'mine'], [3, 'theirs']]) row.children[column].append(' ', side_(item, name, side, isTag));
  else if (isTag && isMine && canReject(item, was)) second.append(' ', tagButton(item, name, second));
  return row;
}

// ---- one tag rejected ----

const canReject = (item, was) => !item.conflict && (item.edit === 'changed' || item.edit === 'new') && was !== '' && stateOf(item) !== 'rejected';

function tagButton(item, name, box) {
  const tags = new Set(without(item)), word = quote(name), is = tags.has(word);
  box.classList.toggle('back', is);
  return named(button(is ? 'rejected' : 'reject tag', 'no', is, () => {
    is ? tags.delete(word) : tags.add(word);
    acts.decide([[item.key, tags.size ? 'without K' + [...tags].join(',') : 'accepted']]);
  }, 'reject the tag ' + spoken(name)), 'tag ' + name);
}

// ---- one part of a conflict ----

function parts(item) {
  const words = (state.how.get(item.key) || '').split(' '), named = words[2] && words[2].length > 1 ? words[2].slice(1).split(',') : [];
  return { is: words[0] === 'parts', body: words[1], theirs: new Set(named) };
}

function side_(item, name, side, isTag) {
  const now = parts(item), is = now.is && (isTag ? now.theirs.has(quote(name)) === (side === 'theirs') : now.body === side);
  const one = named(button(side, '', is, () => choose(item, name, side, isTag), spoken(name) + ': ' + side), side + ' ' + name + isTag);
  one.dataset.part = name; one.dataset.side = side;
  return one;
}

function choose(item, name, side, isTag) {
  const now = parts(item), theirs = now.is ? now.theirs : new Set();
  let body = now.is ? now.body : 'mine';
  if (!isTag) body = side;
  else if (side === 'theirs') theirs.add(quote(name));
  else theirs.delete(quote(name));
  acts.decide([[item.key, 'parts ' + body + ' K' + [...theirs].join(',')]]);
}

// ---- a feature of an import ----

function question(item) {
  const said = state.how.get(item.key), found = item.candidates;
  const buttons = found.map(([key], number) => named(button(number + 1 + ': ' + key, 'yes', said === key, () => acts.pickCandidate(key)), 'c' + number));
  buttons.push(named(button('new (m)', 'yes', said === 'new', () => acts.pickCandidate('new')), 'm'), named(button('skip (r)', 'no', said === 'skip', () => acts.pickCandidate('skip')), 'r'));
  const rows = item.tags.map(([name, ...texts]) => {
    const cells = texts.map((text, number) => cell(text, number && texts[0] !== null && text !== null ? (text === texts[0] ? 'came' : 'other') : ''));
    return el('tr', texts[0] !== null ? 'dif' : '', rowHead(name), ...cells);
  });
  return [head(item, buttons), el('div', 'meta', item.kind + place()),
    el('table', '', heading('part', 'of the file', ...found.map(([key, score], number) => number + 1 + ': ' + key + ' (' + score + ')')), el('tbody', '', ...rows))];
}
