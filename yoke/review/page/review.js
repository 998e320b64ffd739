// The page of a review: what is shown, decisions, mouse and keys.

import { $, button, el, spoken } from './texts.js';
import { call } from './calls.js';
import { KINDS, chosen, editOf, kindOf, state, stateOf } from './state.js';
import * as list from './list.js';
import * as map from './map.js';
import { detail, setUp as setUpDetail } from './detail.js';

const past = [];                        // decisions to take back: lists of [key, how]
let queue = Promise.resolve();          // calls one after the other: the last decision on an item is the one that counts
let waiting = 0;                        // calls of the queue that the server hasn't answered
let hasKeys = true;                     // whether single keys decide

// ---- start ----

async function load() {
  const told = await call('/items');
  Object.assign(state, { all: told.items, tiles: told.tiles, to: told.to, how: new Map(told.decisions), because: new Map(told.because), heard: told.heard });
  state.all.forEach(map.prepare);
  document.title = 'review of ' + told.day + ', session ' + told.session;
  for (const [name, sign] of KINDS) kindBox(name, sign);
  groups();
  map.fitAll(); filter(); progress();
  $('list').focus({ preventScroll: true });
}

function kindBox(name, sign) {
  const count = state.all.filter(item => kindOf(item) === name || editOf(item) === name).length;
  if (!count) return;
  const box = el('input');
  box.type = 'checkbox'; box.checked = true; box.name = name;
  box.addEventListener('change', () => { box.checked ? state.off.delete(name) : state.off.add(name); filter(); });
  $('kinds').append(el('label', '', box, sign + ' ' + name + ' ' + count));
}

function groups() {
  const counts = new Map();
  for (const item of state.all) counts.set(item.kind, (counts.get(item.kind) || 0) + 1);
  $('group').append(new Option('each kind of edit (' + counts.size + ')', ''));
  const sorted = [...counts].sort((one, other) => other[1] - one[1]).slice(0, 500);
  sorted.forEach(([name, count]) => $('group').append(new Option(count + ' × ' + spoken(name), '=' + name)));
}

// ---- filter ----

const PARTS = ['tags', 'place', 'nodes', 'members', 'corners'];

function test(word) {
  if (word[0] === '-' && word.length > 1) { const other = test(word.slice(1)); return item => !other(item); }
  const sign = word.indexOf('=');
  if (sign > 0) {
    const key = word.slice(0, sign).toLowerCase(), value = word.slice(sign + 1).toLowerCase();
    return item => item.tags.some(row => row[0].toLowerCase() === key && row.slice(1).some(text => text !== null && (value === '*' || text.toLowerCase() === value)));
  }
  if (PARTS.includes(word)) return item => item.parts.includes(word);
  const low = word.toLowerCase();
  return item => (item.hay ??= [item.key, item.title, item.kind, item.user || '', ...item.tags.flat()].join(' ').toLowerCase()).includes(low);
}

function filter() {
  const now = chosen(), is = $('state').value, group = $('group').value.slice(1), tests = $('text').value.trim().split(/\s+/).filter(Boolean).map(test);
  state.shown = state.all.filter(item => !state.off.has(kindOf(item)) && !state.off.has(editOf(item)) && (!is || stateOf(item) === is)
    && (!group || item.kind === group) && (!state.found || state.found.has(item.key)) && tests.every(one => one(item)));
  state.at = now ? state.shown.indexOf(now) : -1;
  $('shown').textContent = state.shown.length + ' of ' + state.all.length + ' shown';
  if (state.at < 0 && state.shown.length) state.at = 0;
  list.filled();
  if (chosen() !== now) { list.reveal(); if (chosen()) map.show(chosen()); }
  list.rows(); detail(); map.draw();
}

async function query() {
  const text = $('query').value.trim();
  $('fault').textContent = '';
  try { state.found = text ? new Set(await call('/find', { query: text })) : null; } catch (fault) { $('fault').textContent = fault.message; }
  filter();
  if (state.found) hear(state.shown.length + ' found');
}

function filterOff() {
  state.off.clear(); state.found = null;
  for (const id of ['text', 'state', 'group', 'query']) $(id).value = '';
  document.querySelectorAll('#kinds input').forEach(box => { box.checked = true; });
  filter();
}

// ---- the chosen one ----

function pick(number, isSeen) {
  if (number < 0 || number >= state.shown.length) return;
  state.at = number;
  list.reveal(); list.rows(); detail();
  if (!isSeen) map.show(chosen());
  map.draw();
}

function next() {       // the next one that isn't decided, else the one that comes next
  for (let number = state.at + 1; number < state.shown.length; number++) if (stateOf(state.shown[number]) === 'undecided') return pick(number);
  pick(state.at + 1);
}

// ---- decisions ----

function decide(pairs, isBack) {
  if (!pairs.length) return queue;
  const before = pairs.map(([key]) => [key, state.how.get(key) || 'undecided']);
  waiting++;
  take(pairs); seen(); detail();
  queue = queue.then(async () => {
    try {
      const told = await call('/decide', { decisions: pairs, heard: state.heard });
      if (!isBack) past.push(before);
      state.because = new Map(told.because); state.heard = told.heard;
      take(told.decisions);
      hear(said(pairs));
    } catch (fault) {
      take(before);
      say('This decision is not kept', fault.message);
    }
    waiting--;
    seen(); detail();
  });
  return queue;
}

function take(pairs) { for (const [key, how] of pairs) how === 'undecided' ? state.how.delete(key) : state.how.set(key, how); }

function said(pairs) {
  const left = state.all.filter(item => stateOf(item) === 'undecided').length, first = pairs[0];
  return (pairs.length === 1 ? first[0] + ' ' + first[1] : pairs.length + ' ' + first[1]) + '; ' + left + ' left';
}

function seen() { list.rows(); progress(); map.draw(); }

function answer(how) {
  const item = chosen();
  if (!item) return;
  let words = how;
  if (item.candidates) words = { accepted: item.candidates.length ? item.candidates[0][0] : 'new', rejected: 'skip', undecided: how }[how];
  if (item.conflict) words = { accepted: 'mine', rejected: 'theirs', undecided: how }[how];
  decide([[item.key, words]]);
  if (how !== 'undecided') next();
}

function pickCandidate(how) {
  const item = chosen();
  if (!item || !item.candidates || !how) return;
  decide([[item.key, how]]);
  next();
}

function answerAll(how) {
  const some = state.shown.filter(item => !item.conflict && !item.candidates && state.how.get(item.key) !== how), left = state.shown.filter(item => item.conflict || item.candidates).length;
  if (!some.length) return;
  const act = () => decide(some.map(item => [item.key, how]));
  if (some.length <= 20) return act();
  const word = how === 'accepted' ? 'Accept' : 'Reject';
  say(word + ' ' + some.length + ' edits?', left ? left + ' conflicts and questions are left out.' : 'One undo (z) takes all of it back.', [[word + ' ' + some.length, act]]);
}

function back() { const before = past.pop(); if (before) decide(before, true); }

// Counts what is decided, when all of it is on the disk: while the server is asked, the count stays as it was.
function progress() {
  if (waiting) return;
  const counts = { accepted: 0, rejected: 0, undecided: 0 };
  for (const item of state.all) counts[stateOf(item)]++;
  const part = name => 100 * counts[name] / Math.max(1, state.all.length) + '%', bar = $('bar'), text = counts.accepted + ' accepted, ' + counts.rejected + ' rejected, ' + counts.undecided + ' left of ' + state.all.length;
  bar.children[0].style.width = part('accepted'); bar.children[1].style.width = part('rejected');
  bar.setAttribute('aria-valuemax', Math.max(1, state.all.length)); bar.setAttribute('aria-valuenow', state.all.length - counts.undecided); bar.setAttribute('aria-valuetext', text);
  $('count').textContent = text;
}

// ---- what is said ----

function hear(text) { $('live').textContent = text; }

function say(head, content, acts = []) {
  $('boxhead').textContent = head;
  $('boxtext').replaceChildren(content);
  const close = () => $('box').close();
  $('boxrow').replaceChildren(...acts.map(([name, act]) => button(name, 'main', null, () => { close(); act(); })), button(acts.length ? 'cancel' : 'close', '', null, close));
  if (!$('box').open) $('box').showModal();
}

const KEYS = [['j, k, ↓, ↑', 'next, previous'], ['n', 'next that is not decided'], ['a, r, u', 'accept, reject, undecided; of a conflict: mine, theirs'], ['A, R', 'accept, reject all that are shown'],
  ['1 to 5, m, r', 'of a feature of an import: it is this object, new, skip'], ['z', 'take the last decision back'], ['Enter, Esc', 'from the list to the parts of the edit, and back'],
  ['f, 0', 'the map to this edit, to all'], ['+, −', 'nearer, farther'], ['/, q', 'filter, query'], ['Tab', 'filter, list, map, parts']];

function help() {
  const keys = el('dl', '', ...KEYS.flatMap(([name, text]) => [el('dt', '', name), el('dd', '', text)])), box = el('input');
  box.type = 'checkbox'; box.checked = hasKeys; box.addEventListener('change', () => { hasKeys = box.checked; });
  say('Keys', el('div', '', keys, el('p', '', el('label', '', box, ' single keys decide and move'))));
}

async function finish() {
  await queue;
  try {
    const told = await call('/finish', {});
    say('The script is written', told.said, [['end the review', end]]);
  } catch (fault) {
    if (fault.key) { filterOff(); pick(state.shown.findIndex(item => item.key === fault.key)); }
    say('The script is not written', fault.message);
  }
}

async function end() {
  try { await call('/finish', { stop: true }); } catch (fault) { return say('The review is not ended', fault.message); }
  say('The review is ended', 'You may close this page.');
}

// ---- mouse and keys ----

const digit = number => () => { const item = chosen(); if (item && item.candidates && item.candidates[number]) pickCandidate(item.candidates[number][0]); };
const ANYWHERE = {
  j: () => pick(state.at + 1), k: () => pick(state.at - 1), n: next, a: () => answer('accepted'), r: () => answer('rejected'), u: () => answer('undecided'),
  A: () => answerAll('accepted'), R: () => answerAll('rejected'), z: back, m: () => pickCandidate('new'), 1: digit(0), 2: digit(1), 3: digit(2), 4: digit(3), 5: digit(4),
  f: () => { const item = chosen(); if (item && item.box) map.fit(item.box, 3e8); }, 0: map.fitAll, '+': () => map.zoom(2), '-': () => map.zoom(.5),
  '/': () => $('text').focus(), q: () => $('query').focus(), '?': help,
};
const IN_LIST = {
  ArrowDown: () => pick(state.at + 1), ArrowUp: () => pick(state.at - 1), PageDown: () => pick(Math.min(state.shown.length - 1, state.at + 10)), PageUp: () => pick(Math.max(0, state.at - 10)),
  Home: () => pick(0), End: () => pick(state.shown.length - 1), Enter: () => { const first = $('detail').querySelector('button'); if (first) first.focus(); },
};
const IN_MAP = { ArrowDown: () => map.pan(0, 60), ArrowUp: () => map.pan(0, -60), ArrowLeft: () => map.pan(-60, 0), ArrowRight: () => map.pan(60, 0) };

function press(event) {
  const target = event.target, isText = target.matches('input[type=search], select');
  if ($('box').open || event.ctrlKey || event.metaKey || event.altKey) return;
  if (event.key === 'Escape') { $('list').focus(); return; }
  if (isText) return;
  const isList = target === $('list') || target === document.body;
  const act = (isList && IN_LIST[event.key]) || (target === $('map') && IN_MAP[event.key]) || (hasKeys && ANYWHERE[event.key]);
  if (act) { event.preventDefault(); act(); }
}

function listen() {
  list.setUp(pick); map.setUp(pick);
  setUpDetail({ answer, decide, pickCandidate });
  $('text').addEventListener('input', filter);
  $('state').addEventListener('change', filter); $('group').addEventListener('change', filter);
  $('query').addEventListener('keydown', event => { if (event.key === 'Enter') query(); });
  $('query').addEventListener('search', query);
  for (const [id, act] of Object.entries({ acceptall: () => answerAll('accepted'), rejectall: () => answerAll('rejected'), undo: back, finish, help, nearer: () => map.zoom(2), farther: () => map.zoom(.5), whole: map.fitAll })) {
    $(id).addEventListener('click', act);
  }
  document.addEventListener('keydown', press);
  new ResizeObserver(() => { list.rows(); map.draw(); }).observe($('mapbox'));
  new ResizeObserver(() => { list.measure(); list.rows(); }).observe($('list'));
}

globalThis.review = { state, map, pick, filter };     // for the tools of a developer
listen();
load().catch(fault => { $('count').textContent = fault.message; hear(fault.message); });
