// The list: as many rows as are seen, whatever it has. A screen reader knows each row's place among all.

import { $, el, plain, spoken } from './texts.js';
import { KINDS, chosen, editOf, state, stateOf, told } from './state.js';

const pool = [];
let height = 44;

export function setUp(pick) {
  measure();
  $('list').addEventListener('scroll', rows);
  addEventListener('resize', measure);
  $('rows').addEventListener('click', event => {
    const row = event.target.closest('.item');
    if (row) pick(row.number);
  });
}

// A row is as high as the letters are large.
export function measure() {
  const now = 2.75 * parseFloat(getComputedStyle(document.documentElement).fontSize);
  if (now === height) return;
  height = now;
  filled(); reveal(); rows();
}

export function filled() {
  $('spacer').style.height = state.shown.length * height + 'px';
  rows();
}

// Scrolls so far that the chosen row is seen.
export function reveal() {
  const list = $('list'), top = state.at * height;
  if (top < list.scrollTop) list.scrollTop = top;
  else if (top + height > list.scrollTop + list.clientHeight) list.scrollTop = top + height - list.clientHeight;
}

export function rows() {
  const list = $('list'), first = Math.max(0, Math.floor(list.scrollTop / height) - 4);
  const count = Math.max(0, Math.min(state.shown.length - first, Math.ceil(list.clientHeight / height) + 8));
  while (pool.length < count) {
    const one = el('div', 'item', el('span', 'what'), el('span', 'name'), el('span', 'mark'), el('span', 'sub'));
    one.setAttribute('role', 'option');
    pool.push(one); $('rows').append(one);
  }
  $('rows').style.transform = 'translateY(' + first * height + 'px)';
  pool.forEach((one, offset) => {
    one.style.display = offset < count ? '' : 'none';
    if (offset < count) fill(one, first + offset);
    else { one.id = ''; one.setAttribute('aria-selected', false); }
  });
  if (chosen() && $('row' + state.at)) list.setAttribute('aria-activedescendant', 'row' + state.at);
  else list.removeAttribute('aria-activedescendant');
}

function fill(one, number) {
  const item = state.shown[number], is = stateOf(item);
  one.number = number; one.id = 'row' + number;
  one.className = 'item ' + editOf(item) + ' is-' + is + (number === state.at ? ' now' : '');
  one.setAttribute('aria-selected', number === state.at);
  one.setAttribute('aria-posinset', number + 1);
  one.setAttribute('aria-setsize', state.shown.length);
  one.setAttribute('aria-label', [item.key + ' ' + spoken(item.title), spoken(item.kind), is + (is === 'rejected' && state.because.has(item.key) ? ' with ' + state.because.get(item.key) : '')].join('; '));
  one.children[0].textContent = KINDS.get(editOf(item));
  one.children[1].replaceChildren(el('b', '', item.key), plain(item.title, 80));
  one.children[2].textContent = told(item);
  one.children[3].replaceChildren(plain(item.kind, 120));
}
