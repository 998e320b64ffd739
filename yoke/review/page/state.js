// What the page has: the items, which of them are shown, and how each is decided. Keys of tags are never names of properties.

export const state = {
  all: [], shown: [], at: -1,       // `at` is the place of the chosen item among those that are shown
  how: new Map(), because: new Map(), heard: 0,
  found: null,                      // keys that a query found
  off: new Set(),                   // kinds that are left out
  tiles: '', to: '',
};

export const KINDS = new Map([['new', '+'], ['changed', '~'], ['moved', '↔'], ['deleted', '−'], ['conflict', '!'], ['question', '?'],
  ['feature', '◦'], ['node', '•'], ['way', '⌇'], ['relation', '≡']]);

export const chosen = () => state.shown[state.at];
export const editOf = item => item.conflict ? 'conflict' : item.edit;
export const kindOf = item => item.candidates ? 'feature' : { n: 'node', w: 'way', r: 'relation' }[item.key[0]];

export function stateOf(item) {
  const said = state.how.get(item.key);
  if (said === 'rejected' || said === 'skip' || state.because.has(item.key)) return 'rejected';
  return said ? 'accepted' : 'undecided';
}

// The tags that are rejected of an item that is accepted else, as a script has them.
export function without(item) {
  const said = state.how.get(item.key) || '';
  return said.startsWith('without K') ? said.slice(9).split(',') : [];
}

// How an item is decided, in a word or two.
export function told(item) {
  const said = state.how.get(item.key) || '', is = stateOf(item);
  if (is === 'undecided') return '';
  if (is === 'rejected') return said === 'rejected' ? '✗' : said === 'skip' ? '✗ skip' : '✗ with ' + state.because.get(item.key);
  const tags = without(item).length;
  if (tags) return '✓ −' + tags + (tags === 1 ? ' tag' : ' tags');
  return item.conflict || item.candidates ? '✓ ' + said.split(' ')[0] : '✓';
}
