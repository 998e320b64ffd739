// Texts of objects come to the page as text nodes alone. A text must not look like another one.

export const $ = id => document.getElementById(id);

export function el(name, kind, ...kids) {
  const one = document.createElement(name);
  if (kind) one.className = kind;
  one.append(...kids.filter(kid => kid !== null && kid !== undefined));
  return one;
}

export function button(text, kind, pressed, act, label) {
  const one = el('button', kind, text);
  one.type = 'button';
  if (pressed !== null) one.setAttribute('aria-pressed', pressed);
  if (label) one.setAttribute('aria-label', label);
  one.addEventListener('click', act);
  return one;
}

// Control signs, signs without width, signs that turn the direction of a text, and blanks at its ends.
const ODD = /[\u0000-\u001f\u007f-\u00a0\u00ad\u034f\u061c\u115f\u1160\u17b4\u17b5\u180b-\u180f\u2000-\u200f\u2028-\u202f\u205f-\u206f\u3000\u3164\ufe00-\ufe0f\ufeff\uffa0\ufff0-\ufffb\ufffe\uffff\ud800-\udfff]|^ +| +$/gu;

function sign(odd) {
  if (odd[0] === ' ') return '␣'.repeat(odd.length);
  if (odd === '\n') return '↵';
  if (odd === '\t') return '⇥';
  return 'U+' + odd.codePointAt(0).toString(16).toUpperCase().padStart(4, '0');
}

const cut = (text, most) => text.length > most ? text.slice(0, most) + '…' : text;

// A text of an object as an element, with odd signs as marks.
export function plain(text, most = 2000) {
  const box = document.createElement('bdi'), short = cut(text, most);
  let last = 0;
  for (const match of short.matchAll(ODD)) {
    box.append(short.slice(last, match.index), el('span', 'odd', sign(match[0])));
    last = match.index + match[0].length;
  }
  box.append(short.slice(last));
  return box;
}

// The same as a text, for names that a screen reader says.
export const spoken = (text, most = 120) => cut(text, most).replace(ODD, odd => ' ' + sign(odd) + ' ');

// A text as a script has it.
export function quote(text) {
  return [...text].map(one => /[\u0000- \u007f-\u00a0\u00ad%,=@]/.test(one) || one.codePointAt(0) >= 0x600
    ? '%' + one.codePointAt(0).toString(16).padStart(2, '0') + '%' : one).join('');
}
