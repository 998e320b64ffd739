// The map, on a canvas: what lies around, the edits that are shown, and the chosen one with all of its sides.

import { $ } from './texts.js';
import { call } from './calls.js';
import { chosen, editOf, state, stateOf } from './state.js';

const COLORS = { before: '#d55e00', after: '#0072b2', theirs: '#a03a86', new: '#00805d', changed: '#0072b2', moved: '#0072b2', deleted: '#d55e00', conflict: '#a03a86', question: '#8a6a00', rejected: '#6f6f6f' };
const AROUND = { building: '#c9bfb2', highway: '#d2cbbc', water: '#a9cbe0', other: '#dcd8d0', node: '#8f887c' };
const SIDES = ['before', 'after', 'theirs'];
// scales from which what lies around is drawn, and names of it; and how many names
const AROUND_FROM = 2e6, NAMES_FROM = 3e7, MOST_NAMES = 150;

// `x` and `y` are the middle, in a square that is the world by Mercator, and `s` how many pixels its side has.
export const view = { x: .5, y: .5, s: 1000 };
export let painted = 0;                         // milliseconds of the last picture
let around = [];

// ---- places ----

const X = lon => (lon + 180) / 360;
const Y = lat => .5 - Math.log(Math.tan(Math.PI / 4 + Math.max(-85, Math.min(85, lat)) * Math.PI / 360)) / (2 * Math.PI);
const LON = x => x * 360 - 180;
const LAT = y => Math.atan(Math.sinh((.5 - y) * 2 * Math.PI)) * 180 / Math.PI;

function plane(flat) {
  const made = new Float64Array(flat.length);
  for (let n = 0; n < flat.length; n += 2) { made[n] = X(flat[n]); made[n + 1] = Y(flat[n + 1]); }
  return made;
}

const sidesOf = item => [...SIDES.map(name => item[name]), ...(item.candidates || []).map(one => one[2])].filter(Boolean);

export function prepare(item) {
  const box = [2, 2, -1, -1];
  for (const side of sidesOf(item)) {
    side.lines = side.lines.map(plane); side.points = plane(side.points);
    for (const line of [...side.lines, side.points]) for (let n = 0; n < line.length; n += 2) {
      box[0] = Math.min(box[0], line[n]); box[1] = Math.min(box[1], line[n + 1]);
      box[2] = Math.max(box[2], line[n]); box[3] = Math.max(box[3], line[n + 1]);
    }
  }
  item.box = box[2] < 0 ? null : box;
}

// ---- drawing ----

function follow(pen, line, to) {
  for (let n = 0; n < line.length; n += 2) pen[n ? 'lineTo' : 'moveTo']((line[n] - to.x) * to.s + to.w, (line[n + 1] - to.y) * to.s + to.h);
}

function trace(pen, side, to) {
  pen.beginPath();
  for (const line of side.lines) follow(pen, line, to);
  pen.stroke();
}

// Points by what was done, so that color isn't all that tells: a dot, a cross where it is deleted, a diamond in conflict.
function dots(pen, side, to, size, edit) {
  for (let n = 0; n < side.points.length; n += 2) {
    const x = (side.points[n] - to.x) * to.s + to.w, y = (side.points[n + 1] - to.y) * to.s + to.h;
    pen.beginPath();
    if (edit === 'deleted') { pen.moveTo(x - size, y - size); pen.lineTo(x + size, y + size); pen.moveTo(x + size, y - size); pen.lineTo(x - size, y + size); }
    else if (edit === 'conflict') { pen.moveTo(x, y - size - 1); pen.lineTo(x + size + 1, y); pen.lineTo(x, y + size + 1); pen.lineTo(x - size - 1, y); pen.closePath(); }
    else pen.arc(x, y, size, 0, 7);
    if (edit !== 'deleted') pen.fill();
    pen.stroke();
  }
}

let asked = false;
export function draw() {
  if (asked) return;
  asked = true;
  requestAnimationFrame(() => { asked = false; paint(); });
}

export function paint() {
  const began = performance.now(), canvas = $('map'), ratio = devicePixelRatio || 1, wide = canvas.clientWidth, high = canvas.clientHeight;
  if (canvas.width !== Math.round(wide * ratio) || canvas.height !== Math.round(high * ratio)) { canvas.width = Math.round(wide * ratio); canvas.height = Math.round(high * ratio); }
  const pen = canvas.getContext('2d'), to = { x: view.x, y: view.y, s: view.s, w: wide / 2, h: high / 2 };
  pen.setTransform(ratio, 0, 0, ratio, 0, 0); pen.clearRect(0, 0, wide, high);
  const box = [view.x - to.w / view.s, view.y - to.h / view.s, view.x + to.w / view.s, view.y + to.h / view.s];
  const isIn = other => other && other[0] <= box[2] && other[2] >= box[0] && other[1] <= box[3] && other[3] >= box[1];
  if (state.tiles) paintTiles(pen, to, box);
  paintAround(pen, to);
  if (view.s > NAMES_FROM) paintNames(pen, to, box);
  const now = chosen();
  let seen = 0;
  for (const item of state.shown) {
    if (item === now || !isIn(item.box)) continue;
    seen++;
    paintItem(pen, to, item);
  }
  pen.globalAlpha = 1;
  if (now && now.box) paintNow(pen, to, now);
  painted = performance.now() - began;
  label(canvas, seen, now);
  askAround(box);
}

function label(canvas, seen, now) {
  const text = 'map: ' + (seen + (now && now.box ? 1 : 0)) + ' edits in view' + (now ? ', chosen is ' + now.key : '') + '. Arrow keys move it, plus and minus zoom';
  if (canvas.text !== text) { canvas.text = text; canvas.setAttribute('aria-label', text); }
}

function paintItem(pen, to, item) {
  const is = stateOf(item), edit = editOf(item), side = item.after || item.before || item.theirs, box = item.box;
  pen.globalAlpha = is === 'undecided' ? 1 : .35;
  pen.strokeStyle = pen.fillStyle = is === 'rejected' ? COLORS.rejected : COLORS[edit];
  pen.lineWidth = 2.5;
  if (Math.max(box[2] - box[0], box[3] - box[1]) * to.s < 5 && to.s < 3e7) {     // too small to have a form
    pen.fillRect(((box[0] + box[2]) / 2 - to.x) * to.s + to.w - 2.5, ((box[1] + box[3]) / 2 - to.y) * to.s + to.h - 2.5, 5, 5);
    return;
  }
  if (edit === 'deleted') pen.setLineDash([5, 4]);
  trace(pen, side, to); pen.setLineDash([]); dots(pen, side, to, 3.5, edit);
}

function paintNow(pen, to, item) {
  (item.candidates || []).forEach((one, number) => paintCandidate(pen, to, item, one, number));
  for (const [name, dash, wide] of [['before', [7, 5], 5], ['theirs', [2, 4], 4], ['after', [], 3]]) {
    if (!item[name]) continue;
    pen.strokeStyle = COLORS[name]; pen.fillStyle = name === 'before' ? '#fff' : COLORS[name]; pen.lineWidth = wide; pen.setLineDash(dash);
    trace(pen, item[name], to); pen.setLineDash([]); pen.lineWidth = 2; dots(pen, item[name], to, name === 'before' ? 7 : 5);
  }
  const x = ((item.box[0] + item.box[2]) / 2 - to.x) * to.s + to.w, y = ((item.box[1] + item.box[3]) / 2 - to.y) * to.s + to.h;
  const wide = Math.max(14, (item.box[2] - item.box[0]) * to.s / 2 + 10), high = Math.max(14, (item.box[3] - item.box[1]) * to.s / 2 + 10);
  pen.strokeStyle = '#fff'; pen.lineWidth = 4; pen.strokeRect(x - wide, y - high, 2 * wide, 2 * high);
  pen.strokeStyle = '#1f2328'; pen.lineWidth = 1.5; pen.strokeRect(x - wide, y - high, 2 * wide, 2 * high);
}

// An object that a feature may be: a line to it, and its digit.
function paintCandidate(pen, to, item, [key, , side], number) {
  const line = side && (side.lines[0] || side.points);
  if (!line || !line.length || !item.after.points.length) return;
  let x = 0, y = 0;
  for (let n = 0; n < line.length; n += 2) { x += line[n]; y += line[n + 1]; }
  x = (x / (line.length / 2) - to.x) * to.s + to.w; y = (y / (line.length / 2) - to.y) * to.s + to.h;
  pen.strokeStyle = pen.fillStyle = COLORS.before; pen.lineWidth = state.how.get(item.key) === key ? 4 : 1.5;
  pen.beginPath(); pen.moveTo((item.after.points[0] - to.x) * to.s + to.w, (item.after.points[1] - to.y) * to.s + to.h); pen.lineTo(x, y); pen.stroke();
  pen.lineWidth = 2; trace(pen, side, to);
  pen.fillStyle = '#a34700'; pen.beginPath(); pen.arc(x, y, 9, 0, 7); pen.fill();
  pen.fillStyle = '#fff'; pen.font = 'bold 12px sans-serif'; pen.textAlign = 'center'; pen.textBaseline = 'middle'; pen.fillText(number + 1, x, y);
}

// ---- what lies around ----

function paintAround(pen, to) {
  for (const { kind, line } of around) {
    pen.strokeStyle = AROUND[kind]; pen.lineWidth = kind === 'highway' ? 3 : 1;
    pen.beginPath();
    if (kind === 'node') { pen.fillStyle = AROUND.node; pen.arc((line[0] - to.x) * to.s + to.w, (line[1] - to.y) * to.s + to.h, 2, 0, 7); pen.fill(); continue; }
    follow(pen, line, to);
    if (kind === 'building') { pen.fillStyle = '#e9e3da'; pen.fill(); }
    pen.stroke();
  }
}

function paintNames(pen, to, box) {
  pen.font = '11px sans-serif'; pen.textAlign = 'left'; pen.textBaseline = 'middle'; pen.fillStyle = '#5b5f66';
  let count = 0;
  for (const { name, line } of around) {
    const middle = 2 * Math.floor(line.length / 4), x = line[middle], y = line[middle + 1];
    if (!name || x < box[0] || x > box[2] || y < box[1] || y > box[3]) continue;
    if (++count > MOST_NAMES) return;
    pen.fillText(name, (x - to.x) * to.s + to.w + 9, (y - to.y) * to.s + to.h);
  }
}

let timer = 0, last = '';
function askAround(box) {
  const places = [LON(box[0]), LAT(box[3]), LON(box[2]), LAT(box[1])], text = places.map(one => one.toFixed(4)).join();
  if (text === last) return;
  last = text; clearTimeout(timer);
  timer = setTimeout(async () => {
    if (view.s < AROUND_FROM) { if (around.length) { around = []; draw(); } return; }
    try {
      const told = await call('/around', { box: places });
      around = told.shapes.map(([kind, name, ...flat]) => ({ kind, name, line: plane(flat) }));
      draw(); minis();
    } catch (fault) { /* a map without its background */ }
  }, 120);
}

const images = new Map();
function paintTiles(pen, to, box) {
  const zoom = Math.max(0, Math.min(19, Math.round(Math.log2(view.s / 256)))), count = 2 ** zoom, size = view.s / count;
  pen.globalAlpha = .6;
  for (let x = Math.max(0, Math.floor(box[0] * count)); x <= Math.min(count - 1, box[2] * count); x++) {
    for (let y = Math.max(0, Math.floor(box[1] * count)); y <= Math.min(count - 1, box[3] * count); y++) {
      const image = tile(zoom, x, y);
      if (image.complete && image.naturalWidth) pen.drawImage(image, (x / count - to.x) * to.s + to.w, (y / count - to.y) * to.s + to.h, size, size);
    }
  }
  pen.globalAlpha = 1;
}

function tile(zoom, x, y) {
  const address = state.tiles.replace('{s}', 'abc'[(x + y) % 3]).replace('{z}', zoom).replace('{x}', x).replace('{y}', y);
  let image = images.get(address);
  if (!image) {
    image = new Image(); image.onload = draw; image.src = address;
    images.set(address, image);
    if (images.size > 400) images.delete(images.keys().next().value);
  }
  return image;
}

// ---- one side in a small picture of its own ----

export function minis() {
  const item = chosen();
  if (item) document.querySelectorAll('.sides canvas').forEach(canvas => mini(canvas, item));
}

function mini(canvas, item) {
  const ratio = devicePixelRatio || 1, wide = canvas.clientWidth, high = canvas.clientHeight, pen = canvas.getContext('2d'), box = item.box;
  canvas.width = wide * ratio; canvas.height = high * ratio; pen.setTransform(ratio, 0, 0, ratio, 0, 0);
  if (!box) return;
  const span = Math.max((box[2] - box[0]) / (wide - 40), (box[3] - box[1]) / (high - 40), 2e-8);
  const to = { x: (box[0] + box[2]) / 2, y: (box[1] + box[3]) / 2, s: 1 / span, w: wide / 2, h: high / 2 };
  if (to.s > AROUND_FROM) paintAround(pen, to);
  const side = item[canvas.which];
  if (!side) return;
  pen.strokeStyle = COLORS[canvas.which]; pen.lineWidth = 3; trace(pen, side, to);
  pen.fillStyle = '#fff'; pen.lineWidth = 1.5;
  for (const line of side.lines) if (line.length < 400) dots(pen, { points: line }, to, 2.5);
  pen.fillStyle = COLORS[canvas.which]; dots(pen, side, to, 5);
}

// ---- moving about ----

export function fit(box, most) {
  const canvas = $('map'), wide = canvas.clientWidth || 800, high = canvas.clientHeight || 400;
  view.x = (box[0] + box[2]) / 2; view.y = (box[1] + box[3]) / 2;
  view.s = Math.min(most, Math.min(wide / Math.max(box[2] - box[0], 1e-9), high / Math.max(box[3] - box[1], 1e-9)) * .85);
  draw();
}

export function fitAll() {
  const whole = [2, 2, -1, -1];
  for (const { box } of state.all) if (box) { whole[0] = Math.min(whole[0], box[0]); whole[1] = Math.min(whole[1], box[1]); whole[2] = Math.max(whole[2], box[2]); whole[3] = Math.max(whole[3], box[3]); }
  if (whole[2] >= 0) fit(whole, 3e8);
}

// Moves the map only where the item isn't well seen.
export function show(item) {
  if (!item.box) return;
  const canvas = $('map'), wide = canvas.clientWidth / view.s / 2, high = canvas.clientHeight / view.s / 2, box = item.box;
  const size = Math.max((box[2] - box[0]) / wide / 2, (box[3] - box[1]) / high / 2);
  if (size > .9 || view.s < 5e7 && size < .05) fit(box, 1.2e8);
  else if (box[0] < view.x - wide * .9 || box[2] > view.x + wide * .9 || box[1] < view.y - high * .9 || box[3] > view.y + high * .9) { view.x = (box[0] + box[2]) / 2; view.y = (box[1] + box[3]) / 2; }
  draw();
}

export function zoom(factor, x, y) {
  const canvas = $('map'), dx = (x ?? canvas.clientWidth / 2) - canvas.clientWidth / 2, dy = (y ?? canvas.clientHeight / 2) - canvas.clientHeight / 2;
  const s = Math.max(300, Math.min(1e10, view.s * factor));
  view.x += dx / view.s - dx / s; view.y += dy / view.s - dy / s; view.s = s;
  draw();
}

export function pan(dx, dy) { view.x += dx / view.s; view.y += dy / view.s; draw(); }

// The place among those shown of the item nearest to a place of the canvas; -1 where none is near.
export function nearest(px, py) {
  const canvas = $('map'), x = (px - canvas.clientWidth / 2) / view.s + view.x, y = (py - canvas.clientHeight / 2) / view.s + view.y, reach = 9 / view.s;
  let best = -1, least = reach;
  state.shown.forEach((item, number) => {
    const box = item.box;
    if (!box || x < box[0] - reach || x > box[2] + reach || y < box[1] - reach || y > box[3] + reach) return;
    for (const side of SIDES.map(name => item[name])) {
      if (!side) continue;
      const far = Math.min(...distances(side, x, y));
      if (far < least) { least = far; best = number; }
    }
  });
  return best;
}

function* distances(side, x, y) {
  for (let n = 0; n < side.points.length; n += 2) yield Math.hypot(side.points[n] - x, side.points[n + 1] - y) * .9;
  for (const line of side.lines) for (let n = 2; n < line.length; n += 2) {
    const ax = line[n - 2], ay = line[n - 1], bx = line[n] - ax, by = line[n + 1] - ay;
    const part = Math.max(0, Math.min(1, ((x - ax) * bx + (y - ay) * by) / (bx * bx + by * by || 1)));
    yield Math.hypot(ax + part * bx - x, ay + part * by - y);
  }
}

export function setUp(pick) {
  const canvas = $('map');
  let drag = null;
  canvas.addEventListener('wheel', event => { event.preventDefault(); zoom(2 ** (-event.deltaY / 300), event.offsetX, event.offsetY); }, { passive: false });
  canvas.addEventListener('pointerdown', event => { drag = { x: event.clientX, y: event.clientY, far: 0 }; canvas.setPointerCapture(event.pointerId); });
  canvas.addEventListener('pointermove', event => {
    if (!drag) return;
    const dx = event.clientX - drag.x, dy = event.clientY - drag.y;
    drag.far += Math.abs(dx) + Math.abs(dy); drag.x = event.clientX; drag.y = event.clientY;
    pan(-dx, -dy);
  });
  canvas.addEventListener('pointerup', event => {
    if (drag && drag.far < 5) { const number = nearest(event.offsetX, event.offsetY); if (number >= 0) pick(number, true); }
    drag = null;
  });
  canvas.addEventListener('pointercancel', () => { drag = null; });
}
