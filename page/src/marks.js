// The mark of each entry. A trace has when a frame is sent and not when it arrives, so an arrow's second half is dotted.

import { element, escape, line, path, words } from './svg.js';

const MOST_OF_A_TITLE = 160;

/** A text beside the lifeline of an end, on the side that looks away from the other end. */
function beside(place, kind, text, dy = 0) {
  const right = place.end === 'point';
  return words(place.x + (right ? 32 : -32), place.y + dy, kind, text, right ? 'start' : 'end');
}

const tick = place => path('tick', `M${place.x - 5} ${place.y - 4} l3 4 l6 -7`);
const badge = (kind, place, rx) => element('rect', { class: kind, x: place.x - 11, y: place.y - 11, width: 22, height: 14, rx });

/** What an arrow says of its frame. */
function frameText([kind, request, more]) {
  if (kind === 'data') return `data ${request}, attempt ${more}`;
  return [kind, request, more].filter(word => word !== undefined).join(' ');
}

/** What the point shows: the vehicle's number, or that the octets are no set. */
function summaryText([verdict, first, second]) {
  if (verdict === undefined) return '';
  return verdict === 'ok' ? `: ${second}` : `: no set (bit ${first}, reason ${second})`;
}

const up = place => path('up', `M${place.x - 8} ${place.y} h16 l-8 -10z`) + beside(place, 'note', 'leg up');

const down = (place, { words: said }) =>
  path('down', `M${place.x - 8} ${place.y - 8} h16 l-8 10z`) + beside(place, 'note', `down: ${said[3]}`);

function voice(place, { words: said }) {
  const [toPoint, toVehicle] = said.slice(3);
  const same = toPoint === toVehicle;
  return beside(place, `note voice-${same ? toPoint : 'half'}`, same ? toPoint : `up ${toPoint}, down ${toVehicle}`, 4);
}

function send(place, { end, words: said }) {
  const way = Math.sign(place.other - place.x);
  const from = place.x + 7 * way, tip = place.other - 9 * way, half = (from + tip) / 2, { y } = place;
  return line(`sent ${end}`, from, y, half, y)
    + line(`sent under ${end}`, half, y, tip - 6 * way, y)
    + path(`tip ${end}`, `M${tip} ${y} l${-9 * way} -4 v8z`)
    + element('circle', { class: `tip ${end}`, cx: from, cy: y, r: 2.5 })
    + words(half, y - 4, `frame ${end}`, frameText(said.slice(3)), 'middle');
}

const shown = (place, { words: said }) =>
  badge('shown', place, 3) + tick(place)
  + words(place.x - 18, place.y, 'shown-text', `shown ${said[2]}${summaryText(said.slice(4))}`, 'end');

const acked = (place, { words: said }) =>
  badge('acked', place, 7) + tick(place) + words(place.x + 18, place.y, 'acked-text', `acked ${said[2]}`);

function ended(place, { call, words: said }) {
  const text = `${said[3]} ended`;
  if (call === 0) return words(place.x, place.y, 'timer', text, 'middle');
  return element('circle', { class: 'clock', cx: place.x, cy: place.y - 4, r: 6 })
    + path('hand', `M${place.x} ${place.y - 8} v4 h3`) + beside(place, 'timer', text);
}

const fault = place =>
  path('fault', `M${place.x - 7} ${place.y - 10} l14 14 m0 -14 l-14 14`) + beside(place, 'fault-text', 'fault');

const request = (place, { item }) =>
  element('circle', { class: 'refuse', cx: place.x, cy: place.y - 4, r: 5 }) + beside(place, 'fault-text', item);

const restart = (place, { end }) =>
  line(`restart ${end}`, place.x + 62, place.y - 4, place.width - 30, place.y - 4)
  + words(place.x, place.y, 'fault-text', `${end} restarts`, 'middle');

const own = (kind) => (place, { words: said }) => words(place.x, place.y, kind, said.join(' '), 'middle');

const MARKS = {
  up, down, voice, send, shown, acked, ended, fault, restart,
  busy: request, spent: request, unshown: request, dial: own('dial'), nothing: own('nothing'),
};

/** The mark of an entry at its place, with its line as what a pointer over it tells and a screen reader says. */
export function markOf(entry, place) {
  const draw = MARKS[entry.item] ?? own('own');
  const told = entry.text.length > MOST_OF_A_TITLE ? `${entry.text.slice(0, MOST_OF_A_TITLE)}…` : entry.text;
  return element('g', { class: 'item', 'data-item': entry.item, 'data-line': entry.line },
    `<title>${escape(told)}</title>${draw(place, entry)}`);
}
