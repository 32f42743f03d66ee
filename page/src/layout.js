// Where each entry of a trace stands in the picture. Time runs down; a call takes a column, and calls that don't overlap
// take the same one, so that two thousand calls in a row are as wide as one.

import { callsOf } from './trace.js';

export const SIZE = { time: 84, own: 150, call: 540, inset: 126, row: 19, head: 40, tick: 6, bottom: 26 };

/** The first and the last entry of each call, by their places in the list. */
function spansOf(entries) {
  const spans = new Map();
  entries.forEach(({ call }, at) => {
    if (call === 0) return;
    if (!spans.has(call)) spans.set(call, { call, first: at, last: at });
    spans.get(call).last = at;
  });
  return spans;
}

/** Gives each call the leftmost column that is free from its first entry to its last. */
function placeColumns(spans) {
  const free = [];
  for (const span of [...spans.values()].sort((a, b) => a.first - b.first)) {
    const column = free.findIndex(last => last < span.first);
    span.column = column < 0 ? free.length : column;
    free[span.column] = span.last;
  }
  return free.length;
}

/** How much room there is for the time between two ticks. */
const gapOf = ticks => Math.min(34, 4 + 9 * Math.log2(1 + ticks / 4));

/** Gives each entry its row, and each tick and each call's beginning a line of its own. */
function placeRows(entries, spans, verdict) {
  const rows = [], times = [], judged = verdict?.line ?? null;
  let y = 4, last = null;
  entries.forEach((entry, at) => {
    const span = spans.get(entry.call);
    if (span?.first === at) { span.top = y + 4; y += SIZE.head; }
    if (entry.tick !== last) {
      const gap = last === null ? 0 : Math.max(0, entry.tick - last);
      y += SIZE.tick + (last === null ? 0 : gapOf(gap));
      times.push({ y, tick: entry.tick, gap });
      last = entry.tick;
    }
    y += SIZE.row;
    rows.push({ entry, y });
    if (judged !== null && entry.line <= judged && (entries[at + 1]?.line ?? Infinity) > judged) y += SIZE.row;
    if (span?.last === at) span.bottom = y + 12;
  });
  return { rows, times, height: y + SIZE.bottom };
}

/** A bar that is open, until an entry closes it. */
class Bars {
  constructor() { this.open = new Map(); this.closed = []; }
  begin(key, bar) { this.open.set(key, bar); }
  end(key, bottom) {
    const bar = this.open.get(key);
    if (!bar) return;
    this.open.delete(key);
    this.closed.push({ ...bar, bottom: Math.max(bar.top + 2, bottom) });
  }
  endAll(bottomOf) { for (const [key, bar] of [...this.open]) this.end(key, bottomOf(bar)); }
}

/** The bars of the legs that are up and of the voices, from the entries that begin and end them. */
function placeBars(rows, spans) {
  const bars = new Bars();
  for (const { entry, y } of rows) {
    const { item, call, end, tick, words } = entry;
    const leg = `leg ${call} ${end}`, voice = `voice ${call} ${end}`;
    if (item === 'up' || item === 'down') bars.end(leg, y);
    if (item === 'up') bars.begin(leg, { kind: 'leg', call, end, tick, top: y - 4 });
    if (item === 'voice' || item === 'down') bars.end(voice, y);
    if (item === 'voice') bars.begin(voice, { kind: 'voice', call, end, tick, ways: words.slice(3, 5), top: y });
  }
  bars.endAll(bar => spans.get(bar.call)?.bottom ?? bar.top);
  return bars.closed;
}

/** The row of a line, or of the last entry before it; the first row where there is none. */
function rowOfLine(rows, line) {
  let found = rows[0];
  for (const row of rows) {
    if (row.entry.line > line) break;
    found = row;
  }
  return found;
}

function placeVerdict(rows, verdict) {
  if (!verdict || verdict.line === null || rows.length === 0) return null;
  const { entry, y } = rowOfLine(rows, verdict.line);
  return { ...verdict, y };
}

/** The picture of these entries, or of those of one call and of none, by places. */
export function layOut(entries, { call = null, verdict = null } = {}) {
  const shown = call === null ? entries : entries.filter(entry => entry.call === 0 || entry.call === call);
  const spans = spansOf(shown);
  const columns = placeColumns(spans);
  const { rows, times, height } = placeRows(shown, spans, verdict);
  return {
    rows, times, height, columns,
    calls: [...spans.values()],
    spans,
    bars: placeBars(rows, spans),
    verdict: placeVerdict(rows, verdict),
    width: SIZE.time + SIZE.own + columns * SIZE.call + 30,
    count: callsOf(shown).length,
  };
}

/** Where a lifeline stands: that of an end of a call, or the lane of what is outside a call. */
export function lifeline(layout, call, end) {
  const span = layout.spans.get(call);
  if (!span) return SIZE.time + SIZE.own / 2;
  const left = SIZE.time + SIZE.own + span.column * SIZE.call;
  return left + (end === 'point' ? SIZE.call - SIZE.inset : SIZE.inset);
}
