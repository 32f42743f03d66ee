// The picture of a trace as SVG: the whole of it, or the window between two heights.

import { LIGHT, hatching, styleOf } from './colours.js';
import { SIZE, layOut, lifeline } from './layout.js';
import { markOf } from './marks.js';
import { element, escape, line, words } from './svg.js';
import { readTrace, seconds } from './trace.js';

/** How far a mark may reach beyond its row. */
const REACH = 24;

/** The first place of a sorted list at which a test holds. */
function firstWhere(list, test) {
  let low = 0, high = list.length;
  while (low < high) {
    const middle = (low + high) >> 1;
    if (test(list[middle])) high = middle;
    else low = middle + 1;
  }
  return low;
}

/** Those of a list, sorted by height, that stand in a window. */
const inWindow = (list, from, to) =>
  list.slice(firstWhere(list, one => one.y >= from - REACH), firstWhere(list, one => one.y > to + REACH));

function panelOf(layout, { call, column, top, bottom }) {
  const left = SIZE.time + SIZE.own + column * SIZE.call;
  const ends = ['vehicle', 'point'].map(end => [end, lifeline(layout, call, end)]);
  return element('rect', { class: 'panel', x: left + 4, y: top, width: SIZE.call - 8, height: bottom - top, rx: 6 })
    + words(left + SIZE.call / 2, top + 16, 'call', `call ${call}`, 'middle')
    + ends.map(([end, x]) => words(x, top + 32, `head ${end}`, end, 'middle') + line('life', x, top + 38, x, bottom - 4)).join('');
}

function timeOf(layout, { y, tick, gap }) {
  const said = words(SIZE.time - 12, y + 4, 'time', `${seconds(tick)} s`, 'end');
  const passed = gap > 40 ? words(SIZE.time - 12, y - 14, 'gap', `+${seconds(gap)} s`, 'end') : '';
  return line('rule', SIZE.time - 6, y, layout.width - 30, y) + passed + said;
}

function voiceOf(bar, x) {
  const left = bar.end === 'point' ? x + 9 : x - 22;
  return bar.ways.map((way, at) => element('rect',
    { class: `voice ${way}`, x: left + at * 7, y: bar.top, width: 6, height: bar.bottom - bar.top },
    `<title>voice of the ${bar.end}, ${at ? 'down' : 'up'}: ${escape(way)}, from ${seconds(bar.tick)} s</title>`)).join('');
}

function barOf(layout, bar) {
  const x = lifeline(layout, bar.call, bar.end);
  if (bar.kind === 'voice') return voiceOf(bar, x);
  return element('rect', { class: `leg ${bar.end}`, x: x - 5, y: bar.top, width: 10, height: bar.bottom - bar.top });
}

function rowOf(layout, { entry, y }) {
  const x = lifeline(layout, entry.call, entry.end);
  const other = lifeline(layout, entry.call, entry.end === 'vehicle' ? 'point' : 'vehicle');
  return markOf(entry, { x, y, other, end: entry.end, width: layout.width });
}

const verdictBand = ({ verdict, width }) =>
  element('rect', { class: 'verdict', 'data-verdict': verdict.kind, x: 0, y: verdict.y - 13, width, height: 36 });

const verdictText = ({ verdict }) => words(6, verdict.y + 16, 'verdict-text', `line ${verdict.line}: ${verdict.why}`);

/** What stands between two heights, without the element around it. */
function bodyOf(layout, from, to) {
  const overlaps = one => one.bottom >= from && one.top <= to;
  const { verdict } = layout;
  const judged = verdict && overlaps({ top: verdict.y - REACH, bottom: verdict.y + REACH }) ? [layout] : [];
  return [
    ...layout.calls.filter(overlaps).map(call => panelOf(layout, call)),
    ...judged.map(verdictBand),
    ...inWindow(layout.times, from, to).map(time => timeOf(layout, time)),
    ...layout.bars.filter(overlaps).map(bar => barOf(layout, bar)),
    ...inWindow(layout.rows, from, to).map(row => rowOf(layout, row)),
    ...judged.map(verdictText),
  ].join('\n');
}

/** The window of the picture between two heights. */
export function drawWindow(layout, from, to, colours = LIGHT) {
  const { width } = layout, height = Math.max(1, to - from);
  const said = `A picture of ${layout.rows.length} entries in ${layout.count} calls; each mark is a line of the trace.`;
  return `<svg xmlns="http://www.w3.org/2000/svg" width="${width}" height="${height}" viewBox="0 ${from} ${width} ${height}" role="img" aria-label="${said}">
${styleOf(colours)}${hatching(colours)}
${element('rect', { class: 'paper', x: 0, y: from, width, height })}
${bodyOf(layout, from, to)}
</svg>\n`;
}

/** The whole picture. */
export const drawWhole = (layout, colours = LIGHT) => drawWindow(layout, 0, layout.height, colours);

/** The picture of a trace, with the verdict on it marked where there is one. */
export const chartOf = (text, verdict = null) => drawWhole(layOut(readTrace(text).entries, { verdict }));
