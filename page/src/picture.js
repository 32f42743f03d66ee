// The picture on the page. Of a long trace the part in sight is drawn alone, with as much again above and below.

import { drawWhole, drawWindow } from './chart.js';
import { DARK, LIGHT } from './colours.js';
import { byId, make } from './dom.js';
import { layOut, lifeline } from './layout.js';
import { callsOf } from './trace.js';

const KEYS = { ArrowDown: 1, ArrowUp: -1, PageDown: 20, PageUp: -20 };
const dark = window.matchMedia('(prefers-color-scheme: dark)');

export class Picture {
  /** `chosen` is told the number of the line whose mark is chosen here. */
  constructor(chosen) {
    this.section = byId('picture');
    this.frame = byId('chart');
    this.canvas = byId('canvas');
    this.choice = byId('call');
    this.chosen = chosen;
    this.listen();
  }

  listen() {
    this.frame.addEventListener('scroll', () => this.refresh());
    this.frame.addEventListener('click', event => this.clicked(event));
    this.frame.addEventListener('keydown', event => this.pressed(event));
    this.choice.addEventListener('change', () => this.draw());
    new ResizeObserver(() => this.refresh()).observe(this.frame);
    dark.addEventListener('change', () => this.redraw());
  }

  /** Draws these entries, with the verdict on them. */
  show(entries, verdict) {
    this.entries = entries;
    this.verdict = verdict;
    this.section.hidden = entries.length === 0;
    const calls = callsOf(entries).map(call => new Option(`call ${call}`, call));
    this.choice.replaceChildren(new Option('all calls', ''), ...calls);
    if (entries.length) this.draw();
  }

  draw() {
    const call = this.choice.value === '' ? null : Number(this.choice.value);
    this.layout = layOut(this.entries, { call, verdict: this.verdict });
    this.rows = new Map(this.layout.rows.map((row, at) => [row.entry.line, at]));
    this.canvas.style.width = `${this.layout.width}px`;
    this.canvas.style.height = `${this.layout.height}px`;
    this.frame.scrollTo(0, 0);
    this.current = null;
    this.redraw();
  }

  redraw() {
    this.drawn = null;
    if (this.layout) this.refresh();
  }

  /** Draws the window anew where what is in sight reaches beyond it. */
  refresh() {
    if (!this.layout) return;
    const { scrollTop: top, clientHeight: height } = this.frame;
    const inside = this.drawn && this.drawn.from <= top && top + height <= this.drawn.to;
    if (!inside) this.drawAround(top, height);
    this.drawHeads(top);
  }

  drawAround(top, height) {
    const from = Math.max(0, Math.floor(top - height)), to = Math.min(this.layout.height, top + 2 * height);
    this.drawn = { from, to: to >= this.layout.height ? Infinity : to };
    this.canvas.innerHTML = drawWindow(this.layout, from, to, dark.matches ? DARK : LIGHT);
    this.canvas.firstElementChild.style.top = `${from}px`;
    this.markCurrent();
  }

  /** The names of the calls whose lifelines are at the upper edge. */
  drawHeads(top) {
    const name = ({ call }, end) => {
      const head = make('span', { className: end, textContent: `${end} ${call}` });
      head.style.left = `${lifeline(this.layout, call, end) - this.frame.scrollLeft}px`;
      return head;
    };
    const calls = this.layout.calls.filter(call => call.top + 40 < top && top < call.bottom);
    byId('heads').replaceChildren(...calls.flatMap(call => [name(call, 'vehicle'), name(call, 'point')]));
  }

  clicked(event) {
    const mark = event.target.closest('[data-line]');
    if (mark) this.chosen(Number(mark.dataset.line));
  }

  pressed(event) {
    const step = KEYS[event.key];
    if (step === undefined) return;
    event.preventDefault();
    const at = this.rows.get(this.current) ?? -1, last = this.layout.rows.length - 1;
    this.chosen(this.layout.rows[Math.max(0, Math.min(last, at + step))].entry.line);
  }

  markCurrent() {
    this.canvas.querySelector('.chosen')?.classList.remove('chosen');
    this.canvas.querySelector(`[data-line="${this.current}"]`)?.classList.add('chosen');
  }

  /** Brings the mark of a line into sight, if it has one. */
  select(line) {
    this.current = line;
    const row = this.layout?.rows[this.rows.get(line)];
    byId('told').textContent = row?.entry.text ?? '';
    if (!row) return;
    const { scrollTop: top, clientHeight: height } = this.frame;
    if (row.y - 40 < top || row.y + 40 > top + height) this.frame.scrollTop = row.y - height / 2;
    this.refresh();
    this.markCurrent();
  }

  /** The whole picture, in the light colours. */
  get svg() { return drawWhole(this.layout); }
}
