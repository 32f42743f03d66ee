// The output: its lines as a list, in which the keyboard goes from line to line.

import { byId, make } from './dom.js';
import { readVerdict } from './verdict.js';

/** How many lines are shown, and how many of them the browser lays out at once. */
const MOST = 25_000, PART = 250, ROW = 18;
const OCTETS = /([0-9a-f]{24})[0-9a-f]{232}([0-9a-f]{24})/;
const KEYS = { ArrowDown: 1, ArrowUp: -1, PageDown: 20, PageUp: -20 };

/** A line as the list shows it: where it is one of a trace, the octets of a set are cut in the middle. */
function row(text, number, shortened) {
  const made = make('div', { id: `line-${number}`, textContent: shortened ? text.replace(OCTETS, '$1…$2') : text, title: shortened ? text : '' });
  made.setAttribute('role', 'option');
  made.setAttribute('aria-selected', 'false');
  if (/^(broken|refused) /.test(text) && readVerdict(text)) made.className = 'bad';
  return made;
}

/** The rows in parts; those that are out of sight aren't laid out. */
function partsOf(rows) {
  const parts = [];
  for (let at = 0; at < rows.length; at += PART) {
    const few = rows.slice(at, at + PART);
    const part = make('div', { className: 'part' }, ...few);
    part.setAttribute('role', 'presentation');
    part.style.containIntrinsicHeight = `${few.length * ROW}px`;
    parts.push(part);
  }
  return parts;
}

export class Lines {
  /** `chosen` is told the number of a line that is chosen here. */
  constructor(chosen) {
    this.list = byId('output');
    this.chosen = chosen;
    this.text = '';
    this.list.addEventListener('click', event => this.clicked(event));
    this.list.addEventListener('keydown', event => this.pressed(event));
  }

  show(text, { shortened = false, bad = null } = {}) {
    const lines = text.split('\n');
    if (lines.at(-1) === '') lines.pop();
    this.text = text;
    this.current = null;
    this.count = Math.min(lines.length, MOST);
    this.list.removeAttribute('aria-activedescendant');
    this.list.replaceChildren(...partsOf(lines.slice(0, MOST).map((line, at) => row(line, at + 1, shortened))));
    if (lines.length > MOST) this.list.append(`${lines.length - MOST} lines more: save the text to see them`);
    if (bad !== null) byId(`line-${bad}`)?.classList.add('bad');
  }

  clicked(event) {
    const line = event.target.closest('[role="option"]');
    if (line) this.chosen(Number(line.id.slice(5)));
  }

  pressed(event) {
    const step = KEYS[event.key];
    if (step === undefined || !this.count) return;
    event.preventDefault();
    this.chosen(Math.max(1, Math.min(this.count, (this.current ?? 0) + step)));
  }

  /** Marks a line as the one that is chosen, and brings it into sight. */
  select(number) {
    byId(`line-${this.current}`)?.setAttribute('aria-selected', 'false');
    this.current = number;
    const line = byId(`line-${number}`);
    if (!line) return;
    line.setAttribute('aria-selected', 'true');
    this.list.setAttribute('aria-activedescendant', line.id);
    line.scrollIntoView({ block: 'nearest', inline: 'nearest' });
  }
}
