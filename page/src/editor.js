// The input: its lines are numbered, and the line that was refused is marked and can be gone to.

import { byId } from './dom.js';

const ROW = 18, ABOVE = 6;

/** The places at which a line of a text begins and ends; lines are counted from 1. */
function reachOf(text, number) {
  let from = 0;
  for (let line = 1; line < number; line += 1) {
    const end = text.indexOf('\n', from);
    if (end < 0) return [text.length, text.length];
    from = end + 1;
  }
  const end = text.indexOf('\n', from);
  return [from, end < 0 ? text.length : end];
}

export class Editor {
  constructor() {
    this.area = byId('input');
    this.numbers = byId('numbers');
    this.mark = byId('refused');
    this.note = byId('judged');
    this.line = null;
    this.area.addEventListener('input', () => this.changed());
    this.area.addEventListener('scroll', () => this.scrolled());
    this.note.querySelector('button').addEventListener('click', () => this.goToLine());
  }

  get text() { return this.area.value; }

  set text(value) {
    this.area.value = value;
    this.changed();
  }

  /** What stands in the input is new, so nothing is refused yet. */
  changed() {
    const count = this.area.value.split('\n').length;
    if (count !== this.count) this.numbers.textContent = Array.from({ length: count }, (_, at) => at + 1).join('\n');
    this.count = count;
    this.judge(null);
  }

  scrolled() {
    this.numbers.scrollTop = this.area.scrollTop;
    if (this.line !== null) this.mark.style.top = `${ABOVE + (this.line - 1) * ROW - this.area.scrollTop}px`;
  }

  /** Marks the line that a verdict tells of. */
  judge(verdict) {
    this.line = verdict?.line ?? null;
    this.mark.hidden = this.line === null;
    this.note.hidden = this.line === null;
    this.area.setAttribute('aria-invalid', String(this.line !== null));
    if (this.line === null) return;
    this.note.querySelector('span').textContent = `line ${verdict.line}: ${verdict.why}`;
    this.area.scrollTop = Math.max(0, (this.line - 4) * ROW);
    this.scrolled();
  }

  /** Selects a line, and brings it into sight. */
  show(line) {
    this.area.setSelectionRange(...reachOf(this.area.value, line));
    this.area.scrollTop = Math.max(0, (line - 4) * ROW);
  }

  goToLine() {
    this.area.focus();
    this.show(this.line);
  }
}
