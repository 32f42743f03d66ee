// What the lines of a trace say: docs/FORMATS.md, "Traces", has their texts. The picture is no judge: a line that has the
// words that its item needs is an entry, and `ecall replay` says whether it is a right one.

/** How many words an item has at least, and where its call's number stands among them. */
const ITEMS = {
  up: { words: 3, call: 2 }, down: { words: 4, call: 2 }, voice: { words: 5, call: 2 }, send: { words: 4, call: 2 },
  ended: { words: 4, call: 2 }, fault: { words: 3, call: 2 },
  shown: { words: 4, call: 1 }, acked: { words: 4, call: 1 },
  busy: { words: 2, call: 1 }, spent: { words: 2, call: 1 }, unshown: { words: 2, call: 1 },
  dial: { words: 2 }, failed: { words: 2 }, net: { words: 2 }, restart: { words: 2 },
  gaveup: { words: 1 }, seeking: { words: 1 }, arming: { words: 1 }, cancelled: { words: 1 }, standby: { words: 1 },
  idle: { words: 1 }, nothing: { words: 1 },
};
const AT_AN_END = new Set(['up', 'down', 'voice', 'send', 'ended', 'fault', 'restart']);
const AT_THE_VEHICLE = new Set(['acked']);

const isNumber = word => /^\d+$/.test(word);
const isEnd = word => word === 'vehicle' || word === 'point';

function endOf(item, words) {
  if (AT_AN_END.has(item)) return words[1];
  return AT_THE_VEHICLE.has(item) ? 'vehicle' : 'point';
}

/** The entry of a line: its number from 1, its tick, its item, the item's words, the call (0: none) and the end. */
function entryOf(text, line) {
  const [tick, ...words] = text.split(' ');
  const item = words[0];
  const shape = Object.hasOwn(ITEMS, item ?? '') ? ITEMS[item] : null;
  if (!isNumber(tick) || !shape || words.length < shape.words) return null;
  if (AT_AN_END.has(item) && !isEnd(words[1])) return null;
  if (shape.call && !isNumber(words[shape.call])) return null;
  return { line, text, tick: Number(tick), item, words, call: shape.call ? Number(words[shape.call]) : 0, end: endOf(item, words) };
}

/** The entries of a trace, and the numbers of the lines that are neither an entry nor empty nor a comment. */
export function readTrace(text) {
  const entries = [], others = [];
  text.split('\n').forEach((one, index) => {
    const entry = entryOf(one, index + 1);
    if (entry) entries.push(entry);
    else if (one !== '' && !one.startsWith('#')) others.push(index + 1);
  });
  return { entries, others };
}

/** The numbers of the calls that entries tell of, in rising order. */
export function callsOf(entries) {
  return [...new Set(entries.map(entry => entry.call))].filter(call => call > 0).sort((a, b) => a - b);
}

/** The seconds of a tick, which is 100 ms. */
export const seconds = tick => (tick / 10).toFixed(1);
