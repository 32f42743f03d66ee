// The commands of `ecall` in WebAssembly with a 64-bit memory: words and a whole input in, text and a status out.

export const STATUSES = ['done', 'no such command', 'a line is refused', 'the trace breaks a rule', 'the input could not be read',
  'the answer has no room left', 'out of memory', 'the input is too long'];

/** The room of an answer, which the exports of both modules have in their types; and a page of a module's memory. */
export const ROOM = 67_108_864, PAGE = 65_536;
/** The smallest module with a 64-bit memory. */
const PROBE = new Uint8Array([0, 97, 115, 109, 1, 0, 0, 0, 5, 3, 1, 4, 1]);
/** The commands of each module: the one has an export for each command, the other one for all. */
const PLAIN = ['decode', 'encode', 'frames', 'make', 'conform'];
const WHOLE = ['run', 'register', 'replay', 'tones', 'floor', 'relay', 'trial', ...PLAIN];
const NOTHING = new Uint8Array(0);

/** Whether this browser can run the modules at all. */
export const isSupported = () => WebAssembly.validate(PROBE);

/** Takes more memory behind all that the module has, and answers where it begins. */
function grow(memory, size) {
  const at = memory.buffer.byteLength, pages = Math.ceil(size / PAGE);
  try { memory.grow(BigInt(pages)); } catch (fault) {
    if (!(fault instanceof TypeError || fault instanceof SyntaxError)) throw fault;
    memory.grow(pages); // Node 20 wants a plain number
  }
  return at;
}

/** Lays parts one behind the other into the module's memory, where it keeps room for the longest that there were; and answers where
 * each lies and how long it is, as an export takes it. */
function laying(memory) {
  let at = 0, size = 0;
  return parts => {
    const length = parts.reduce((sum, part) => sum + part.length, 1);
    if (length > size) {
      at = grow(memory, length);
      size = Math.ceil(length / PAGE) * PAGE;
    }
    let place = at;
    return parts.flatMap(part => {
      new Uint8Array(memory.buffer, place, part.length).set(part);
      place += part.length;
      return [BigInt(place - part.length), BigInt(part.length)];
    });
  };
}

const bytesOf = word => (typeof word === 'string' ? new TextEncoder().encode(word) : word);

const isNumber = word => /^(0|[1-9]\d{0,9})$/.test(word) && Number(word) < 2 ** 32;

/** Whether the first module has an export for these words. */
const takesPlain = ([command, ...numbers]) =>
  PLAIN.includes(command) && numbers.length === (command === 'make' ? 1 : 0) && numbers.every(isNumber);

/** Calls the export of a command that takes no memory. */
function askPlain(exports, lay, [command, number], input, rooms) {
  const call = exports[`page_${command}`];
  if (command === 'conform') call(...rooms);
  else if (command === 'make') call(Number(number) | 0, ...rooms);
  else call(...lay([input]), ...rooms);
}

/** Calls the export that takes the words of any command: one word, and two more that may be none. */
function askWhole(exports, lay, [word = NOTHING, first = NOTHING, second = NOTHING], input, rooms) {
  exports.page_ecall(...lay([word, first, second].map(bytesOf).concat([input])), ...rooms);
}

/** A module: whether it has all of `ecall`, its commands, whether it takes words, and a function that carries out what they name over an
 * input: the status, and the bytes that were written. */
export async function loadModule(bytes) {
  const { instance: { exports } } = await WebAssembly.instantiate(bytes, {});
  const { memory } = exports;
  const isWhole = 'page_ecall' in exports;
  const reply = grow(memory, 2 * ROOM + PAGE), scratch = reply + PAGE, output = scratch + ROOM;
  const lay = laying(memory), ask = isWhole ? askWhole : askPlain;
  const run = (words, input = NOTHING) => {
    ask(exports, lay, words, input, [scratch, output, reply].map(BigInt));
    const view = new DataView(memory.buffer, reply, 16);
    const written = Number(view.getBigUint64(0, true));
    return { status: view.getUint8(8), bytes: new Uint8Array(memory.buffer, output, written).slice() };
  };
  return { isWhole, commands: isWhole ? WHOLE : PLAIN, takes: isWhole ? () => true : takesPlain, run };
}
