// What `ecall` says in a line that refuses an input or judges a trace, in sentences: of a set or a frame those of the native
// program; of another line what its reason or rule says, where the native program looks at the line again and says more.

const LINE_REASONS = {
  1: 'a word that is none of those that may stand there',
  2: "a number that isn't decimal, begins with 0, or is out of its range",
  3: 'too few or too many words',
  4: 'more than 512 bytes',
  5: 'a byte that is neither a printable character nor a space',
  6: 'no even number of hexadecimal digits, too many octets, or no object identifier',
  7: "it wants a set of data, and the facts for one didn't come before it",
  8: 'a fact, with an event before it',
  9: 'a fifth candidate of additional data',
};
/** Those that say more of a trace that is judged. */
const ENTRY_REASONS = {
  ...LINE_REASONS,
  1: `${LINE_REASONS[1]}, or a summary that isn't that of its octets`,
  2: `${LINE_REASONS[2]}, or a tick below that of the line before`,
  6: "octets that aren't 280 hexadecimal digits, in lower case",
};
/** What helps against some of them. */
const HELP = {
  3: '; one space stands between two words',
  5: "; a tab, a carriage return (`tr -d '\\r'` takes it out) and a byte order mark are such bytes",
  7: '; put `vin`, `kind` and `time`, or in a script a `set` line, in front',
  8: '; put it in front of the first event',
};
const RULES = {
  1: 'a set is acknowledged that was not shown before, octet for octet, for this call and request',
  2: "a muted voice isn't opened, right behind the end of a wait for data or a fault",
  3: 'a voice is muted for more than 320 ticks at the vehicle or 275 at the point, or within 20 ticks of its opening',
};
const FRAME_FAULTS = {
  1: 'which is no kind from 1 to 6',
  2: 'where a request is 1 or more',
  3: 'where an answer is 1 or 2',
};
const SET_REASONS = {
  1: value => `too few bits are left (${value} wanted)`,
  2: value => `the number ${value}, which is above its range`,
  3: value => `a length whose eight bits begin with 1 and read ${value}`,
  4: value => `a small number whose seven bits begin with 1 and read ${value}`,
  5: value => value === '1' ? "a section of one addition, which isn't present" : `a section of ${value} additions, none of them present`,
  6: () => 'an addition without octets',
  7: value => (value === '0' ? 'an object identifier without octets' : `an octet ${value} that no object identifier has there`),
  8: value => `the format ${value}, where 1 and 2 are the only ones`,
  9: () => 'a bit 1 where zero bits fill the last octet',
  10: value => `an octet ${value} behind the set, where each has to be 0`,
  11: value => (value === '0' ? 'there are no octets' : 'there are more than 140 octets'),
};

function whyRefused([kind, ...numbers], ofTrace) {
  if (kind === 'set') {
    const [place, reason, value] = numbers;
    const at = reason === '11' ? '' : `, at bit ${place} from 0`;
    return `no set of data: ${SET_REASONS[reason]?.(value) ?? 'refused'}${at} (reason ${reason})`;
  }
  if (kind === 'frame') {
    const [place, fault, octet] = numbers;
    return `no frame goes on with the octet ${octet} at place ${place} of the stream from 0, ${FRAME_FAULTS[fault] ?? 'refused'} (fault ${fault})`;
  }
  return `${(ofTrace ? ENTRY_REASONS : LINE_REASONS)[kind] ?? 'refused'} (reason ${kind})${HELP[kind] ?? ''}`;
}

/** What one line of an answer says of a line of its input: its number, and why; null where it judges none. It is of `replay`, unless it
 * is said not to be: what is wrong with a line of a trace says more. */
export function readVerdict(text, ofTrace = true) {
  const [kind, ...words] = text.trim().split(' ');
  if (kind === 'sound' && words.length === 1) return { kind, items: Number(words[0]), line: null, why: `a safe trace of ${words[0]} entries` };
  if (!/^\d+$/.test(words[0] ?? '') || words.length < 2) return null;
  const line = Number(words[0]);
  if (kind === 'broken') return { kind, line, why: `${RULES[words[1]] ?? 'a rule is broken'} (rule ${words[1]})` };
  if (kind === 'refused') return { kind, line, why: whyRefused(words.slice(1), ofTrace) };
  return null;
}

/** The verdict in the last line of a command's answer, if it has one. */
export function verdictOf(answer, command) {
  return readVerdict(answer.trimEnd().split('\n').at(-1), command === 'replay');
}
