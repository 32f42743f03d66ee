// What the page says beside what the native program says on standard error.

/**
 * Whether the page says of a line the same as the program. Of a set or a frame the sentences are the same. Of another line the
 * program, which has the line before it, names word, place, end or call; the page says what the reason or the rule says.
 */
export function isSaid(line, why, said) {
  const number = /\(\w+ \d+\)/.exec(why)?.[0] ?? '(?)';
  if (/^no (set|frame)/.test(why)) return said.trim() === `ecall: line ${line}: ${why}`;
  return said.startsWith(`ecall: line ${line}: `) && said.includes(number);
}
