// A trace as long as wanted, for trials of the picture: calls one behind the other, each with the items of a whole call.

const OCTETS = '02000681d5'.padEnd(280, '0');
const CALL = [
  [0, c => `up vehicle ${c}`], [0, c => `voice vehicle ${c} muted muted`], [0, c => `send vehicle ${c} init`],
  [1, c => `up point ${c}`], [0, c => `voice point ${c} muted muted`], [3, c => `send point ${c} start 1`],
  [3, c => `send vehicle ${c} data 1 0 ${OCTETS}`], [3, c => `shown ${c} 1 ${OCTETS} ok 1 WM9VDSVDSYA123456 0 0 0`],
  [0, c => `send point ${c} ack 1`], [3, c => `acked ${c} 1 ${OCTETS}`], [0, c => `voice vehicle ${c} open open`],
  [40, c => `ended point ${c} T8`], [0, c => `voice point ${c} open open`], [9, c => `down vehicle ${c} hangup`],
  [0, c => `down point ${c} hangup`],
];

/** A trace of so many lines. */
export function longTrace(lines) {
  const made = [];
  for (let tick = 0, call = 1; made.length < lines; call += 1) {
    for (const [later, item] of CALL) {
      tick += later;
      if (made.length < lines) made.push(`${tick} ${item(call)}`);
    }
  }
  return `${made.join('\n')}\n`;
}
