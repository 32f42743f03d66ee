// The colours of the picture, and its style sheet. Colours stand in it as they are, for programs that know no variables.

export const LIGHT = {
  paper: '#ffffff', panel: '#f8f9fb', edge: '#e1e5ea', rule: '#e3e7ec', ink: '#1d242c', soft: '#5c6873', faint: '#626d78',
  vehicle: '#1d6fb8', vehicleText: '#134a7c', point: '#7a4fb5', pointText: '#553384', open: '#2f9e63', openText: '#1f7a49',
  muted: '#b84545', mutedPaper: '#f3d4d4', mutedText: '#a03838', timer: '#b26a00', timerText: '#8a5200', bad: '#c22222',
  badText: '#b01e1e', badPaper: '#fbdede', mark: '#ffffff', chosen: '#fff2c4',
};
export const DARK = {
  paper: '#14181d', panel: '#1b2027', edge: '#2c343e', rule: '#28303a', ink: '#e4e8ec', soft: '#a5b0bb', faint: '#8c97a2',
  vehicle: '#5aa7ea', vehicleText: '#9fcdf5', point: '#b390ea', pointText: '#d0b9f5', open: '#3fb878', openText: '#7fdcab',
  muted: '#d06a6a', mutedPaper: '#4a2626', mutedText: '#f0a0a0', timer: '#e0a040', timerText: '#f0c070', bad: '#f06060',
  badText: '#ff9c9c', badPaper: '#4a2226', mark: '#14181d', chosen: '#4a4320',
};

/** The hatching of a muted voice. */
export const hatching = c => `<defs><pattern id="hatch" width="5" height="5" patternUnits="userSpaceOnUse" patternTransform="rotate(45)">`
  + `<rect width="5" height="5" fill="${c.mutedPaper}"/><rect width="2" height="5" fill="${c.muted}"/></pattern></defs>`;

/** The style sheet of the picture in these colours. */
export const styleOf = c => `<style>
text { font: 12px system-ui, sans-serif; fill: ${c.ink}; }
.paper { fill: ${c.paper}; } .panel { fill: ${c.panel}; stroke: ${c.edge}; } .rule { stroke: ${c.rule}; }
.time { font-size: 11px; fill: ${c.soft}; } .gap { font-size: 10px; fill: ${c.faint}; }
.life { stroke: ${c.faint}; stroke-dasharray: 3 4; }
.call { font-weight: 700; } .head { fill: ${c.soft}; } .head.vehicle { fill: ${c.vehicle}; font-weight: 600; }
.head.point { fill: ${c.point}; font-weight: 600; }
.leg.vehicle { fill: ${c.vehicle}; } .leg.point { fill: ${c.point}; }
.voice.open { fill: ${c.open}; } .voice.muted { fill: url(#hatch); stroke: ${c.muted}; stroke-width: .5; }
.up { fill: ${c.ink}; } .down { fill: ${c.paper}; stroke: ${c.ink}; stroke-width: 1.5; } .note { fill: ${c.soft}; }
.voice-open { fill: ${c.openText}; } .voice-muted, .voice-half { fill: ${c.mutedText}; }
.sent { stroke-width: 1.4; } .sent.under { stroke-dasharray: 2 3; }
.sent.vehicle { stroke: ${c.vehicle}; } .sent.point { stroke: ${c.point}; }
.tip.vehicle { fill: ${c.vehicle}; } .tip.point { fill: ${c.point}; }
.frame { font-size: 11.5px; paint-order: stroke; stroke: ${c.panel}; stroke-width: 3px; }
.frame.vehicle { fill: ${c.vehicleText}; } .frame.point { fill: ${c.pointText}; }
.shown, .acked { fill: ${c.open}; } .tick { fill: none; stroke: ${c.mark}; stroke-width: 2; }
.shown-text, .acked-text { fill: ${c.openText}; font-weight: 600; font-size: 11.5px; paint-order: stroke; stroke: ${c.panel}; stroke-width: 4px; }
.clock { fill: ${c.paper}; stroke: ${c.timer}; stroke-width: 1.5; } .hand { fill: none; stroke: ${c.timer}; } .timer { fill: ${c.timerText}; }
.fault { stroke: ${c.bad}; stroke-width: 2.5; fill: none; } .fault-text { fill: ${c.badText}; font-weight: 600; }
.refuse { fill: ${c.paper}; stroke: ${c.bad}; stroke-width: 2; } .restart { stroke: ${c.bad}; stroke-width: 1.5; stroke-dasharray: 8 4; }
.dial { fill: ${c.vehicleText}; font-weight: 600; } .own { fill: ${c.soft}; } .nothing { fill: ${c.faint}; font-style: italic; }
.verdict { fill: ${c.badPaper}; } .verdict-text { fill: ${c.badText}; font-weight: 700; paint-order: stroke; stroke: ${c.badPaper}; stroke-width: 4px; }
.item { cursor: pointer; } .item:hover text, .item.chosen text { text-decoration: underline; font-weight: 700; }
</style>`;
