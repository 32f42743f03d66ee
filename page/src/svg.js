// Texts of SVG.

const ENTITIES = { '&': '&amp;', '<': '&lt;', '>': '&gt;', '"': '&quot;' };

/** A text as it may stand in SVG and HTML. */
export const escape = text => String(text).replace(/[&<>"]/g, character => ENTITIES[character]);

const round = value => (typeof value === 'number' ? Math.round(value * 10) / 10 : value);

/** An element with these attributes; those that are undefined are left out. */
export function element(name, attributes, inside = '') {
  const said = Object.entries(attributes).filter(([, value]) => value !== undefined)
    .map(([key, value]) => ` ${key}="${escape(round(value))}"`).join('');
  return inside === '' ? `<${name}${said}/>` : `<${name}${said}>${inside}</${name}>`;
}

/** A text at a place; `anchor` is start, middle or end. */
export const words = (x, y, kind, text, anchor = 'start') => element('text', { x, y, class: kind, 'text-anchor': anchor }, escape(text));
export const line = (kind, x1, y1, x2, y2) => element('line', { class: kind, x1, y1, x2, y2 });
export const path = (kind, d) => element('path', { class: kind, d });
