// Small helpers over the document.

/** The element of this name; each name stands in index.html. */
export const byId = id => document.getElementById(id);

/** A new element with these properties. */
export function make(name, properties = {}, ...children) {
  const made = Object.assign(document.createElement(name), properties);
  made.append(...children);
  return made;
}

/** Offers a text to be saved as a file. */
export function offer(name, text, type) {
  const link = make('a', { href: URL.createObjectURL(new Blob([text], { type })), download: name });
  link.click();
  setTimeout(() => URL.revokeObjectURL(link.href), 1000);
}
