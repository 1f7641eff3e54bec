// Making elements. Data goes into text nodes and properties, and is never read as markup.

/**
 * @param {string} name
 * @param {Record<string, unknown>} properties
 * @param {...(Node | string)} children
 */
export function element(name, properties = {}, ...children) {
  const made = Object.assign(document.createElement(name), properties);
  made.append(...children);
  return made;
}

/**
 * A copy of a template with its parts by name.
 * @param {string} id
 */
export function copy(id) {
  const template = /** @type {HTMLTemplateElement} */ (document.getElementById(id));
  const fragment = /** @type {DocumentFragment} */ (template.content.cloneNode(true));
  /** @type {Record<string, any>} */
  const parts = {};
  for (const part of fragment.querySelectorAll('[data-part]')) {
    parts[/** @type {HTMLElement} */ (part).dataset.part ?? ''] = part;
  }
  return { fragment, parts };
}

/** @param {number} value */
export function number(value) {
  return value.toLocaleString('en');
}

/**
 * @param {number} count
 * @param {string} one
 */
export function counted(count, one) {
  const many = one.endsWith('ch') ? `${one}es` : `${one}s`;
  return `${number(count)} ${count === 1 ? one : many}`;
}

/** @param {number} bytes */
export function size(bytes) {
  if (bytes < 1000) {
    return `${bytes} B`;
  }
  return bytes < 1_000_000 ? `${(bytes / 1000).toFixed(1)} kB` : `${(bytes / 1_000_000).toFixed(1)} MB`;
}

/** @param {Date} time */
export function clock(time) {
  return time.toLocaleTimeString('en-GB');
}
