// What is searched in the patches that are loaded: an id in any of its forms, an IRI, also by a prefix, or any text.

import { readId } from './patch.js';

/**
 * @typedef {object} Search
 * @property {(text: string) => boolean} isFound
 * @property {(patch: import('./patch.js').Patch) => boolean} holds
 */

/** @type {Search} */
export const NOTHING = { isFound: () => false, holds: () => true };

/** @param {string} text */
function escaped(text) {
  return text.replace(/[\\^$.*+?()[\]{}|/]/g, '\\$&');
}

/**
 * @param {string} words
 * @param {[string, string][]} table   prefixes with their IRIs
 * @returns {Search}
 */
export function searchFor(words, table) {
  const text = words.trim();
  if (text === '') {
    return NOTHING;
  }
  const [prefix, local] = text.split(/:(.*)/s);
  const iri = table.find(([known]) => local !== undefined && known === prefix)?.[1];
  const pattern = new RegExp([text, ...(iri === undefined ? [] : [iri + local])].map(escaped).join('|'), 'iu');
  const id = readId(text);
  return {
    isFound: (found) => pattern.test(found) || (id !== null && readId(found.replace(/^[<"](.*)[>"]$/, '$1')) === id),
    holds: (patch) => pattern.test(patch.text) || (id !== null && (patch.id === id || patch.prev === id)),
  };
}
