// A patch as an article: what it is, and its rows.

import { copy, counted, element, number, size } from './dom.js';
import { address } from './server.js';

/**
 * @typedef {object} Context
 * @property {string} name              of the log
 * @property {number} newest            version
 * @property {[string, string][]} table prefixes with their IRIs, the longest first; empty where IRIs are shown whole
 * @property {(text: string) => boolean} isFound  whether a term holds what is searched
 */

const MEANING = new Map([
  ['H', 'header'],
  ['A', 'adds a quad'],
  ['D', 'deletes a quad'],
  ['PA', 'sets a prefix'],
  ['PD', 'removes a prefix'],
  ['TX', 'begins a block'],
  ['TC', 'ends the block'],
  ['TA', 'ends the block and drops its changes'],
  ['?', 'couldn’t be read'],
]);
const MORE = 500;
const LONGEST = 2000;

/**
 * @param {string} name
 * @param {number} version
 */
export function place(name, version) {
  return `#/${encodeURIComponent(name)}/${version}`;
}

/** @param {string} text */
function cut(text) {
  const left = text.length - LONGEST;
  return left <= 0 ? text : `${text.slice(0, LONGEST)} … and ${counted(left, 'more character')}`;
}

/**
 * An IRI, by its prefix where it has one.
 * @param {string} text   in its brackets
 * @param {[string, string][]} table
 */
function iriView(text, table) {
  const iri = text.slice(1, -1);
  const [prefix, space] = table.find(([, known]) => iri.startsWith(known)) ?? [];
  if (prefix === undefined || space === undefined) {
    return element('span', { className: 'iri' }, cut(text));
  }
  const short = [element('span', { className: 'prefix' }, `${prefix}:`), cut(iri.slice(space.length))];
  return element('span', { className: 'iri', title: iri }, ...short);
}

/**
 * A string, and behind it its tag or type.
 * @param {string} text
 * @param {[string, string][]} table
 */
function stringView(text, table) {
  const end = text.lastIndexOf('"') + 1;
  const view = element('span', { className: 'string' }, cut(text.slice(0, end)));
  const behind = text.slice(end);
  const type = /<.*>$/.exec(behind);
  if (type) {
    view.append(element('span', { className: 'type' }, '^^', iriView(type[0], table)));
  } else if (behind !== '') {
    view.append(element('span', { className: 'type' }, behind));
  }
  return view;
}

/**
 * @param {import('./patch.js').Term} term
 * @param {Context} context
 */
function termView({ kind, text }, { table, isFound }) {
  const view = kind === 'iri' ? iriView(text, table)
    : kind === 'string' ? stringView(text, table)
      : element('span', { className: kind }, cut(text));
  view.classList.toggle('found', isFound(text));
  return view;
}

/**
 * @param {import('./patch.js').Patch} patch
 * @param {import('./patch.js').Row} row
 * @param {Context} context
 */
function rowView(patch, row, context) {
  const view = element('li', { className: `row ${row.code === '?' ? 'unread' : row.code}` });
  view.classList.toggle('inside', row.inBlock);
  view.classList.toggle('dropped', row.dropped);
  view.append(element('span', { className: 'code', title: MEANING.get(row.code) ?? '' }, row.code));
  const terms = patch.terms(row);
  const views = terms.map((term) => termView(term, context));
  if (row.code === 'H' && patch.version > 1 && /^prev(ious)?$/.test(terms[0].text)) {
    const before = patch.version - 1;
    views[1] = element('a', { href: place(context.name, before), title: `version ${before}` }, views[1]);
  }
  for (const term of views) {
    view.append(' ', term);
  }
  if (row.code === 'TA') {
    view.append(element('span', { className: 'remark' }, ' the block has no effect'));
  }
  return view;
}

/**
 * @param {import('./patch.js').Patch} patch
 * @param {HTMLElement} rows
 * @param {Context} context
 */
function fillRows(patch, rows, context) {
  // Where a prefix is set, its IRI is shown as it is.
  const whole = { ...context, table: [] };
  const shown = patch.rows.slice(0, patch.shown);
  rows.replaceChildren(...shown.map((row) => rowView(patch, row, row.code.startsWith('P') ? whole : context)));
  const left = patch.rows.length - patch.shown;
  if (left > 0) {
    const more = () => {
      patch.shown += MORE;
      fillRows(patch, rows, context);
    };
    const label = `Show ${number(Math.min(left, MORE))} of ${counted(left, 'more row')}`;
    rows.append(element('li', { className: 'row more' }, element('button', { type: 'button', onclick: more }, label)));
  }
}

/**
 * @param {import('./patch.js').Patch} patch
 * @param {Context} context
 */
function links(patch, { name, newest }) {
  const { version } = patch;
  const link = (/** @type {string} */ word, /** @type {number} */ to, /** @type {string} */ rel) =>
    element('a', { href: place(name, to), rel, title: `version ${to}` }, word);
  const sent = { href: address(name, version), download: `${name}-${version}.rdfp`, title: 'the patch as it was sent' };
  return [
    ...(version < newest ? [link('newer', version + 1, 'next')] : []),
    ...(version > 1 ? [link('older', version - 1, 'prev')] : []),
    element('a', sent, 'file'),
  ];
}

/**
 * @param {import('./patch.js').Patch} patch
 * @param {Context} context
 * @returns {HTMLElement}
 */
export function patchView(patch, context) {
  const { fragment, parts } = copy('patch');
  const article = /** @type {HTMLElement} */ (fragment.firstElementChild);
  article.dataset.version = String(patch.version);
  article.setAttribute('aria-label', `Patch ${patch.version}`);
  article.setAttribute('aria-posinset', String(context.newest - patch.version + 1));
  article.setAttribute('aria-setsize', String(context.newest));
  parts.version.textContent = number(patch.version);
  parts.version.href = place(context.name, patch.version);
  parts.id.textContent = patch.id ?? '';
  parts.id.classList.toggle('found', patch.id !== null && context.isFound(patch.id));
  parts.added.textContent = patch.added > 0 ? `+${number(patch.added)}` : '';
  parts.deleted.textContent = patch.deleted > 0 ? `−${number(patch.deleted)}` : '';
  parts.counts.hidden = patch.added + patch.deleted === 0;
  parts.size.textContent = size(patch.bytes);
  parts.links.setAttribute('aria-label', `Patch ${patch.version}`);
  parts.links.append(...links(patch, context));
  fillRows(patch, parts.rows, context);
  return article;
}
