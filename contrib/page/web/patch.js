// Reading the text of a patch that the server has accepted: its rows, blocks, ids and prefixes.

/**
 * @typedef {{ kind: 'iri' | 'string' | 'label' | 'word', text: string }} Term   as it is written
 * @typedef {{ code: string, start: number, end: number, inBlock: boolean, dropped: boolean }} Row
 *   `dropped`: in a block that TA ends, so it has no effect
 */

// Its groups: white space or a comment; an IRI, or a blank node in brackets; a string with its tag or type; a label; a
// word; a dot.
const IRI = '<[^>]*>';
const STRING = String.raw`"[^"\\]*(?:\\[^][^"\\]*)*"(?:@[A-Za-z]+(?:-[A-Za-z0-9]+)*|[ \t]*\^\^[ \t]*${IRI})?`;
const TOKEN = new RegExp(
  String.raw`(\s+|#[^\n\r]*)|(${IRI})|(${STRING})|(_:[^\s<>"#]*[^\s<>"#.])|([A-Za-z][\w-]*:?|:)|(\.)`, 'y');
const KINDS = /** @type {const} */ ([undefined, 'blank', 'iri', 'string', 'label', 'word', 'dot']);

/**
 * The tokens of a text from one place to another. Where none can be read, the rest comes as one of kind `unread`.
 * @param {string} text
 */
function* tokens(text, start = 0, end = text.length) {
  while (start < end) {
    TOKEN.lastIndex = start;
    const match = TOKEN.exec(text);
    if (match === null) {
      yield { kind: /** @type {const} */ ('unread'), start, end };
      return;
    }
    let group = 1;
    while (match[group] === undefined) {
      group += 1;
    }
    const kind = KINDS[group];
    const token = { kind, start, end: start + match[0].length };
    start = token.end;
    if (kind !== 'blank') {
      yield token;
    }
  }
}

/**
 * The number that one of the forms of a UUID names, hyphenated in lower case.
 * @param {string} text
 */
export function readId(text) {
  const digits = text.toLowerCase().replace(/^(?:(?:urn:)?uuid:)*/, '').replace(/^\{(.*)\}$/, '$1').replaceAll('-', '');
  return /^[0-9a-f]{32}$/.test(digits) ? digits.replace(/^(.{8})(.{4})(.{4})(.{4})/, '$1-$2-$3-$4-') : null;
}

/**
 * What stands between the brackets or quotes of a term.
 * @param {string} term
 */
function inside(term) {
  const match = /^(?:<(.*)>|"(.*)"(?:\^\^.*)?)$/s.exec(term);
  return match ? match[1] ?? match[2] : term.replace(/:$/, '');
}

/** @param {string} text */
function readRows(text) {
  /** @type {Row[]} */
  const rows = [];
  /** @type {Row | null} */
  let row = null;
  let block = -1;
  for (const token of tokens(text)) {
    const { start, end } = token;
    row ??= { code: text.slice(start, end), start, end, inBlock: block >= 0, dropped: false };
    row.end = end;
    if (token.kind === 'unread') {
      rows.push({ ...row, code: '?' });
      return rows;
    }
    if (token.kind !== 'dot') {
      continue;
    }
    rows.push(row);
    if (row.code === 'TX') {
      block = rows.length - 1;
    } else if (row.code === 'TC') {
      block = -1;
    } else if (row.code === 'TA') {
      rows.slice(block).forEach((within) => { within.dropped = true; });
      block = -1;
    }
    row = null;
  }
  return rows;
}

/** A patch as it was fetched. */
export class Patch {
  /** How many rows are shown of it. */
  shown = 24;
  /** @type {string | null} */
  id = null;
  /** @type {string | null} */
  prev = null;
  added = 0;
  deleted = 0;
  /**
   * Prefixes that it sets, and those that it removes with `null`.
   * @type {[string, string | null][]}
   */
  prefixes = [];

  /**
   * @param {number} version
   * @param {string} text
   * @param {number} bytes
   */
  constructor(version, text, bytes) {
    this.version = version;
    this.text = text;
    this.bytes = bytes;
    this.rows = readRows(text);
    for (const row of this.rows) {
      this.#count(row);
    }
  }

  /**
   * What stands behind the code of a row.
   * @param {Row} row
   * @returns {Term[]}
   */
  terms(row) {
    const found = [...tokens(this.text, row.start, row.end)].filter((token) => token.kind !== 'dot');
    const behind = row.code === '?' ? found : found.slice(1);
    return behind.map(({ kind, start, end }) => {
      const text = this.text.slice(start, end);
      const isLabel = kind === 'iri' && text.startsWith('<_:');
      return { kind: isLabel ? 'label' : kind === 'unread' ? 'word' : /** @type {Term['kind']} */ (kind), text };
    });
  }

  /** @param {Row} row */
  #count(row) {
    if (row.dropped || row.code === '?') {
      return;
    }
    if (row.code === 'A') {
      this.added += 1;
    } else if (row.code === 'D') {
      this.deleted += 1;
    } else if (row.code === 'H') {
      this.#readHeader(row);
    } else if (row.code === 'PA' || row.code === 'PD') {
      const [prefix, iri] = this.terms(row).map((term) => inside(term.text));
      this.prefixes.push([prefix, row.code === 'PA' ? iri : null]);
    }
  }

  /** @param {Row} row */
  #readHeader(row) {
    const [key, value] = this.terms(row).map((term) => term.text);
    if (key === 'id') {
      this.id = readId(inside(value));
    } else if (key === 'prev' || key === 'previous') {
      this.prev = readId(inside(value));
    }
  }
}

/** The prefixes that the loaded patches set. */
export class Prefixes {
  /** @type {Patch[]} */
  #patches = [];
  #known = new Set();

  /**
   * Whether the patch sets a prefix that none has set so before.
   * @param {Patch} patch
   */
  learn(patch) {
    if (patch.prefixes.length === 0) {
      return false;
    }
    this.#patches.push(patch);
    this.#patches.sort((one, other) => one.version - other.version);
    const before = this.#known.size;
    patch.prefixes.forEach(([prefix, iri]) => this.#known.add(`${prefix} ${iri}`));
    return this.#known.size > before;
  }

  /**
   * Those that stand behind a version, as far as the patches that set them are loaded; the longest IRIs first.
   * @param {number} version
   * @returns {[string, string][]}
   */
  at(version) {
    /** @type {Map<string, string>} */
    const table = new Map();
    for (const patch of this.#patches.filter((learnt) => learnt.version <= version)) {
      for (const [prefix, iri] of patch.prefixes) {
        iri === null ? table.delete(prefix) : table.set(prefix, iri);
      }
    }
    return [...table].sort(([, one], [, other]) => other.length - one.length);
  }
}
