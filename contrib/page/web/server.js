// The routes of the server that only read.

/**
 * @typedef {{ id: string, name: string, slot: number, uri: string }} Source
 * @typedef {{ head: string | null, version: number }} Log
 */

// A worker of the server serves one request at a time, and there are 16 of them for everybody.
const AT_ONCE = 4;
const MEANING = new Map([
  [401, 'The password isn’t taken.'],
  [403, 'The proxy refuses the request.'],
  [429, 'The proxy lets no more requests through for now.'],
  [500, 'The server has a fault of its disk.'],
  [502, 'The server behind the proxy doesn’t answer.'],
  [503, 'The server has no memory for the answer.'],
  [504, 'The server behind the proxy doesn’t answer in time.'],
]);
const REFUSED = new Map([
  ['no_source', 'There is no log of this name.'],
  ['no_patch', 'The log has no such patch.'],
]);

// Without the name and password that an address may have been typed with: no request may hold those.
const base = location.origin + location.pathname;

let running = 0;
/** @type {(() => void)[]} */
const waiting = [];

/**
 * Where a path of the server is: each part is escaped.
 * @param {...(string | number)} parts
 */
export function address(...parts) {
  return new URL(parts.map((part) => encodeURIComponent(part)).join('/'), base).href;
}

/** @param {Response} response */
async function refusal(response) {
  const said = await response.json().catch(() => null);
  const meaning = REFUSED.get(said?.error) ?? MEANING.get(response.status) ?? said?.error ?? response.statusText;
  return new Error(`${meaning} (${response.status})`);
}

/**
 * @param {string} path
 * @param {AbortSignal} [signal]
 */
async function ask(path, signal) {
  while (running === AT_ONCE) {
    await new Promise((resolve) => waiting.push(() => resolve(undefined)));
  }
  running += 1;
  try {
    const response = await fetch(path, { cache: 'no-store', signal });
    if (!response.ok) {
      throw await refusal(response);
    }
    return await response.arrayBuffer();
  } catch (error) {
    throw error instanceof TypeError ? new Error('No answer: the network or the proxy is away.') : error;
  } finally {
    running -= 1;
    waiting.shift()?.();
  }
}

/** @param {ArrayBuffer} bytes */
const text = (bytes) => new TextDecoder().decode(bytes);

/**
 * All sources, in the order of their names.
 * @param {AbortSignal} [signal]
 * @returns {Promise<Source[]>}
 */
export async function list(signal) {
  return JSON.parse(text(await ask(address('$', 'list'), signal))).sources;
}

/**
 * @param {string} name
 * @param {AbortSignal} [signal]
 * @returns {Promise<Log>}
 */
export async function log(name, signal) {
  return JSON.parse(text(await ask(address(name), signal)));
}

/**
 * @param {string} name
 * @param {number} version
 * @param {AbortSignal} [signal]
 */
export async function patch(name, version, signal) {
  const bytes = await ask(address(name, version), signal);
  return { text: text(bytes), bytes: bytes.byteLength };
}
