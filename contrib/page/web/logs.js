// All logs: their versions, and how they grow while the page looks at them.

import { clock, copy, counted, element, number } from './dom.js';
import { steps } from './chart.js';
import { list, log } from './server.js';
import { place } from './rows.js';
import { watch } from './watch.js';

/** @typedef {{ time: number, version: number }} Point */

// By the ids of the sources, so that they outlive the view. A version is noted when it has changed.
/** @type {Map<string, Point[]>} */
const seen = new Map();
const since = new Date();

/**
 * @param {string} id
 * @param {number} version
 */
function note(id, version) {
  const points = seen.get(id) ?? [];
  const last = points[points.length - 1];
  if (last !== undefined && version < last.version) {
    points.length = 0;
  }
  if (points.length === 0 || version > last.version) {
    points.push({ time: Date.now(), version });
  }
  seen.set(id, points);
  return points;
}

/**
 * @param {Point[]} points
 * @returns {(Node | string)[]}
 */
function growth(points) {
  const [first, last] = [points[0], points[points.length - 1]];
  const gained = last.version - first.version;
  if (gained === 0) {
    return [element('span', { className: 'still' }, 'none yet')];
  }
  const now = [...points, { time: Date.now(), version: last.version }];
  const label = `${counted(gained, 'patch')} since ${clock(since)}`;
  return [steps(now, label), element('span', { className: 'gained' }, `+${number(gained)}`)];
}

/**
 * @param {import('./server.js').Source} source
 * @param {import('./server.js').Log} state
 */
function row(source, state) {
  const { fragment, parts } = copy('logs-row');
  parts.name.textContent = source.name;
  parts.name.href = `#/${encodeURIComponent(source.name)}`;
  parts.uri.textContent = source.uri;
  parts.version.textContent = number(state.version);
  parts.share.value = state.version;
  const share = ((state.version / parts.share.max) * 100).toFixed(1);
  parts.share.title = `${share} % of the ${counted(parts.share.max, 'patch')} that a log holds`;
  parts.growth.replaceChildren(...growth(note(source.id, state.version)));
  if (state.head !== null) {
    parts.head.textContent = state.head;
    parts.head.href = place(source.name, state.version);
  }
  return fragment;
}

/**
 * @param {HTMLElement} main
 * @param {(fault: string) => void} tell
 */
export function openLogs(main, tell) {
  const closing = new AbortController();
  const { signal } = closing;
  const { fragment, parts } = copy('logs-view');
  main.replaceChildren(fragment);
  parts.since.textContent = `Growth since ${clock(since)}`;

  watch(async () => {
    const sources = await list(signal);
    const states = await Promise.all(sources.map(({ name }) => log(name, signal)));
    const total = states.reduce((sum, { version }) => sum + version, 0);
    parts.rows.replaceChildren(...sources.map((source, index) => row(source, states[index])));
    parts.lead.textContent = `${counted(sources.length, 'log')}, ${counted(total, 'patch')}`;
    parts.hint.textContent = sources.length === 0 ? 'A log is made by rdfdelta create ADDR NAME URI.' : '';
  }, tell, signal);

  return { close: () => closing.abort() };
}
