// Charts, drawn as SVG.

const SPACE = 'http://www.w3.org/2000/svg';
const COLUMNS = 256;

/**
 * @param {string} name
 * @param {Record<string, string | number>} attributes
 */
function shape(name, attributes) {
  const made = document.createElementNS(SPACE, name);
  for (const [key, value] of Object.entries(attributes)) {
    made.setAttribute(key, String(value));
  }
  return made;
}

/**
 * The mean of what is known in each column of versions.
 * @param {number} newest
 * @param {Iterable<{ version: number, bytes: number }>} patches
 */
function means(newest, patches) {
  const columns = Array.from({ length: Math.min(newest, COLUMNS) }, () => ({ count: 0, bytes: 0 }));
  for (const { version, bytes } of patches) {
    const column = columns[Math.floor(((version - 1) * columns.length) / newest)];
    column.count += 1;
    column.bytes += bytes;
  }
  return columns.map(({ count, bytes }) => (count === 0 ? null : bytes / count));
}

/**
 * The bytes of the loaded patches by version, the oldest on the left; a low line where none is loaded.
 * @param {number} newest
 * @param {Iterable<{ version: number, bytes: number }>} patches
 */
export function bars(newest, patches) {
  const columns = means(newest, patches);
  const most = Math.max(...columns.map((mean) => mean ?? 0));
  const viewBox = `0 0 ${columns.length} 100`;
  const view = shape('svg', { viewBox, preserveAspectRatio: 'none', 'aria-hidden': 'true' });
  columns.forEach((mean, index) => {
    const height = mean === null ? 3 : Math.max((mean / most) * 100, 4);
    const kind = mean === null ? 'unknown' : 'known';
    view.append(shape('rect', { x: index + 0.1, y: 100 - height, width: 0.8, height, class: kind }));
  });
  return view;
}

/**
 * A log's version over time: a step for each time that it was seen to have grown.
 * @param {{ time: number, version: number }[]} points
 * @param {string} label
 */
export function steps(points, label) {
  const [first, last] = [points[0], points[points.length - 1]];
  const width = Math.max(last.time - first.time, 1);
  const rise = Math.max(last.version - first.version, 1);
  const step = (/** @type {{ time: number, version: number }} */ { time, version }, /** @type {number} */ index) => {
    const x = ((time - first.time) / width) * 100;
    const y = 22 - ((version - first.version) / rise) * 20;
    return index === 0 ? `M${x} ${y}` : `H${x}V${y}`;
  };
  const line = points.map(step).join('');
  const view = shape('svg', { viewBox: '0 0 100 24', preserveAspectRatio: 'none', role: 'img', 'aria-label': label });
  view.append(shape('path', { d: `${line}V24H0Z`, class: 'area' }), shape('path', { d: line, class: 'line' }));
  return view;
}
