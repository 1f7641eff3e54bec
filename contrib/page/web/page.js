// The page: which view is shown, by the fragment of the address, and its colours.
//   #/          all logs
//   #/NAME      a log, at its newest patch
//   #/NAME/12   a log, at that version

import { LogView } from './log.js';
import { openLogs } from './logs.js';

/** @param {string} id */
const byId = (id) => /** @type {HTMLElement} */ (document.getElementById(id));
const [main, notice] = [byId('main'), byId('notice')];

/** @type {{ close: () => void } | null} */
let view = null;

/** @param {string} fault */
function tell(fault) {
  if (notice.textContent !== fault) {
    notice.textContent = fault;
  }
}

/** @param {string} part */
function decoded(part) {
  try {
    return decodeURIComponent(part);
  } catch {
    return part;
  }
}

function readAddress() {
  const [name = '', version = ''] = location.hash.replace(/^#\/?/, '').split('/').map(decoded);
  return { name, version: /^\d{1,10}$/.test(version) ? Number(version) : null };
}

function show() {
  const { name, version } = readAddress();
  if (view instanceof LogView && view.name === name) {
    view.goTo(version ?? Infinity);
    return;
  }
  view?.close();
  tell('');
  document.title = name === '' ? 'Logs · rdfdelta' : `${name} · rdfdelta`;
  window.scrollTo(0, 0);
  if (name === '') {
    view = openLogs(main, tell);
  } else {
    const opened = new LogView(main, name, tell);
    view = opened;
    opened.open(version);
  }
}

/** Colours as chosen before, or as the system has them. */
function listenForColours() {
  const chosen = /** @type {HTMLSelectElement} */ (byId('theme'));
  const put = () => { document.documentElement.dataset.theme = chosen.value; };
  chosen.value = localStorage.getItem('theme') ?? '';
  put();
  chosen.addEventListener('change', () => {
    localStorage.setItem('theme', chosen.value);
    put();
  });
}

listenForColours();
window.addEventListener('hashchange', show);
show();
