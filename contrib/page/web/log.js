// One log: its patches without end, newest first, a chart of their bytes, and a search in what is loaded.

import { bars } from './chart.js';
import { copy, counted, element, number, size } from './dom.js';
import { Feed, pagesOfFound, pagesOfLog } from './feed.js';
import { Patch, Prefixes } from './patch.js';
import { patchView, place } from './rows.js';
import { NOTHING, searchFor } from './search.js';
import { list, log, patch as fetchPatch } from './server.js';
import { watch } from './watch.js';

const MORE = 500;
const FEW = 4;

export class LogView {
  #closing = new AbortController();
  /** @type {Map<number, Patch>} */
  #patches = new Map();
  #prefixes = new Prefixes();
  /** @type {import('./server.js').Log} */
  #log = { head: null, version: 0 };
  #search = NOTHING;
  #drawing = 0;
  /** Whether patches are shown without prefixes that are known now. */
  #isStale = false;
  /** How often a version was gone to: the last one counts. */
  #gone = 0;
  #parts;
  #feed;
  #tell;

  /**
   * @param {HTMLElement} main
   * @param {string} name
   * @param {(fault: string) => void} tell
   */
  constructor(main, name, tell) {
    this.name = name;
    this.#tell = tell;
    const { fragment, parts } = copy('log-view');
    this.#parts = parts;
    main.replaceChildren(fragment);
    parts.name.textContent = name;
    this.#feed = new Feed(parts.feed, {
      load: (version, signal) => this.#load(version, signal),
      view: (patch) => patchView(patch, this.#context(patch)),
    });
    this.#listen();
  }

  /**
   * Opens at a version, or at the newest.
   * @param {number | null} version
   */
  async open(version) {
    const { signal } = this.#closing;
    this.#describe(signal).catch(() => {});
    let wanted = version;
    await watch(async () => {
      await this.#see(await log(this.name, signal));
      if (wanted !== null) {
        this.goTo(wanted);
        wanted = null;
      }
    }, this.#tell, signal);
  }

  /** @param {number} version */
  async goTo(version) {
    const { query } = this.#parts;
    if (query.value !== '') {
      query.value = '';
      this.#find();
    }
    this.#gone += 1;
    const gone = this.#gone;
    const wanted = Math.max(1, Math.min(version, this.#log.version));
    this.#feed.approach(wanted);
    // Before those beside it. Where that fails, its place in the list says why.
    await this.#load(wanted, this.#closing.signal).catch(() => {});
    if (gone === this.#gone) {
      const article = await this.#feed.reach(wanted);
      if (article !== null && gone === this.#gone) {
        this.#choose(article);
        this.#feed.release();
      }
    }
  }

  close() {
    this.#closing.abort();
    this.#feed.close();
  }

  /**
   * Where the log comes from. A reader of this log alone may not list.
   * @param {AbortSignal} signal
   */
  async #describe(signal) {
    const source = (await list(signal)).find(({ name }) => name === this.name);
    if (source) {
      this.#parts.lead.textContent = `${source.uri} · slot ${source.slot} · ${source.id}`;
    }
  }

  /**
   * Whether a log is what it was, or goes on from there. Else it was restored from an older copy, or another log has
   * its name.
   * @param {import('./server.js').Log} before
   * @param {import('./server.js').Log} now
   */
  async #goesOn(before, now) {
    if (before.version === 0 || now.version <= before.version) {
      return before.version === 0 || (now.version === before.version && now.head === before.head);
    }
    const next = await this.#load(before.version + 1, this.#closing.signal);
    return next.prev === before.head;
  }

  /**
   * Takes in where the log is now.
   * @param {import('./server.js').Log} now
   */
  async #see(now) {
    const before = this.#log;
    const isAnother = !await this.#goesOn(before, now);
    if (isAnother) {
      this.#patches.clear();
      this.#prefixes = new Prefixes();
    }
    const isFirst = isAnother || (before.version === 0 && now.version > 0);
    if (isFirst && now.version > 0) {
      // Prefixes are mostly set in the first patch.
      await this.#load(1, this.#closing.signal);
    }
    this.#log = now;
    if (isFirst) {
      this.#find();
    } else if (now.version > before.version && this.#search === NOTHING) {
      this.#feed.grow(pagesOfLog(now.version));
    }
    this.#parts.version.max = now.version;
    this.#parts.version.placeholder = `1 to ${now.version}`;
    this.#draw();
  }

  /**
   * @param {number} version
   * @param {AbortSignal} signal
   */
  async #load(version, signal) {
    const known = this.#patches.get(version);
    if (known) {
      return known;
    }
    const { text, bytes } = await fetchPatch(this.name, version, signal);
    const patch = new Patch(version, text, bytes);
    this.#patches.set(version, patch);
    this.#isStale = this.#prefixes.learn(patch) || this.#isStale;
    this.#draw();
    return patch;
  }

  /** @param {Patch} patch */
  #context(patch) {
    const table = this.#parts.shorten.checked ? this.#prefixes.at(patch.version) : [];
    return { name: this.name, newest: this.#log.version, table, isFound: this.#search.isFound };
  }

  /** Shows the patches that hold what is searched, or all. */
  #find() {
    const { query, found } = this.#parts;
    this.#search = searchFor(query.value, this.#prefixes.at(Infinity));
    found.replaceChildren();
    if (this.#search === NOTHING) {
      this.#feed.show(pagesOfLog(this.#log.version));
      return;
    }
    const versions = [...this.#patches.values()].filter(this.#search.holds).map(({ version }) => version);
    this.#feed.show(pagesOfFound(versions.sort((one, other) => other - one)));
    found.append(`${number(versions.length)} of ${counted(this.#patches.size, 'loaded patch')}. `);
    const left = this.#log.version - this.#patches.size;
    if (left > 0) {
      const label = `Load ${number(Math.min(left, MORE))} more`;
      found.append(element('button', { type: 'button', onclick: () => this.#loadMore() }, label));
    }
  }

  /** Loads the newest patches that aren't, a few at a time, so that what is to be seen doesn't wait; and searches. */
  async #loadMore() {
    const { found } = this.#parts;
    const search = this.#search;
    const wanted = this.#missing();
    try {
      for (let at = 0; at < wanted.length && this.#search === search; at += FEW) {
        found.textContent = `Loading ${number(at)} of ${counted(wanted.length, 'patch')} …`;
        const few = wanted.slice(at, at + FEW);
        await Promise.all(few.map((version) => this.#load(version, this.#closing.signal)));
      }
      if (this.#search === search) {
        this.#find();
      }
    } catch (error) {
      if (!this.#closing.signal.aborted) {
        this.#find();
        found.prepend(`${/** @type {Error} */ (error).message} `);
      }
    }
  }

  /** The newest versions that aren't loaded. */
  #missing() {
    const missing = [];
    for (let version = this.#log.version; version > 0 && missing.length < MORE; version -= 1) {
      if (!this.#patches.has(version)) {
        missing.push(version);
      }
    }
    return missing;
  }

  /** Draws the chart, once for all that comes before the next frame, and patches again where prefixes have come. */
  #draw() {
    cancelAnimationFrame(this.#drawing);
    this.#drawing = requestAnimationFrame(() => {
      this.#drawChart();
      if (this.#isStale) {
        this.#isStale = false;
        this.#drawPatches();
      }
    });
  }

  #drawChart() {
    const { caption, chart, first, last } = this.#parts;
    const { version } = this.#log;
    const loaded = [...this.#patches.values()];
    const most = loaded.reduce((longest, { bytes }) => Math.max(longest, bytes), 0);
    caption.textContent = version === 0 ? 'This log has no patch yet.'
      : `Bytes by version, at most ${size(most)}: ${number(loaded.length)} of ${counted(version, 'patch')} loaded`;
    chart.replaceChildren(...(version > 1 ? [bars(version, loaded)] : []));
    first.textContent = version > 1 ? '1' : '';
    last.textContent = version > 1 ? number(version) : '';
  }

  /** Shows again the patches that the document holds. */
  #drawPatches() {
    for (const article of this.#articles()) {
      const patch = this.#patches.get(Number(article.dataset.version));
      if (patch) {
        const again = patchView(patch, this.#context(patch));
        const hasFocus = article === document.activeElement;
        article.replaceWith(again);
        if (hasFocus) {
          again.focus({ preventScroll: true });
        }
      }
    }
  }

  /** @returns {HTMLElement[]} */
  #articles() {
    return [...this.#parts.feed.querySelectorAll('article')];
  }

  /** Has nothing that is scrolled to, or gets the focus, stand behind the tools. */
  #keepClear() {
    document.documentElement.style.scrollPaddingTop = `${this.#parts.tools.offsetHeight + 12}px`;
  }

  /** @param {HTMLElement} article */
  #choose(article) {
    this.#keepClear();
    article.scrollIntoView({ block: 'start' });
    article.focus({ preventScroll: true });
  }

  /**
   * The patch beside the one that has the focus, or the first one in the window.
   * @param {1 | -1} by
   */
  #step(by) {
    const articles = this.#articles();
    const at = articles.findIndex((article) => article.contains(document.activeElement));
    const top = this.#parts.tools.getBoundingClientRect().bottom;
    const next = at < 0 ? articles.find((article) => article.getBoundingClientRect().bottom > top) : articles[at + by];
    if (next) {
      this.#choose(next);
    }
  }

  /** @param {KeyboardEvent} event */
  #press(event) {
    const { query, version } = this.#parts;
    const isTyping = event.target instanceof HTMLInputElement || event.target instanceof HTMLSelectElement;
    if (event.key === 'Escape' && query.value !== '') {
      query.value = '';
      query.blur();
      this.#find();
    } else if (isTyping || event.ctrlKey || event.altKey || event.metaKey) {
      return;
    } else if (event.key === '/') {
      query.select();
    } else if (event.key === 'g') {
      version.select();
    } else if (event.key === 'j' || event.key === 'k') {
      this.#step(event.key === 'j' ? 1 : -1);
    } else {
      return;
    }
    event.preventDefault();
  }

  #listen() {
    const { signal } = this.#closing;
    const { query, go, version, shorten, chart, tools } = this.#parts;
    new ResizeObserver(() => this.#keepClear()).observe(tools);
    let typing = 0;
    query.addEventListener('input', () => {
      clearTimeout(typing);
      typing = setTimeout(() => this.#find(), 200);
    });
    shorten.addEventListener('change', () => this.#drawPatches());
    go.addEventListener('submit', (/** @type {Event} */ event) => {
      event.preventDefault();
      location.hash = place(this.name, Number(version.value));
    });
    chart.addEventListener('click', (/** @type {MouseEvent} */ event) => {
      const { left, width } = chart.getBoundingClientRect();
      const at = Math.ceil(((event.clientX - left) / width) * this.#log.version);
      location.hash = place(this.name, Math.max(1, at));
    });
    document.addEventListener('keydown', (event) => this.#press(event), { signal });
  }
}
