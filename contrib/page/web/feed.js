// An endless list of patches, newest first. The document has an element for each page of versions, but only those near
// the window are filled: their patches are fetched when they come near, and let go when they are far. The others are
// empty boxes of about the height that they will have, so that the scroll bar tells the place in the whole log.

import { element } from './dom.js';

const PAGE = 32;
// Browsers place nothing that is some millions of pixels farther down, so the boxes of a long log are lower.
const LONGEST = 12_000_000;

/**
 * Versions from 1 to the newest in pages, the newest first. A page keeps its oldest version when the log grows.
 * @param {number} newest
 */
export function pagesOfLog(newest) {
  const pages = [];
  for (let last = newest; last > 0; last -= ((last - 1) % PAGE) + 1) {
    const length = ((last - 1) % PAGE) + 1;
    pages.push(Array.from({ length }, (_, index) => last - index));
  }
  return pages;
}

/** @param {number[]} versions */
export function pagesOfFound(versions) {
  const count = Math.ceil(versions.length / PAGE);
  return Array.from({ length: count }, (_, index) => versions.slice(index * PAGE, (index + 1) * PAGE));
}

/**
 * @typedef {object} Reader
 * @property {(version: number, signal: AbortSignal) => Promise<import('./patch.js').Patch>} load
 * @property {(patch: import('./patch.js').Patch) => HTMLElement} view
 */

class Page {
  /** @type {AbortController | null} */
  #filling = null;
  /** @type {Promise<void>[]} */
  #puts = [];

  /**
   * @param {number[]} versions
   * @param {Reader} reader
   */
  constructor(versions, reader) {
    this.versions = versions;
    this.reader = reader;
    this.element = element('section', { className: 'page' });
    this.#reserve();
  }

  get oldest() {
    return this.versions[this.versions.length - 1];
  }

  /**
   * The page with these versions, which end as before.
   * @param {number[]} versions
   */
  extend(versions) {
    if (versions.length === this.versions.length) {
      return;
    }
    this.versions = versions;
    if (this.#filling) {
      this.empty();
      this.fill();
    } else {
      this.#reserve();
    }
  }

  fill() {
    if (this.#filling === null) {
      this.#filling = new AbortController();
      const { signal } = this.#filling;
      const places = this.versions.map((version) => element('article', { className: 'patch loading' }, `${version}`));
      this.element.style.height = '';
      this.element.replaceChildren(...places);
      this.#puts = this.versions.map((version, index) => this.#put(version, places[index], signal));
    }
  }

  /**
   * The element of a version, once it is there.
   * @param {number} version
   */
  async reach(version) {
    this.fill();
    await this.#puts[this.versions.indexOf(version)];
    // Newer ones may have come meanwhile.
    return /** @type {HTMLElement | null} */ (this.element.children[this.versions.indexOf(version)] ?? null);
  }

  /** Lets the patches go, and keeps their place. */
  empty() {
    if (this.#filling) {
      const { height } = this.element.getBoundingClientRect();
      this.#filling.abort();
      this.#filling = null;
      this.element.replaceChildren();
      this.element.style.height = `${height}px`;
    }
  }

  #reserve() {
    this.element.style.height = `calc(${this.versions.length} * min(var(--patch-height), var(--most-height)))`;
  }

  /**
   * @param {number} version
   * @param {HTMLElement} place
   * @param {AbortSignal} signal
   */
  async #put(version, place, signal) {
    try {
      place.replaceWith(this.reader.view(await this.reader.load(version, signal)));
    } catch (error) {
      if (!signal.aborted) {
        const again = () => this.#put(version, place, signal);
        const button = element('button', { type: 'button', onclick: again }, 'Try again');
        place.replaceChildren(`${version}: ${/** @type {Error} */ (error).message} `, button);
      }
    }
  }
}

export class Feed {
  /** @type {Page[]} */
  #pages = [];
  /** @type {Map<Element, Page>} */
  #byElement = new Map();
  /** @type {Set<Page>} */
  #near = new Set();
  // The page of a version on the way to it. The pages above grow when they are filled, and push it away before it is
  // reached, so it stays filled wherever it is.
  /** @type {Page | undefined} */
  #wanted;
  #reader;
  // A page is near where it is less than the window's height away.
  #observer = new IntersectionObserver((entries) => this.#look(entries), { rootMargin: '100% 0px' });

  /**
   * @param {HTMLElement} container
   * @param {Reader} reader
   */
  constructor(container, reader) {
    this.container = container;
    this.#reader = reader;
  }

  /**
   * Shows pages in the place of those that were there.
   * @param {number[][]} pages
   */
  show(pages) {
    this.close();
    const count = pages.reduce((sum, { length }) => sum + length, 0);
    this.container.style.setProperty('--most-height', `${LONGEST / Math.max(count, 1)}px`);
    this.#pages = pages.map((versions) => this.#make(versions));
    this.container.replaceChildren(...this.#pages.map((page) => page.element));
  }

  /**
   * Puts what has come since before the first page.
   * @param {number[][]} pages
   */
  grow(pages) {
    const count = pages.length - this.#pages.length;
    this.#pages[0]?.extend(pages[count]);
    const added = pages.slice(0, count).map((versions) => this.#make(versions));
    this.#pages.unshift(...added);
    this.container.prepend(...added.map((page) => page.element));
  }

  /**
   * Scrolls to about where a version is, so that others are let go.
   * @param {number} version
   */
  approach(version) {
    this.#pageOf(version)?.element.scrollIntoView();
  }

  /**
   * The element of a version, once it is there. It stays until it is released, or another one is reached for.
   * @param {number} version
   */
  async reach(version) {
    const before = this.#wanted;
    this.#wanted = this.#pageOf(version);
    if (before) {
      this.#fit(before);
    }
    return this.#wanted?.reach(version) ?? null;
  }

  /** Has what was reached, and scrolled to, be let go when it is far. */
  release() {
    const page = this.#wanted;
    if (page) {
      // What the observer told so far was before the scrolling. Where the page is now it tells anew.
      this.#look(this.#observer.takeRecords());
      this.#observer.unobserve(page.element);
      this.#observer.observe(page.element);
      this.#near.add(page);
      this.#wanted = undefined;
    }
  }

  close() {
    this.#observer.disconnect();
    this.#byElement.clear();
    this.#near.clear();
    this.#wanted = undefined;
    this.#pages.forEach((page) => page.empty());
    this.#pages = [];
  }

  /** @param {number} version */
  #pageOf(version) {
    return this.#pages.find(({ oldest }) => oldest <= version);
  }

  /** @param {number[]} versions */
  #make(versions) {
    const page = new Page(versions, this.#reader);
    this.#byElement.set(page.element, page);
    this.#observer.observe(page.element);
    return page;
  }

  /** @param {IntersectionObserverEntry[]} entries */
  #look(entries) {
    for (const { target, isIntersecting } of entries) {
      const page = this.#byElement.get(target);
      if (page) {
        isIntersecting ? this.#near.add(page) : this.#near.delete(page);
        this.#fit(page);
      }
    }
  }

  /** @param {Page} page */
  #fit(page) {
    page === this.#wanted || this.#near.has(page) ? page.fill() : page.empty();
  }
}
