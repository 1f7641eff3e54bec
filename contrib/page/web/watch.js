// Asking again and again.

const SECONDS = 5;

/**
 * @param {number} milliseconds
 * @param {AbortSignal} signal
 */
function sleep(milliseconds, signal) {
  return new Promise((resolve) => {
    const timer = setTimeout(resolve, milliseconds);
    signal.addEventListener('abort', () => { clearTimeout(timer); resolve(undefined); }, { once: true });
  });
}

/**
 * Works now and every some seconds while the page is seen, until it is stopped. What went wrong last is told, and
 * nothing once it goes well again.
 * @param {() => Promise<void>} work
 * @param {(fault: string) => void} tell
 * @param {AbortSignal} signal
 */
export async function watch(work, tell, signal) {
  while (!signal.aborted) {
    try {
      if (!document.hidden) {
        await work();
        tell('');
      }
    } catch (error) {
      if (!signal.aborted) {
        tell(`${/** @type {Error} */ (error).message} Asked again in ${SECONDS} seconds.`);
      }
    }
    await sleep(SECONDS * 1000, signal);
  }
}
