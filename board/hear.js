// How a page hears of the desk: by the worker of all pages of a browser, or one of its own where the browser has none that is shared.

// milliseconds: without a beat the worker is gone; between two looks at that
const GONE = 15000, LOOKED = 5000;
const isShared = 'SharedWorker' in window && 'locks' in navigator;
// where pages and worker say other things to each other this is another name, since one of before may still run
const HOW = /** @type {const} */ ({type: 'module', name: 'streams-1'});

// Over HTTP/1.1 a browser has few connections.
const isNarrow = () => !performance.getEntries().some(entry => /^h[23]/.test(/** @type {any} */ (entry).nextHopProtocol));

// Gives what asks for something else. `isOwn` is the page of an agent who works with it.
/** @type {Listen} */
export function listen(hear, isOwn = false) {
  const lock = isShared && crypto.randomUUID();
  let asked = '', heard = 0;
  /** @type {MessagePort|Worker|undefined} */ let worker;
  const leave = () => worker?.postMessage({asked: ''});
  const say = () => { if (asked) worker?.postMessage({asked, isOwn, isShown: !document.hidden, isNarrow: isNarrow(), lock}); };
  function begin() {
    leave();
    if (worker) worker.onmessage = null;
    if (worker instanceof Worker) worker.terminate();
    heard = Date.now();
    const address = new URL('stream.js', import.meta.url);
    worker = isShared ? new SharedWorker(address, HOW).port : new Worker(address, HOW);
    worker.onmessage = ({data}) => {
      heard = Date.now();
      hear(data);
    };
    say();
  }
  // the worker waits for the lock, which is free when the page is gone
  if (lock) navigator.locks.request(lock, () => { begin(); return new Promise(() => {}); }); else begin();
  addEventListener('visibilitychange', say);
  addEventListener('pagehide', leave);
  addEventListener('pageshow', ({persisted}) => { if (persisted) say(); });
  setInterval(() => { if (worker && asked && Date.now() - heard > GONE) begin(); }, LOOKED);
  return what => {
    asked = what;
    say();
  };
}
