// Requests that are given up without an answer. No document: a worker asks by it too.

const PATIENCE = 10000, LONGEST = 5000;
// relative to an address with a password in it a question is refused
export const base = location.origin;

export const sleep = (milliseconds = 0) => new Promise(done => setTimeout(done, milliseconds));

// How long to wait after so many losses: not all pages alike.
export const pause = (losses = 0) => Math.min(LONGEST, 1000 * 2 ** losses) * (0.75 + Math.random() / 2);

// A reply; an error `silent` where none came in time, `server` where nobody is there.
/** @param {RequestInit} [how] */
export async function ask(path = '', how, patience = PATIENCE, giving = new AbortController()) {
  const timer = setTimeout(() => giving.abort(), patience);
  try {
    const reply = await fetch(base + path, {cache: 'no-store', ...how, signal: giving.signal});
    return {status: reply.status, text: await reply.text()};
  } catch { throw new Error(giving.signal.aborted ? 'silent' : 'server'); } finally { clearTimeout(timer); }
}

// The desk's reply; nothing of the proxy's, or where memory or the store failed.
export async function post(body = '') {
  const reply = await ask('/csta', {method: 'POST', body, headers: {'content-type': 'application/json'}}).catch(() => null);
  return reply && [429, 500, 502, 503, 504].includes(reply.status) ? null : reply;
}

// No other page has it: a count from 1 would get kept replies.
export const requesterOf = (login = '') => `${login}-${crypto.randomUUID().replaceAll('-', '').slice(-16)}`;
