// The office's file of a customer, by an address of board.json with {caller} in it. No document.

const CALLER = '{caller}', LONGEST = 1000, USUAL = ['https'], SCHEME = /^[a-z][a-z0-9+.-]*$/;
// what would run in the page, or show what is the machine's own
const NEVER = ['javascript', 'data', 'vbscript', 'blob', 'file', 'filesystem', 'about', 'view-source', 'ws', 'wss'];

const isScheme = (/** @type {unknown} */ one) => typeof one === 'string' && SCHEME.test(one) && !NEVER.includes(one);
const areSchemes = (/** @type {unknown} */ some) => Array.isArray(some) && some.length > 0 && some.every(isScheme);

/** @param {string} text @param {string[]} schemes */
const isAddress = (text, schemes) => {
  try { return schemes.includes(new URL(text).protocol.slice(0, -1)); } catch { return false; }
};

// Where a caller's file is; nothing where the caller isn't digits alone, or no address is given.
/** @param {Customer|undefined} customer @param {string} [caller] */
export function customerFile(customer, caller = '') {
  if (!customer || !/^[0-9]+$/.test(caller)) return undefined;
  const address = customer.address.replaceAll(CALLER, encodeURIComponent(caller));
  return isAddress(address, customer.schemes) ? address : undefined;
}

// What board.json says of it, and the members that can't be used.
/** @param {any} said @returns {{customer?: Customer, faults: string[]}} */
export function customerOf(said) {
  if (said === undefined) return {faults: []};
  if (said?.constructor !== Object) return {faults: ['customer']};
  const {address, schemes = USUAL, ...others} = said, faults = Object.keys(others).map(name => `customer.${name}`);
  const allowed = areSchemes(schemes) ? schemes : USUAL;
  if (allowed !== schemes) faults.push('customer.schemes');
  const isText = typeof address === 'string' && address.length <= LONGEST && address.includes(CALLER);
  const isGood = isText && isAddress(address.replaceAll(CALLER, '1'), allowed);
  return isGood ? {customer: {address, schemes: allowed}, faults} : {faults: [...faults, 'customer.address']};
}
