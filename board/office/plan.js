// The plan as a table: read of a file, compared with the desk's, and as a file again. No document.

export const HEADER = ['kind', 'number', 'name', 'ring', 'wrap'];
const MOST_SECONDS = 3600, LONGEST = 80, KINDS = ['group', 'station', 'agent'];

// A file of a spreadsheet is UTF-8, or else of Windows.
/** @param {ArrayBuffer} data */
export function textOf(data) {
  try { return new TextDecoder('utf-8', {fatal: true}).decode(data); } catch { return new TextDecoder('windows-1252').decode(data); }
}

// The fields of each line, with commas, semicolons or tabs between them, whichever the header has.
export function fieldsOf(text = '') {
  const [head] = text.split(/\r?\n/, 1), between = [',', ';', '\t'].find(one => head.includes(one)) ?? ',';
  /** @type {string[][]} */ const lines = [[]];
  let field = '', isQuoted = false;
  for (let place = 0; place < text.length; place++) {
    const sign = text[place], isDouble = sign === '"' && text[place + 1] === '"';
    if (isQuoted) {
      if (isDouble) place++; else if (sign === '"') { isQuoted = false; continue; }
      field += sign;
    } else if (sign === '"' && field === '') isQuoted = true;
    else if (sign === between || sign === '\n') {
      lines[lines.length - 1].push(field.replace(/\r$/, ''));
      field = '';
      if (sign === '\n') lines.push([]);
    } else field += sign;
  }
  lines[lines.length - 1].push(field.replace(/\r$/, ''));
  return lines.filter(line => line.some(one => one !== ''));
}

// a quote that a file for a spreadsheet has before what that would change
const plain = (text = '') => text.replace(/^'(?=[=+\-@\t]|0\d+$)/, '').trim();

const isSeconds = (text = '') => /^\d{1,4}$/.test(text) && Number(text) <= MOST_SECONDS;

// What is wrong with a row: the member's name, or nothing.
/** @param {string[]} fields */
function faultOf([kind, number, name, ring, wrap], count = 5) {
  if (count !== HEADER.length) return 'fields';
  if (!KINDS.includes(kind)) return 'kind';
  if (!(kind === 'agent' ? /^\d{1,9}$/ : /^\d{1,15}$/).test(number)) return 'number';
  if (kind === 'station' ? name : !name || name.length > LONGEST) return 'name';
  if (kind === 'group' ? !isSeconds(ring) : ring) return 'ring';
  if (kind === 'group' ? !isSeconds(wrap) : wrap) return 'wrap';
}

/** @param {Planned} plan @returns {Row[]} */
export const rowsOf = ({groups, stations, agents}) => [
  ...groups.map(({device, name, ring, wrap}) => ({kind: 'group', number: device, name, ring, wrap})),
  ...stations.map(({device}) => ({kind: 'station', number: device, name: ''})),
  ...agents.map(({agent, name}) => ({kind: 'agent', number: agent, name}))];

/** @param {Row[]} rows */
export const fileOf = rows => [HEADER, ...rows.map(({kind, number, name, ring, wrap}) => [kind, number, name, ring ?? '', wrap ?? ''])];

// of a device or an agent
/** @param {{kind: string, number: string}} row */
const keyOf = ({kind, number}) => `${kind === 'agent'} ${number}`;

// The rows of a file, or in which lines it is wrong.
/** @returns {{rows: Row[], faults: Fault[]}} */
export function read(text = '') {
  const [header = [], ...lines] = fieldsOf(text.replace(/^\ufeff/, ''));
  const isHeader = header.map(one => one.trim().toLowerCase()).join() === HEADER.join();
  if (!isHeader) return {rows: [], faults: [{line: 1, what: 'header'}]};
  /** @type {Fault[]} */ const faults = [];
  /** @type {Map<string, Row>} */ const rows = new Map();
  for (const [place, line] of lines.entries()) {
    const [kind, number, name, ring, wrap] = line.map(plain), what = faultOf([kind, number, name, ring, wrap], line.length);
    const row = {kind, number, name, ...kind === 'group' && {ring: Number(ring), wrap: Number(wrap)}};
    if (what) faults.push({line: place + 2, what});
    else if (rows.has(keyOf(row))) faults.push({line: place + 2, what: 'twice'});
    else rows.set(keyOf(row), row);
  }
  return {rows: [...rows.values()], faults};
}

// The request that plans a row, or changes what is planned; nothing where it is as the row says.
/** @param {Row} row @param {Row|undefined} now @returns {object|null} */
export function requestOf({kind, number, name, ring, wrap}, now) {
  if (now && now.name === name && now.ring === ring && now.wrap === wrap) return null;
  const service = `${now ? 'change' : 'add'}${kind[0].toUpperCase()}${kind.slice(1)}`;
  const whose = kind === 'agent' ? {agent: number} : {device: number};
  return {service, ...whose, ...name && {name}, ...kind === 'group' && {ring, wrap}};
}

// What makes the desk's plan that of the rows, what the desk has beyond them, and numbers that are of another kind there.
/** @param {Row[]} wanted @param {Row[]} present */
export function changesOf(wanted, present) {
  const now = new Map(present.map(row => [keyOf(row), row])), then = new Map(wanted.map(row => [keyOf(row), row]));
  const crossed = wanted.filter(row => (now.get(keyOf(row))?.kind ?? row.kind) !== row.kind);
  return {
    crossed, beyond: present.filter(row => !then.has(keyOf(row))),
    requests: wanted.flatMap(row => crossed.includes(row) ? [] : requestOf(row, now.get(keyOf(row))) ?? []),
  };
}
