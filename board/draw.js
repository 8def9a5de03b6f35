// Makes of the page what is described, and writes only what has changed.
import {clock, CLOSES, named, number, OPENS, percent, plain, SIGN, timeOfDay, word} from './words.js';

// milliseconds: what is older than that is grey
const GREY = 10000, SVG = 'http://www.w3.org/2000/svg', ISOLATED = new RegExp(`(${OPENS}[^${CLOSES}]*${CLOSES})`);

// What is in an element stays as it is.
export const AS_IT_IS = Symbol('as it is');
// an element's attributes and its text, since to remember is quicker than to ask
const GIVEN = Symbol('given'), SAYS = Symbol('says');
// of an element that put() made, the names of its attributes
const MADE = Symbol('made');

/** @param {any} place @returns {any} */
export const byId = place => typeof place === 'string' ? document.getElementById(place) : place;

// An element: tag and class, attributes, if any, and parts. It is known by its `data-key`.
/** @param {Attributes|Part} [one] @param {Part[]} more @returns {Made} */
export function make(kind = '', one, ...more) {
  const first = /** @type {any} */ (one), given = typeof first === 'object' && !first.tag, attributes = given ? first : {};
  const parts = given ? more : [first, ...more], dot = kind.indexOf('.');
  return dot < 0 ? {tag: kind, attributes, parts}
    : {tag: kind.slice(0, dot), attributes: {class: kind.slice(dot + 1), ...attributes}, parts};
}

// Gives attributes, and removes those that are false or nothing. A function handles an event.
/** @type {Sets} */
export const set = (place, attributes) => {
  const element = byId(place), given = element[GIVEN] ??= {};
  for (const [name, value] of Object.entries(attributes)) {
    if (name in given && given[name] === value) continue;
    given[name] = value;
    if (typeof value === 'function') element[name] = value;
    else if (value === false || value === undefined) {
      element.removeAttribute(name);
      if (name.startsWith('on')) element[name] = null;
    }
    else element.setAttribute(name, value === true ? '' : value);
  }
};

// Writes what is in an element; what is false or nothing is left out. An element that was there keeps nothing of what it was.
/** @type {Puts} */
export const put = (place, ...parts) => {
  const element = byId(place), one = parts.length === 1 ? parts[0] : undefined;
  if (one === AS_IT_IS || (one !== undefined && one === element[SAYS])) return;
  element[SAYS] = one;
  const wanted = parts.flatMap(part => typeof part === 'number' ? number(part)
    : typeof part === 'string' ? texts(part, element) : part ? /** @type {Made} */ (part) : []);
  const keys = new Set(wanted.flatMap(part => typeof part === 'string' ? [] : part.attributes['data-key'] ?? [])), old = new Map();
  if (keys.size) for (const one of [...element.children]) if (keys.has(one.dataset.key)) old.set(one.dataset.key, one); else one.remove();
  let there = element.firstChild;
  for (const part of wanted) {
    const isText = typeof part === 'string', fits = isText ? there instanceof Text : !keys.size && there?.localName === part.tag;
    const node = !isText && old.get(part.attributes['data-key'])
      || (fits ? there : isText ? new Text() : document.createElementNS(part.tag === 'svg' ? SVG : element.namespaceURI, part.tag));
    if (node === there) there = there.nextSibling; else element.insertBefore(node, there);
    if (!isText) {
      for (const name of node[MADE] ?? []) if (!(name in part.attributes)) set(node, {[name]: undefined});
      node[MADE] = Object.keys(part.attributes);
      set(node, part.attributes);
      put(node, ...part.parts);
    } else if (node.data !== part) node.data = part;
  }
  while (element.childNodes.length > wanted.length) element.lastChild.remove();
};

// Names that are isolated become <bdi>; an option can only have a text.
/** @param {Element} within */
const texts = (text = '', within) => !text.includes(OPENS) || within.localName === 'option' ? text || [] :
  text.split(ISOLATED).filter(Boolean).map(part => part.startsWith(OPENS) ? make('bdi', plain(part)) : part);

// The state's age: `known` is its millisecond. What changes each second is outside what a screen reader reads.
export function drawStatus(kind = '', known = 0, why = '', moment = 0, reading = '') {
  const age = Date.now() - known, isLive = kind === 'live', means = isLive ? 'calm' : kind === 'lost' ? 'bad' : 'long';
  const lost = () => word(known ? 'status.old' : 'status.none', {why});
  const text = kind === 'lost' ? lost() : word(`status.${isLive && reading ? 'counting' : kind}`);
  const more = known && ['late', 'lost'].includes(kind) ? word('status.age', {clock: clock(age / 1000)}) : isLive && reading;
  set('status', {'data-kind': kind, 'data-severity': means});
  put('status', make('span', {'aria-hidden': 'true'}, `${SIGN[means]} `),
    make('span', {id: 'status-text', role: 'status'}, text), ' ', make('span', {id: 'status-age'}, more));
  set(document.body, {'data-old': known > 0 && !isLive && age > GREY});
  put('clock', timeOfDay(moment, 'long'));
  return `${text} ${more || ''}`;
}

export const withNumber = ({id = '', name = ''}) => name && name !== id ? `${named(name)} (${id})` : id;

// Seconds, shares and what else is of the `day` are known once that has been counted.
/** @type {CellOf} */
const textOf = ({text, seconds, share, severity, day, goal}, line) => {
  const figure = seconds ?? share;
  if ((figure || day) && !line.counted) return '…';
  if (!figure) return text?.(line) ?? '';
  const is = share && severity?.(line);
  return (is === 'long' || is === 'bad' ? `${SIGN[is]} ` : '') + (seconds ? clock(figure(line)) : percent(figure(line), goal?.(line)));
};

// The same in a file: seconds are whole, a share is in percent, with two digits.
/** @type {CellOf} */
const fileCell = (column, line) => {
  const {file, seconds, share} = column, figure = seconds ?? share;
  const value = file ? file(line) : !figure ? textOf(column, line) : line.counted ? figure(line) : null;
  return typeof value !== 'number' ? plain(value ?? '') : share ? Math.round(1e4 * value) / 100 : seconds ? Math.round(value) : value;
};

// A table with a row for each line; main.js does what its buttons are pressed for.
/** @param {(Column|string)[]} given */
export function table(id = '', given) {
  /** @type {any[]} */ let lines = [];
  const columns = given.map(/** @returns {Column} */ one => {
    const column = typeof one === 'string' ? {head: one} : one, [head, ...kinds] = column.head.split(' ');
    const of = (/** @type {any} */ line) => line[head];
    return {text: of, ...column, head, kind: kinds.join(' '), day: kinds.includes('day'), ...kinds.includes('seconds') && {seconds: of}};
  }), inFile = columns.filter(({kind}) => !kind?.includes('lead'));
  return {
    draw(now = lines) {
      lines = now;
      const heads = columns.map(({head, kind}) => make('th', {scope: 'col', class: kind}, word(`head.${head}`)));
      const cells = (/** @type {any} */ line) => columns.map((column, place) => {
        const {kind, press, severity} = column, text = textOf(column, line), leads = typeof press === 'function' ? press(line) : press;
        return make(place ? 'td' : 'th', {scope: !place && 'row', class: kind, 'data-severity': severity?.(line)},
          leads && text ? make('button', {'data-press': leads}, text) : text);
      });
      const rows = lines.map(line => make('tr', {'data-key': line.key, 'data-severity': line.severity ?? ''}, ...cells(line)));
      put(id, make('thead', make('tr', ...heads)), make('tbody', ...rows));
    },
    file: () => [inFile.map(({head}) => word(`head.${head}`)), ...lines.map(line => inFile.map(column => fileCell(column, line)))],
  };
}
