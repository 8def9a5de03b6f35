// The plan by a file: what it would change is shown first, and done after a click.
import {save} from '../csv.js';
import {byId, make, put, set} from '../draw.js';
import {named, refusal, word} from '../words.js';
import {changesOf, fileOf, read, textOf} from './plan.js';

const MOST = 30;

const say = (key = '', values = {}) => word(`office.${key}`, values);

/** @param {string[]} lines */
const listed = lines => make('ul', ...lines.slice(0, MOST).map(line => make('li', line)),
  lines.length > MOST && make('li', word('calls.rest', {n: lines.length - MOST})));

/** @param {any} request */
const told = ({service, agent, device, name = ''}) =>
  shown({kind: service.replace(/^(add|change)/, '').toLowerCase(), number: agent ?? device, name});

// What is listed below a sentence, where there is something.
/** @param {string[]} lines */
const part = (sentence = '', lines) => lines.length > 0 && make('div', make('p', sentence), listed(lines));

/** @param {Row} row */
const shown = ({kind, number, name}) => `${say(`kind.${kind}`)} ${number} ${named(name)}`;

/** @type {OfferSheets} */
export function offerSheets(sender, planned, busily, show, load) {
  /** @param {object[]} requests */
  async function send(requests) {
    /** @type {string[]} */ const refused = [];
    for (const [place, request] of requests.entries()) {
      show(`… ${say('csv.at', {n: place + 1, all: requests.length})}`);
      const reply = await sender.plan(request);
      if (reply?.status !== 200) refused.push(`${told(request)}: ${reply ? refusal(reply.status, reply.text) : word('act.unknown')}`);
      if (!reply) break;
    }
    await load();
    show(refused.length ? `■ ${say('csv.refused', {n: refused.length})}` : `✓ ${say('csv.done', {n: requests.length})}`);
    put('csv', refused.length > 0 && listed(refused));
  }

  async function look() {
    const [file] = byId('csv-file').files, {rows, faults} = read(file ? textOf(await file.arrayBuffer()) : ''), present = planned();
    byId('csv-file').value = '';
    if (!present) return put('csv', make('p', `■ ${word('error.badGateway')}`));
    const lines = faults.map(({line, what}) => say('csv.line', {n: line, what: say(`csv.${what}`)}));
    if (lines.length) return put('csv', part(`■ ${say('csv.faulty')}`, lines));
    const {crossed, beyond, requests} = changesOf(rows, present), does = {id: 'csv-do', onclick: () => busily(() => send(requests))};
    put('csv', part(`■ ${say('csv.crossed')}`, crossed.map(shown)), make('p', say('csv.changes', {n: requests.length})),
      listed(requests.map(told)), requests.length > 0 && make('button.main', does, word('act.yes')),
      part(say('csv.beyond'), beyond.map(shown)));
  }

  set('csv-file', {onchange: look});
  set('csv-save', {onclick: () => save('plan.csv', fileOf(planned() ?? []))});
}
