// The live calls, as many as were asked for.
import {isMoved} from '../act.js';
import {put, set, table} from '../draw.js';
import {callLines, search, severity} from '../lines.js';
import {limitsOf} from '../settings.js';
import {CONNECTION, named, office, SIGN, word} from '../words.js';

const PAGE = 100;
let most = PAGE;

const calls = table('calls-table', [
  {head: 'call words', text: line => line.key},
  {head: 'state state', text: ({state, severity}) => `${SIGN[severity] ?? CONNECTION[state].sign} ${CONNECTION[state].words}`},
  'for seconds',
  {head: 'group name', text: line => line.groupName && named(line.groupName)},
  {head: 'at name', press: 'agent', text: line => line.at && named(line.at)},
  'caller words',
  'whole wide seconds',
  {head: 'act words lead', press: 'call'},
]);

/** @param {Drawn} drawn */
export function draw(drawn) {
  const {state, settings: {group, find}, now, lead, redraw} = drawn;
  const who = (device = '') => state.agentAt(device)?.name || office.names.stations[device] || device;
  const found = search(callLines(drawn).filter(line => !group || line.group === group), find,
    line => [`${line.number}`, line.caller, who(line.at), state.nameOf(line.group ?? '')]);
  const shown = found.slice(0, most), rest = found.length - most;
  calls.draw(shown.map(line => {
    const {number, at, since, begun, queued} = line, id = line.group ?? '', inQueue = line.state === 'queued', waits = isMoved(line);
    return {...line, counted: true, key: `${number}`, at: inQueue ? '' : who(at), groupName: state.nameOf(id),
      severity: waits ? severity(now - queued, limitsOf(id)) : '',
      for: now - since, whole: now - begun, act: lead.may(line) && word(waits ? 'act.move' : 'act.end')};
  }));
  put('calls-rest', !found.length && word('calls.none'));
  put('calls-more', word('calls.rest', {n: rest}));
  set('calls-more', {hidden: rest <= 0, onclick: () => { most += PAGE; redraw(); }});
}

export const {file} = calls;
