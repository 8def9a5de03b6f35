// A lead's requests for its groups, each after a question; gate and desk judge them.
import {byId, make, put, withNumber} from './draw.js';
import {post, requesterOf, sleep} from './net.js';
import {DOING, named, refusal, word} from './words.js';

const AGAIN = 1000, TRIES = 6, SHOWN = 8000;

// Whether a lead moves the call: it waits in a queue, or rings at an agent whom no group gave it.
/** @param {Call} call */
export const isMoved = ({state, direct}) => state === 'queued' || state === 'alerting' && direct;

/** @param {State} state */
const placeName = (state, to = '') => withNumber({id: to, name: state.groups.get(to)?.name || state.agentAt(to)?.name || to});

// Why nobody takes a call there soon: nobody is logged on for the group, or what the agent does who isn't ready.
/** @param {State} state */
function stands(state, to = '') {
  const {counts} = state.group(to), agent = state.agentAt(to);
  if (state.groups.has(to)) return Object.values(counts).some(count => count) ? '' : word('act.empty');
  return agent?.doing === 'ready' ? '' : `${DOING[agent?.doing ?? 'null'].sign} ${DOING[agent?.doing ?? 'null'].words}`;
}

/** @type {LeadOf} */
export const lead = {
  groups: new Set(), requester: '', invoke: 0,

  begin({login, role, groups = []}) {
    if (role !== 'lead') return;
    this.groups = new Set(groups);
    this.requester = requesterOf(login);
  },

  leads({doing, groups}) { return doing !== 'null' && groups.some(group => this.groups.has(group)); },

  // A lead moves a call that waits, and ends one that an agent has.
  may({group, state}) { return group !== null && this.groups.has(group) && ['queued', 'alerting', 'connected', 'hold'].includes(state); },

  async ofAgent(state, agent) {
    const who = named(state.agent(agent).name || agent);
    const states = ['ready', 'notReady', 'loggedOff'].map(one => [one, word(`agent.${one}`)]);
    const requested = await ask(word('act.state', {who}), states, 'ready', 'head.state');
    if (requested) await this.send('setAgentState', {agent, requested}, word(`agent.${requested}`), who);
  },

  async ofCall(state, line) {
    const {number: call, at: device, caller, state: is} = line, isInQueue = is === 'queued';
    const who = caller ? named(caller) : word('agents.call', {call: `${call}`});
    const end = async () => {
      if (await ask(word('act.end.sure', {who})) !== null) await this.send('clearConnection', {call, device}, word('act.end'), who);
    };
    if (!isMoved(line)) return end();
    const groups = [...this.groups].flatMap(id => state.groups.has(id) && id !== device ? id : []);
    const stations = [...state.agents.values()]
      .flatMap(agent => agent.station && agent.station !== device && this.leads(agent) ? agent.station : []);
    const places = [...groups, ...stations].map(to => [to, [placeName(state, to), stands(state, to)].filter(Boolean).join(': ')]);
    const to = await ask(word(isInQueue ? 'act.move.sure' : 'act.rings.sure', {who, at: placeName(state, device)}),
      isInQueue ? places : [...places, ['', word('act.end')]]);
    if (to === '') return end();
    if (to === null) return;
    const why = stands(state, to);
    if (!why || await ask(word('act.place.sure', {place: placeName(state, to), why})) !== null)
      await this.send('deflectCall', {call, device, to}, word('act.move'), who, placeName(state, to));
  },

  async ofGroup(state, device) {
    const {name, priority: has} = state.group(device), group = named(name || device), digits = [...'0123456789'].map(one => [one, one]);
    const priority = await ask(word('act.priority.sure', {group}), digits, `${has}`, 'head.priority');
    if (priority) await this.send('setGroupPriority', {device, priority: Number(priority)}, word('head.priority'), group, priority);
  },

  // The same bytes until there is an answer, so that it acts once.
  async send(service, members, what, who, to = '') {
    const body = JSON.stringify({requester: this.requester, invoke: ++this.invoke, service, ...members});
    show('…');
    for (let tried = 0; tried < TRIES; tried++) {
      const reply = await post(body);
      const done = () => `✓ ${word(to ? 'agent.moved' : 'agent.button', {what, who, to})}`;
      if (reply) return show(reply.status === 200 ? done() : `■ ${refusal(reply.status, reply.text)}`);
      await sleep(AGAIN);
    }
    show(`■ ${word('act.unknown')}`);
  },
};

let clearing = 0;
function show(text = '') {
  put('act-told', text);
  clearTimeout(clearing);
  clearing = setTimeout(put, SHOWN, 'act-told');
}

// Asks for a yes, and a choice; null for no.
/** @type {Asks} */
export const ask = (question, choices = [], chosen = choices[0]?.[0], what = 'act.to') => {
  const dialog = byId('act'), options = choices.map(([value, text]) => make('option', {value}, text));
  put(dialog.firstElementChild, make('p', question),
    make('label', {hidden: !choices.length}, make('span', word(what)), ' ', make('select', ...options)),
    make('menu', make('button.main', {value: 'yes'}, word('act.yes')), make('button', {value: ''}, word('act.no'))));
  const select = dialog.querySelector('select');
  select.value = chosen;
  dialog.returnValue = '';
  dialog.showModal();
  return new Promise(done => { dialog.onclose = () => done(dialog.returnValue ? select.value : null); });
};
