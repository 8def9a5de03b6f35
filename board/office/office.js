// The office's page: logins, roles, first passwords and the plan, for who administers.
import './words.js';
import {ask as sure} from '../act.js';
import {byId, make, put, set, withNumber} from '../draw.js';
import {ask, logIn, logOut, openSession} from '../session.js';
import {dayOf, named, refusal, timeOfDay, translate, word} from '../words.js';
import {drawn, loginOf, nextOf} from './person.js';
import {requestOf, rowsOf} from './plan.js';
import {Sender} from './send.js';
import {offerSheets} from './sheet.js';

const ROLES = ['agent', 'lead', 'supervisor'], MOST_NAME = 80, MOST_SECONDS = 3600;
/** @type {OfficeTold} */ let told = {acts: [], logins: [], roots: []};
/** @type {Sender} */ let sender;
// the login whose role the form changes, where it gives no new one
let edits = '';

const say = (key = '', values = {}) => word(`office.${key}`, values);
const show = (text = '') => put('told', text);
const person = () => byId('person').elements, row = () => byId('row').elements;
const groups = () => told.plan?.groups ?? [];
const agentOf = (number = '') => told.plan?.agents.find(({agent}) => agent === number);
const groupName = (device = '') => named(groups().find(one => one.device === device)?.name ?? device);

// Whether it was done; else the page says why not.
/** @param {Replied} reply */
function isDone(reply) {
  if (reply?.status === 401) logIn();
  if (reply?.status !== 200) show(`■ ${reply ? refusal(reply.status, reply.text) : word('act.unknown')}`);
  return reply?.status === 200;
}

// While something is asked for, nothing else is.
/** @param {() => Promise<unknown>} work */
async function busily(work) {
  const main = byId('main');
  if (main.inert) return;
  main.inert = true;
  show('…');
  try { await work(); } finally { main.inert = false; }
}

async function load() {
  told = await ask('/office');
  put('status', !told.plan && word('error.badGateway'));
  drawPerson();
  drawRowForm();
  drawLogins();
  drawRows();
  drawActs();
}

// People

/** @param {Attributes} attributes of the label @param {Made} control */
const labelled = (key = '', control, attributes = {}) => make('label', attributes, make('span', say(key)), control);

/** @type {Field} */
const field = (name, attributes, isAsked = true) => {
  const input = make('input', {name, autocomplete: 'off', spellcheck: 'false', disabled: !isAsked, ...attributes});
  return labelled(name, input, {hidden: !isAsked});
};

/** @type {(name: string, onchange: () => void, area: string, values: string[]) => Made} */
const choice = (name, onchange, area, values) =>
  labelled(name, make('select', {name, onchange}, ...values.map(value => make('option', {value}, say(`${area}.${value}`)))));

/** @param {{device: string, name: string}} group */
const box = ({device, name}) => make('label', {'data-key': device}, make('input', {type: 'checkbox', name: 'groups', value: device}),
  make('span', withNumber({id: device, name})));

function drawPerson() {
  const role = person().role?.value || 'agent', isAgent = role === 'agent', isNew = !edits;
  put('person-title', isNew ? say('person') : say('changes', {login: named(edits)}));
  put('person', choice('role', drawPerson, 'role', ROLES),
    field('name', {required: true, maxlength: MOST_NAME, onchange: propose}, isNew || isAgent),
    field('number', {required: true, pattern: '[0-9]{1,9}', inputmode: 'numeric'}, isAgent),
    field('login', {required: true, pattern: '[a-z0-9\\-]{1,15}', autocapitalize: 'none'}, isNew),
    field('password', {required: true, minlength: 10, maxlength: 72}, isNew),
    make('fieldset', {hidden: role === 'supervisor'},
      make('legend', {'data-key': 'legend'}, say(isAgent ? 'groups' : 'groups.lead')), ...groups().map(box)),
    field('stations', {pattern: '[0-9]{1,15}(, ?[0-9]{1,15})*'}, isAgent), make('button.main', say(isNew ? 'give' : 'change')),
    make('button', {type: 'button', hidden: isNew, onclick: () => fill()}, word('act.no')));
  const numbers = (told.plan?.agents ?? []).map(({agent}) => agent);
  if (isNew && isAgent && !person().number.value) person().number.value = nextOf(numbers);
  if (isNew && !person().password.value) person().password.value = drawn();
}

// A login that the name suggests, unless one was typed.
function propose() {
  const {name, login} = person();
  if (!login.value) login.value = loginOf(name.value, [...told.logins, ...told.roots].map(one => one.login));
}

// Makes the form that of a login that is there, or of a new person.
/** @param {Login} [one] */
function fill(one) {
  byId('person').reset();
  edits = one?.login ?? '';
  if (one?.role) person().role.value = one.role;
  drawPerson();
  if (!one) return;
  person().number.value = one.agent ?? '';
  person().name.value = agentOf(one.agent)?.name ?? '';
  person().stations.value = (one.stations ?? []).join(', ');
  for (const box of byId('person').querySelectorAll('[type=checkbox]')) box.checked = one.groups?.includes(box.value) ?? false;
  byId('person').scrollIntoView();
}

// What the form says, without what the role doesn't have.
function given() {
  const {role: {value: role}, number, login, password, stations} = person(), isAgent = role === 'agent';
  const ticked = [...byId('person').querySelectorAll('[type=checkbox]:checked')].map(one => one.value);
  const at = stations.value.match(/\d+/g) ?? [];
  return {
    login: edits || login.value, role, ...isAgent && {agent: number.value}, ...!edits && {password: password.value},
    ...role !== 'supervisor' && ticked.length && {groups: ticked}, ...isAgent && at.length && {stations: at},
  };
}

// An agent is planned first, or named anew; then comes the login.
async function giveLogin() {
  const members = given(), name = person().name.value.trim(), {login, role, password} = members;
  if (role === 'lead' && !members.groups) return show(`■ ${say('groups.lead')}`);
  if (members.agent && !await planAgent(members.agent, name)) return;
  if (!isDone(await sender.send('/office/login', members))) return;
  show(`✓ ${say(edits ? 'did.changeRole' : 'did.giveLogin', {of: named(login)})}`);
  if (!edits) tell({login, password, name});
  await load();
  fill();
}

// Whether the agent is planned by this name then. Who is planned by another one is called so only after a yes.
async function planAgent(number = '', name = '') {
  const now = agentOf(number), row = {kind: 'agent', number}, request = requestOf({...row, name}, now && {...row, name: now.name});
  const question = say('planned', {who: withNumber({id: number, name: now?.name}), name: named(name)});
  if (now && request && !edits && await sure(question) === null) return show();
  return !request || isDone(await sender.plan(request));
}

// What somebody has to be told, to be printed or written down: nobody sees the password again.
function tell({login = '', password = '', name = ''}) {
  const leave = () => { put('given'); set('given', {hidden: true}); };
  set('given', {hidden: false});
  put('given', make('dl', make('dt', say('at')), make('dd', `${location.origin}/board/`), make('dt', say('login.of', {who: named(name)})),
    make('dd', {id: 'given-login'}, login), make('dt', say('password')), make('dd', {id: 'given-password'}, password)),
    make('p', say('told')),
    make('p.buttons', make('button', {onclick: () => print()}, say('print')), make('button', {onclick: leave}, word('agent.read'))));
}

/** @param {Login} one */
async function renew({login}) {
  const password = drawn();
  if (await sure(say('renew.sure', {login: named(login)})) === null) return show();
  if (!isDone(await sender.send('/office/password', {login, password}))) return;
  show(`✓ ${say('did.givePassword', {of: named(login)})}`);
  tell({login, password, name: login});
  await load();
}

/** @param {Login} one */
async function end({login}) {
  if (await sure(say('end.sure', {login: named(login)})) === null) return show();
  if (!isDone(await sender.send('/office/end', {login}))) return;
  show(`✓ ${say('did.endLogin', {of: named(login)})}`);
  await load();
  fill();
}

// Tables

/** @param {Part[]} rows */
const tabled = (place = '', heads = [''], ...rows) =>
  put(place, make('thead', make('tr', ...heads.map(head => head ? make('th', {scope: 'col'}, say(head)) : make('td')))),
    make('tbody', ...rows));

/** @param {Part[]} cells after the first */
const rowOf = (key = '', head = '', ...cells) =>
  make('tr', {'data-key': key}, make('th', {scope: 'row'}, head), ...cells.map(cell => make('td', cell)));

/** @param {Login} one */
function whose({agent = '', groups = []}) {
  const who = agent && withNumber({id: agent, name: agentOf(agent)?.name ?? ''});
  return [who, groups.map(groupName).join(', ')].filter(Boolean).join('; ');
}

function drawLogins() {
  /** @type {(login: Login, key: string, act: (one: Login) => unknown) => Part} */
  const button = (one, key, act) => make('button', {'data-act': key, onclick: () => busily(async () => act(one))}, say(key));
  /** @type {(one: Login) => Part} */
  const buttons = one => make('span', button(one, 'change', fill), button(one, 'renew', renew), button(one, 'end', end));
  /** @type {(one: Login) => Part} */
  const own = one => rowOf(one.login, one.login, one.role ? say(`role.${one.role}`) : '–', whose(one), one.first && say('first'),
    buttons(one));
  /** @type {(one: Login) => Part} */
  const roots = ({login, role = 'nothing'}) => rowOf(`root ${login}`, login, role === 'nothing' ? '–' : role, '', say('roots'), '');
  tabled('logins', ['login.head', 'role', 'of', 'state', ''], ...told.logins.map(own), ...told.roots.map(roots));
}

const NUMBERS = {ring: 20, wrap: 30};

function drawRowForm() {
  const kind = row().kind?.value || 'group', isGroup = kind === 'group';
  const pattern = kind === 'agent' ? '[0-9]{1,9}' : '[0-9]{1,15}', asked = {required: true, type: 'number', min: 0, max: MOST_SECONDS};
  const number = make('input', {name: 'number', required: true, pattern, inputmode: 'numeric', autocomplete: 'off'});
  put('row', choice('kind', drawRowForm, 'kind', ['group', 'station', 'agent']), labelled('number.any', number),
    field('name', {required: true, maxlength: MOST_NAME}, kind !== 'station'),
    ...Object.entries(NUMBERS).map(([name, value]) => field(name, {...asked, value}, isGroup)),
    make('button.main', say('doPlan')));
}

/** @param {Row} one */
function fillRow({kind, number, name, ring, wrap}) {
  row().kind.value = kind;
  drawRowForm();
  Object.assign(row().number, {value: number});
  Object.assign(row().name, {value: name});
  Object.assign(row().ring, {value: ring ?? NUMBERS.ring});
  Object.assign(row().wrap, {value: wrap ?? NUMBERS.wrap});
  byId('row').scrollIntoView();
}

function drawRows() {
  /** @type {(one: Row) => Part} */
  const button = one => one.kind !== 'station' && make('button', {onclick: () => fillRow(one)}, say('change'));
  /** @type {(one: Row) => Part} */
  const drawnRow = one => {
    const {kind, number, name, ring = '', wrap = ''} = one;
    return rowOf(`${kind} ${number}`, number, say(`kind.${kind}`), named(name), `${ring}`, `${wrap}`, button(one));
  };
  tabled('rows', ['number.any', 'kind', 'name', 'ring', 'wrap', ''], ...(told.plan ? rowsOf(told.plan) : []).map(drawnRow));
}

async function planRow() {
  const {kind: {value: kind}, number: {value: number}, name, ring, wrap} = row(), isGroup = kind === 'group';
  const seconds = isGroup && {ring: Number(ring.value), wrap: Number(wrap.value)};
  const wanted = {kind, number, name: kind === 'station' ? '' : name.value.trim(), ...seconds};
  const now = told.plan && rowsOf(told.plan).find(one => one.kind === kind && one.number === number), request = requestOf(wanted, now);
  if (!request) return show(`✓ ${say('asPlanned')}`);
  if (!isDone(await sender.plan(request))) return;
  show(`✓ ${say(`kind.${kind}`)} ${number}`);
  byId('row').reset();
  await load();
}

/** @param {OfficeAct} act */
const didOf = ({act, of, agent = '', device = '', name = '', number_of: other = 0}) =>
  say(`did.${act}`, {of: named(of ?? (agent || device)), name: named(name), number: `${other}`});

function drawActs() {
  const when = (moment = 0) => `${dayOf(moment)} ${timeOfDay(moment)}`;
  const rows = [...told.acts].reverse().map(act => rowOf(`${act.number}`, when(act.moment), act.login, didOf(act)));
  tabled('acts', ['when', 'who', 'what'], ...rows);
}

/** @param {() => Promise<unknown>} work */
const submits = (form = '', work) => set(form, {onsubmit: event => {
  event.preventDefault();
  void busily(work);
}});

async function begin() {
  translate();
  document.title = say('title');
  const who = await openSession(logOut);
  if (who.role !== 'admin') return show(`■ ${word('error.forbidden')}`);
  sender = new Sender(who.login);
  submits('person', giveLogin);
  submits('row', planRow);
  offerSheets(sender, () => told.plan && rowsOf(told.plan), work => busily(work), show, load);
  await load().catch(({status, message}) => show(`■ ${status === 404 ? say('old') : message}`));
}
begin();
