// The office's page by clicks, as an office's manager would: a new agent with an umlaut, who logs on and takes a call; own passwords,
// logins that end, a plan by CSV.
import {execFileSync} from 'node:child_process';
import {mkdtemp, readFile, writeFile} from 'node:fs/promises';
import {tmpdir} from 'node:os';
import {join} from 'node:path';
import {Browser, sleep, until} from './browser.mjs';
import {contrast, unreached, untold} from './looks.mjs';
import {PHONE, SCREEN} from './page.mjs';
import {brackets, strange} from './words.mjs';

const WITHIN = 300000, MANAGER = 'chef', OWN = 'mein-eigenes-wort';

/** What each row of these is, worked out by hand. */
export function tables(see, {read, changesOf, rowsOf, fileOf, fieldsOf, textOf}, {drawn, loginOf, nextOf}) {
  const head = 'kind,number,name,ring,wrap\n';
  const is = (what, found, wanted) => see(what, JSON.stringify(found) === JSON.stringify(wanted), JSON.stringify(found));
  const group = {kind: 'group', number: '100', name: 'Störung', ring: 20, wrap: 30}, station = {kind: 'station', number: '0201', name: ''};
  const agent = {kind: 'agent', number: '7', name: 'Jürgen, "J" Müller'};
  for (const [what, text] of [['commas', `${head}group,100,Störung,20,30\nstation,0201,,,\nagent,7,"Jürgen, ""J"" Müller",,\n`],
    ['semicolons, a mark, CR LF, quotes of a spreadsheet',
      `\ufeffkind;number;name;ring;wrap\r\ngroup;100;Störung;20;30\r\n\r\nstation;'0201;;;\r\nagent;7;"Jürgen, ""J"" Müller";;\r\n`],
    ['tabs, capitals, no last line end',
      'Kind\tNumber\tName\tRing\tWrap\ngroup\t100\tStörung\t20\t30\nstation\t0201\t\t\t\nagent\t7\t"Jürgen, ""J"" Müller"\t\t']]) {
    is(`a file with ${what}`, read(text), {rows: [group, station, agent], faults: []});
  }
  is('a name over two lines is one field', fieldsOf('a,"b\nc"\nd,e'), [['a', 'b\nc'], ['d', 'e']]);
  for (const [row, what] of [['group,100,,20,30', 'name'], ['group,100,A,,30', 'ring'], ['group,100,A,3601,30', 'ring'],
    ['group,100,A,20,x', 'wrap'], ['station,201,A,,', 'name'], ['station,201,,5,', 'ring'], ['agent,7,A,,5', 'wrap'],
    ['agent,1234567890,A,,', 'number'], ['group,1234567890123456,A,1,1', 'number'], ['agent,x,A,,', 'number'], ['room,7,A,,', 'kind'],
    ['agent,7,A', 'fields'], [`agent,7,${'n'.repeat(81)},,`, 'name'], ['agent,7,A,,\nagent,7,B,,', 'twice'],
    ['station,100,,,\ngroup,100,A,1,1', 'twice']]) {
    is(`a faulty row: ${row.slice(0, 30)}`, read(`${head}${row}`).faults.map(one => one.what), [what]);
  }
  is('no header', read('group,100,A,1,1').faults, [{line: 1, what: 'header'}]);
  is('a file of nothing', read('').faults, [{line: 1, what: 'header'}]);
  const plan = {groups: [{device: '100', name: 'Störung', ring: 20, wrap: 30}, {device: '110', name: 'B', ring: 1, wrap: 2}],
    stations: [{device: '201'}, {device: '300'}], agents: [{agent: '7', name: 'Other'}]};
  is('changes',
    changesOf([group, {...group, number: '110'}, {kind: 'station', number: '202', name: ''}, {kind: 'station', number: '201', name: ''},
      {kind: 'group', number: '300', name: 'C', ring: 1, wrap: 1}, agent], rowsOf(plan)), {
    crossed: [{kind: 'group', number: '300', name: 'C', ring: 1, wrap: 1}], beyond: [],
    requests: [{service: 'changeGroup', device: '110', name: 'Störung', ring: 20, wrap: 30}, {service: 'addStation', device: '202'},
      {service: 'changeAgent', agent: '7', name: 'Jürgen, "J" Müller'}]});
  is('what the plan has besides', changesOf([group], rowsOf(plan)).beyond.map(row => row.number), ['110', '201', '300', '7']);
  is('a file of the plan', fileOf([group, station]),
    [['kind', 'number', 'name', 'ring', 'wrap'], ['group', '100', 'Störung', 20, 30], ['station', '0201', '', '', '']]);
  is('a file of Windows', textOf(Uint8Array.of(0x4a, 0xfc, 0x72).buffer), 'Jür');
  for (const [name, taken, wanted] of [['Jürgen Müller', [], 'juergen'], ['Jürgen Müller', ['juergen'], 'juergenm'],
    ['Jürgen Müller', ['juergen', 'juergenm'], 'juergenmu'], ['Ana', ['ana'], 'ana2'], ['Łukasz Ærø', [], 'lukasz'], ['Иван', [], ''],
    ['Plan Clock', [], 'planc'], ['Maximiliane-Theodora', [], 'maximiliane'], ['Wolfeschlegelstein Ö', [], 'wolfeschlegelst'],
    ['O’Neil', [], 'oneil'], ['', [], '']]) {
    is(`a login of ${name || 'nothing'}`, loginOf(name, taken), wanted);
  }
  is('a password that is drawn', drawn(numbers => numbers.map((_, place) => place)), 'abcd-efgh-jkmn');
  see('another each time', drawn() !== drawn() && /^([a-z2-9]{4}-){2}[a-z2-9]{4}$/.test(drawn()), drawn());
  is('the next number', [nextOf([]), nextOf(['7', '12', '3']), nextOf(['999999999', '4'])], ['1', '13', '5']);
}

const where = browser => browser.run('return location.pathname');

/** Writes into a form, as somebody who types. */
const fill = (browser, form, values) => browser.run(`const fields = document.getElementById(arguments[0]).elements;
  for (const [name, value] of Object.entries(arguments[1])) {
    fields[name].value = value;
    fields[name].dispatchEvent(new Event('change', {bubbles: true}));
  }`, form, values);

async function logIn(browser, front, login, password, wanted) {
  await browser.open(`${front.address}/board/login/`);
  await until(() => browser.run('return document.querySelector("#log-in-button")?.textContent !== ""'), 10);
  await browser.run(
    `document.querySelector('[name=login]').value = arguments[0]; document.querySelector('[name=password]').value = arguments[1]`,
    login, password);
  await browser.click('#log-in-button');
  return until(async () => await where(browser) === wanted, 10);
}

const told = (browser, words) => until(async () => (await browser.text('#told')).includes(words), 15);

export async function office(see, browser, desk, front, pictures) {
  const begun = Date.now();
  see('who administers comes to the page of the office', await logIn(browser, front, MANAGER, 'secret', '/board/office/'),
    await where(browser));
  await until(() => browser.run('return document.querySelectorAll("#rows tbody tr").length > 5'), 15);
  const {login, password} = await newAgent(see, browser, desk, pictures);
  await takesACall(see, desk, front, login, password, begun);
  await others(see, browser, desk, front);
  await own(see, browser, front, login, password);
  await ends(see, browser, front, login);
  await byCsv(see, browser, desk);
  await looks(see, browser, front, pictures);
  await journal(see, desk, front, password);
  const said = (await browser.said()).filter(line => !/ 40[0139] /.test(line));
  see('the console is empty', !said.length, said[0]);
}

async function newAgent(see, browser, desk, pictures) {
  await fill(browser, 'person', {name: 'Jürgen Müller', number: '12'});
  const login = await browser.run('return document.querySelector("#person [name=login]").value');
  const password = await browser.run('return document.querySelector("#person [name=password]").value');
  see('a login is proposed', login === 'juergen', login);
  await browser.click('#person [value="110"]');
  await browser.picture(join(pictures, 'office-new.png'));
  // the second click of two asks for nothing more
  await browser.run('const button = document.querySelector("#person button.main"); button.click(); button.click();');
  see('it is said', Boolean(await told(browser, 'juergen')), await browser.text('#told'));
  see('login and first password are shown once',
    await browser.text('#given-login') === login && await browser.text('#given-password') === password, await browser.text('#given'));
  await browser.picture(join(pictures, 'office-given.png'));
  see('the desk knows the ASCII spelling',
    (await desk.get('/snapshot')).agents.some(one => one.agent === '12' && one.name === 'Juergen Mueller'));
  see('the page shows the name', (await browser.text('#rows [data-key="agent 12"]')).includes('Jürgen Müller'),
    await browser.text('#rows [data-key="agent 12"]'));
  see('the next number is another',
    await until(async () => await browser.run('return document.querySelector("#person [name=number]").value') === '13', 5));
  see('and the login',
    /juergenagent.*Jürgen Müller.*12.*Claims.*first password/.test(
      (await browser.text('#logins [data-key=juergen]')).replace(/[\u2068\u2069]/g, '')), await browser.text('#logins [data-key=juergen]'));
  const requests = (await desk.get('/requests?after=0')).requests.filter(one =>
    one.request.service === 'addAgent' && one.request.agent === '12');
  see('two clicks asked once', requests.length === 1 && requests[0].request.requester.startsWith(`${MANAGER}-`), JSON.stringify(requests));
  return {login, password};
}

/** The new agent, in another browser: logs in, is asked for another password, logs on and answers a call. */
async function takesACall(see, desk, front, login, password, begun) {
  const browser = await Browser.start(1366, 768);
  try {
    see('the agent comes to the own page', await logIn(browser, front, login, password, '/board/agent/'), await where(browser));
    see('by the name in its script', Boolean(await until(async () => /Jürgen Müller/.test(await browser.text('#name')), 10)),
      await browser.text('#name'));
    see('and is asked for another password',
      Boolean(await until(() => browser.run('return document.querySelector("#password")?.open'), 10)));
    await browser.run('[...document.querySelectorAll("#password button")].at(-1).click()');
    await until(() => browser.run('return window.agent?.mine()?.live'), 15);
    see('only the own groups are offered',
      await browser.run('return [...document.querySelectorAll("#groups input")].map(box => box.value).join()') === '110');
    await browser.run('document.querySelector("[name=station]").value = "207"; document.querySelector("#groups input").click()');
    await browser.click('#log-on-button:enabled');
    await until(() =>
      browser.run('return document.querySelector("#states [data-requested=ready]:not([aria-disabled])")?.checkVisibility()'), 10);
    await sleep(450);
    await browser.click('#states [data-requested=ready]');
    await until(async () => (await desk.get('/agents/12')).state === 'ready', 10);
    await desk.post({requester: 'pbx', invoke: 1, service: 'arriveCall', caller: '0301234', called: '110'});
    await until(() => browser.run('return document.querySelector("#calls [data-service=answerCall]")?.checkVisibility()'), 10);
    await sleep(450);
    await browser.click('#calls [data-service=answerCall]');
    const talks = await until(async () => (await desk.get('/agents/12')).state === 'busy', 10);
    see('the agent talks within five minutes of the first click', Boolean(talks) && Date.now() - begun < WITHIN,
      (Date.now() - begun) / 1000);
    console.log(`    from the manager's log-in to the agent's first call: ${((Date.now() - begun) / 1000).toFixed(0)} s`);
    const named = await front.ask('sup', '/snapshot');
    see('the desk itself has no umlaut', named.status === 200 && !/ü/.test(named.text));
  } finally { await browser.end(); }
}

/** A lead and a supervisor; what is refused. */
async function others(see, browser, desk, front) {
  for (const [role, name, group, may] of [['lead', 'Lena Lang', '100', 200], ['supervisor', 'Søren Ø', '', 200]]) {
    await fill(browser, 'person', {role});
    await fill(browser, 'person', {name});
    const password = await browser.run('return document.querySelector("#person [name=password]").value');
    const login = await browser.run('return document.querySelector("#person [name=login]").value');
    if (group) await browser.click(`#person [value="${group}"]`);
    await browser.click('#person button.main');
    see(`the login of a ${role} is given`, Boolean(await told(browser, login)), await browser.text('#told'));
    const asked = await front.ask(login, '/who', undefined, '-u', `${login}:${password}`);
    see(`a ${role} is one`, asked.status === may && asked.text.includes(`"role":"${role}"`), asked.text);
  }
  await fill(browser, 'person', {role: 'supervisor'});
  for (const [login, words] of [['pbx', "belongs to the machine's files"], ['lena', 'there is such a login already']]) {
    await fill(browser, 'person', {name: 'X', login});
    await browser.click('#person button.main');
    see(`no login ${login}`, Boolean(await told(browser, words)), await browser.text('#told'));
  }
  await browser.run('document.querySelector("#person").reset()');
}

/** Everybody's own password, and that other sessions end by it. */
async function own(see, browser, front, login, password) {
  const [one, other] = [await Browser.start(1366, 768), await Browser.start(1366, 768)];
  try {
    for (const each of [one, other]) await logIn(each, front, login, password, '/board/agent/');
    await until(() => one.run('return document.querySelector("#password")?.open'), 10);
    const change = async (old, given, again = given) => {
      await one.run(`const fields = document.querySelector('#password form').elements;
        [fields.old.value, fields.new.value, fields.again.value] = arguments;`, old, given, again);
      await one.click('#password button.main');
    };
    const says = words => until(async () => (await one.text('#password-told'))?.includes(words), 10);
    await change('something else', OWN);
    see('a wrong password of now is told', Boolean(await says('the password of now is wrong')), await one.text('#password-told'));
    await change(password, OWN, 'another one');
    see('two that differ are told', Boolean(await says('The two new ones differ.')), await one.text('#password-told'));
    await change(password, OWN);
    see('it is changed', Boolean(await says('✓')), await one.text('#password-told'));
    see('the other page is at the log-in', Boolean(await until(async () => (await where(other)) === '/board/login/', 20)),
      await where(other));
    await sleep(2000);
    see('the page itself goes on',
      await where(one) === '/board/agent/' && await until(() => one.run('return window.agent?.mine()?.live'), 10), await where(one));
    see('the new one counts', (await front.ask(login, '/who', undefined, '-u', `${login}:${OWN}`)).status === 200);
    see('and the old one no more', (await front.ask(login, '/who', undefined, '-u', `${login}:${password}`)).status === 401);
  } finally { await one.end(); await other.end(); }
}

/** A login that ends: the page that is open goes to the log-in. */
async function ends(see, browser, front, login) {
  const page = await Browser.start(1366, 768);
  try {
    await logIn(page, front, login, OWN, '/board/agent/');
    await until(() => page.run('return window.agent?.mine()?.live'), 15);
    see('nobody is asked for another password twice', !await page.run('return document.querySelector("#password").open'));
    await browser.click(`#logins [data-key=${login}] [data-act=end]`);
    await until(() => browser.run('return document.querySelector("#act").open'), 5);
    await browser.click('#act [value=yes]');
    see('it is said that it ended', Boolean(await told(browser, 'ended the login')), await browser.text('#told'));
    see('the page is at the log-in', Boolean(await until(async () => (await where(page)) === '/board/login/', 20)), await where(page));
    see('nobody gets in by it', (await front.ask(login, '/who', undefined, '-u', `${login}:${OWN}`)).status === 401);
  } finally { await page.end(); }
}

async function byCsv(see, browser, desk) {
  const file = join(await mkdtemp(join(tmpdir(), 'office-csv-')), 'plan.csv');
  const choose = async text => {
    await writeFile(file, text);
    await browser.ask('POST', `/element/${await browser.find('#csv-file')}/value`, {text: file});
  };
  await choose('kind;number;name;ring;wrap\nagent;13;;;\n');
  see('a faulty line is named',
    Boolean(await until(async () => /line 2: a group and an agent have a name/.test(await browser.text('#csv')), 10)),
    await browser.text('#csv'));
  await choose(
    'kind;number;name;ring;wrap\ngroup;140;Störung;15;45\nstation;0210;;;\nagent;13;Zoë Núñez;;\nagent;14;Иван;;\nagent;7;Ana Adler;;\n');
  see('what it would change', Boolean(await until(async () => /^4 changes/.test(await browser.text('#csv')), 10)),
    await browser.text('#csv'));
  await browser.click('#csv-do');
  see('it is done', Boolean(await told(browser, '4 changes were made')), await browser.text('#told'));
  const {groups, stations, agents} = await desk.get('/snapshot');
  see('the desk has it',
    groups.some(one => one.device === '140' && one.name === 'Stoerung' && one.ring === 15 && one.wrap === 45)
      && stations.some(one => one.device === '0210')
      && agents.some(one => one.agent === '13' && one.name === 'Zoe Nunez')
      && agents.some(one => one.agent === '14' && one.name === '????'),
    JSON.stringify(agents.slice(-2)));
  see('and the page the names',
    /Zoë Núñez/.test(await browser.text('#rows [data-key="agent 13"]')) && /Иван/.test(await browser.text('#rows [data-key="agent 14"]')));
  await choose('kind;number;name;ring;wrap\ngroup;140;Störung;15;45\n');
  see('nothing to change', Boolean(await until(async () => /^0 changes/.test(await browser.text('#csv')), 10)), await browser.text('#csv'));
  await browser.click('#rows [data-key="group 140"] button');
  await fill(browser, 'row', {ring: '25'});
  await browser.click('#row button.main');
  see('a row by the form',
    Boolean(await until(async () => (await desk.get('/snapshot')).groups
      .some(one => one.device === '140' && one.ring === 25 && one.name === 'Stoerung'), 10)));
}

async function looks(see, browser, front, pictures) {
  for (const theme of ['light', 'dark']) {
    await browser.command('Emulation.setEmulatedMedia', {features: [{name: 'prefers-color-scheme', value: theme}]});
    await sleep(300);
    const {texts, least, low, sideways} = await contrast(browser);
    see(`office, ${theme}: contrast of ${texts} texts, least ${least.toFixed(2)}`, texts > 20 && !low.length && !sideways,
      low.slice(0, 3).join('; '));
    await browser.picture(join(pictures, `office-${theme}.png`));
  }
  const unseen = await unreached(browser);
  const silent = await untold(browser, ['heading', 'navigation', 'main', 'status', 'table', 'textbox', 'combobox']);
  see('office: every control by keyboard', !unseen.length, unseen.slice(0, 2).join('; '));
  see('office: nothing without a name', !silent.length, silent.slice(0, 3).join('; '));
  await browser.size(...PHONE);
  await sleep(400);
  see('office: no sideways scrolling on a phone', !(await contrast(browser)).sideways);
  await browser.size(...SCREEN);
  const names = (await front.ask('sup', '/snapshot')).text.match(/"name":"[^"]*"/g).map(one => one.slice(8, -1));
  await brackets(join(front.file, 'share/board'));
  await browser.open(`${front.address}/board/office/?lang=zz`);
  await until(() => browser.run('return document.querySelectorAll("#rows tbody tr").length > 5'), 15);
  const {said, left} = await strange(browser,
    [...names, 'Störung', 'Jürgen Müller', 'Zoë Núñez', 'Иван', 'supervisor', 'lead', 'exchange', 'office', 'agent', 'admin', 'planner',
      'lena', 'soeren', 'juergen', MANAGER, 'pbx', 'sup', 'ana', 'lea']);
  see('office: all words are of the table', said.length > 60 && !left.filter(text => !/\d+:\d\d:\d\d/.test(text)).length,
    left.slice(0, 4).join('; '));
}

/** No password is in what the gate wrote, and the trail has the acts in their order. */
async function journal(see, desk, front, password) {
  const files = await Promise.all(['acts', 'users', 'roles', 'names.json'].map(name => readFile(join(front.file, 'own', name), 'utf8')));
  see('no password is written', files.every(text => !text.includes(password) && !text.includes(OWN)));
  const trail = execFileSync('/usr/bin/python3',
    ['-B', new URL('../../../service/bin/acdctl', import.meta.url).pathname, 'trail', `http://127.0.0.1:${desk.port}`, '--own',
      join(front.file, 'own'), '--requester', MANAGER],
    {encoding: 'utf8', env: {...process.env, PYTHONPATH: new URL('../../../client', import.meta.url).pathname}});
  const does = trail.split('\n')
    .flatMap(line => / (addAgent agent 12|giveName agent 12|giveLogin of juergen|endLogin of juergen)/.exec(line)?.[1] ?? []);
  see('the trail has all of it in its order',
    does.join() === 'addAgent agent 12,giveName agent 12,giveLogin of juergen,endLogin of juergen', trail.slice(-400));
}
