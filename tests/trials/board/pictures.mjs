// The pictures of the pages' docs, out of what tests/trials/show-board shows.
import {writeFile} from 'node:fs/promises';
import {join} from 'node:path';
import {Browser, sleep, until} from './browser.mjs';
import {after, laid} from './kept_days.mjs';
import {live} from './page.mjs';

// of a screen of 1280 by 720, so small that a page of text can have it
const SIZE = {width: 1280, height: 720, deviceScaleFactor: 0.625, mobile: false}, WAITS = 9000;
const AGENT = '1', GROUP = {device: '190', name: 'Returns', ring: 60, wrap: 30};

/** Two months of records, of the desk's own groups and agents. */
export async function records(folder, desk) {
  const {groups, agents} = await desk.get('/snapshot'), yesterday = after(new Date().toISOString().slice(0, 10), -1);
  await laid(folder, yesterday, 60, groups.map(({device, name}) => [device, name]), agents.map(({agent, name}) => [agent, name]));
}

/** A caller who has waited rings at the agent. */
async function rings(desk) {
  let invoke = 0;
  const ask = (service, members) => desk.post({requester: 'pictures', invoke: ++invoke, service, ...members});
  const {agents, calls, stations} = await desk.get('/snapshot'), {device: station} = agents.find(one => one.agent === AGENT);
  for (const {call, connections} of calls) {
    if (connections.some(one => one.device === station)) await ask('clearConnection', {call, device: station});
  }
  const device = station ?? stations.find(one => !agents.some(({device}) => device === one.device)).device;
  await ask('addGroup', GROUP);
  for (const requested of ['loggedOff', 'loggedOn']) {
    await ask('setAgentState', {agent: AGENT, requested, ...requested === 'loggedOn' && {device, group: GROUP.device}});
  }
  await ask('arriveCall', {caller: '0301234567', called: GROUP.device});
  await sleep(WAITS);
  await ask('setAgentState', {agent: AGENT, requested: 'ready'});
}

export async function pictures(front, desk, folks, folder) {
  const browser = await Browser.start(SIZE.width, SIZE.height), keep = name => browser.picture(join(folder, `${name}.png`));
  try {
    await browser.command('Emulation.setDeviceMetricsOverride', SIZE);
    for (const view of ['wall', 'queues', 'agents', 'day']) {
      await browser.fresh(front.page('sup', `/board/?theme=light&since=0&goal=30&lost=40#${view}`));
      await live(browser);
      await sleep(2500);
      await keep(`board-${view}`);
    }
    const yesterday = after(new Date().toISOString().slice(0, 10), -1);
    await browser.fresh(front.page('planner', `/board/records/?theme=light&period=month&by=weekday&day=${after(yesterday, -20)}`));
    await until(() => browser.run('return window.records?.sum()?.all.days'), 20);
    await sleep(500);
    await keep('board-records');
    folks.stop();
    await writeFile(join(front.file, 'board.json'), '{"customer":{"address":"https://crm.example/find?tel={caller}"}}');
    await rings(desk);
    await browser.fresh(front.page('ana', '/board/agent/?theme=light'));
    await until(() => browser.run('return document.body.hasAttribute("data-rings")'), 20);
    await sleep(1000);
    await keep('board-agent');
  } finally { await browser.end(); }
}
