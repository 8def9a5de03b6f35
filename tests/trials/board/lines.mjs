// What the pages make of the lines that a gate tells, without a browser: figures beside those of another program, calls and names beside
// the desk's.
import {reckoned} from './page.mjs';

const FIGURES = ['entered', 'answered', 'abandoned', 'moved', 'waited', 'within', 'late', 'longest', 'handled', 'handling', 'answeredStay',
  'abandonedStay', 'withinStay', 'lateStay'];
const OF_AGENT = {calls: 'calls', missed: 'missed', talk: 'talk', afterCall: 'work', ready: 'ready', notReady: 'notReady'};

/** Takes the events of a stream, the picture first, until it has what is wanted. */
async function follow(front, path, take) {
  const leaving = new AbortController();
  const {body} = await fetch(`http://127.0.0.1:${front.gate}${path}`, {headers: {'x-login': 'sup'}, signal: leaving.signal});
  let text = '';
  for await (const part of body.pipeThrough(new TextDecoderStream())) {
    const events = (text + part).split('\n\n');
    text = events.pop();
    for (const event of events) {
      const [kind, data] = [/^event: (\w+)/.exec(event)[1], /^data: (.*)$/m.exec(event)[1]];
      if (take(JSON.parse(data), kind === 'picture')) return leaving.abort();
    }
  }
}

/** The figures of chosen groups from the middle of the day on, all calls, the last events; and what an agent's page knows behind two
 * events. */
export async function lines(see, {State, Day, taken}, desk, front) {
  const events = await desk.events(0), begin = Math.round((events[0].moment + events[events.length - 1].moment) / 2);
  const groups = ['100', '103'], state = new State(), day = new Day(begin, group => groups.includes(group));
  await follow(front, `/stream?begin=${begin}&limit=7&groups=${groups}&show=day,events`, (told, isWhole) => {
    state.take(told, isWhole);
    day.take(told, isWhole);
    return day.share === 1 && state.events.length;
  });
  const end = Math.floor(Date.now() / 1000);
  const wanted = await reckoned(desk, '--begin', begin, '--end', end, '--limit', 7, '--groups', groups);
  const snapshot = await desk.get('/snapshot'), wrong = [];
  let compared = 0;
  const same = (what, has, other) => {
    compared++;
    if (JSON.stringify(has) !== JSON.stringify(other)) wrong.push(`${what}: ${JSON.stringify(has)} and not ${JSON.stringify(other)}`);
  };
  const line = group => group === 'all' ? day.all : day.line(group), figures = (of = {}) => FIGURES.map(name => of[name] ?? 0);
  for (const [id, of] of Object.entries(wanted.agents)) {
    same(`agent ${id}`, Object.keys(OF_AGENT).map(name => day.agent(id, end)[name]), Object.values(OF_AGENT).map(name => of[name] ?? 0));
  }
  for (const [group, of] of Object.entries(wanted.groups)) same(`group ${group}`, figures(line(group).sum), figures(of));
  for (const [key, of] of Object.entries(wanted.quarters)) {
    same(`quarter ${key}`, figures(line(key.split(' ')[0]).steps.get(key.split(' ')[1] / 900)), figures(of));
  }
  for (const {call, since, caller} of snapshot.calls) {
    same(`call ${call}`, [state.calls.get(`${call}`)?.begun, state.calls.get(`${call}`)?.caller], [since, caller]);
  }
  for (const {agent, name, device} of snapshot.agents) {
    same(`agent ${agent}`, [state.agent(agent).name, state.agent(agent).station, device && state.agentAt(device)?.id],
      [name, device ?? null, device && agent]);
  }
  same('the last event', [state.events[state.events.length - 1].number, state.last], [snapshot.last, snapshot.last]);
  see(`what the board makes of ${compared} lines`, compared > 100 && !wrong.length, wrong.slice(0, 3).join('; '));
  let mine;
  await follow(front, '/stream?agent=1', (told, isWhole) => { mine = taken(mine, told, isWhole); return true; });
  const {agents, groups: plan, stations} = snapshot, seat = ({agent, name, device}) => `${agent} ${name} ${device ?? ''}`;
  see("names on an agent's page",
    String(mine.names.agents.map(seat).sort()) === String(agents.map(seat).sort()) && mine.names.groups.length === plan.length
      && mine.names.stations.length === stations.length, JSON.stringify(mine.names).slice(0, 200));
  const other = taken(mine, {queues: ['7'], groups: {7: {device: '7'}}, live: false}, false);
  const again = taken(other, {agent: mine.agent, calls: [], queues: [], groups: {}, live: true}, true);
  see('a change goes over what is there, and a picture keeps names alone',
    JSON.stringify([other.groups, other.live, other.names === mine.names, again.groups, again.names === mine.names])
      === '[[{"device":"7"}],false,true,[],true]', JSON.stringify(other.groups));
}
