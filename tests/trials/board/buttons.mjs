// Whether the buttons of an agent's page are enabled exactly where the desk grants what they ask for.
const SERVICES = ['answerCall', 'rejectCall', 'phoneOffHook', 'holdCall', 'retrieveCall', 'singleStepTransfer', 'deflectCall',
  'clearConnection'];
const STATES = ['loggedOn', 'ready', 'notReady', 'workingAfterCall', 'loggedOff'];
const MOVES = ['singleStepTransfer', 'deflectCall'];

/** What the gate would tell of the calls at a station, out of a snapshot. */
const mineAt = (snapshot, device) =>
  ({agent: snapshot.agents.find(agent => agent.device === device) ?? {device},
    calls: snapshot.calls.filter(call => call.connections.some(one => one.device === device)),
  names: {stations: snapshot.stations.map(station => station.device)}});

const NAMES = {
  agents: [{agent: '7', device: '207', name: 'Ana'}, {agent: '8', device: '208', name: 'Ben Berg'}, {agent: '9', name: 'Cem'},
    {agent: '10', device: '210', name: 'Berger'}, {agent: '11', device: '211', name: 'Ben'}],
  groups: [{device: '100', name: 'Billing'}], stations: ['207', '208', '209', '210', '211']};
const OFFICE = {agents: {10: 'Bärbel Berger'}, groups: {}, stations: {209: 'Empfang'}};
/** What is typed at station 207, and the places that are meant; null for somebody who isn't logged on. */
const MEANT = {100: ['100'], 209: ['209'], 999: ['999'], 207: ['207'], 'berg': ['208', '210'], 'BEN berg': ['208'], 'ben': ['211'],
  'BÄRBEL': ['210'], ' billing ': ['100'], 'empf': ['209'], 'cem': null, 'ana': [], 'nobody': [], '': [], ' ': []};

/** The typed texts that are taken otherwise. */
function misunderstood({meant, placesOf}) {
  const known = placesOf(NAMES, OFFICE), isEmpty = ['208', '209', '999'].map(text => Boolean(meant(text, known, '207')[0].isEmpty));
  return [...Object.entries(MEANT)
    .filter(([text, wanted]) => String(meant(text, known, '207')?.map(({to}) => to) ?? null) !== String(wanted))
    .map(([text]) => `'${text}' is misunderstood`),
    ...(String(isEmpty) === 'false,true,false' ? [] : [`where nobody is logged on: ${isEmpty}`])];
}

/** Asks a desk in work for what is disabled, which has to be refused, and each time for one thing that is enabled, which has to be
 * granted. */
export async function buttons({services, states, isFree, ...places}, desk, rounds) {
  const counts = {refused: 0, granted: 0}, wrong = misunderstood(places);
  let invoke = 0;
  const ask = async (enabled, service, members) => {
    const {status, error} = await desk.post({requester: 'try-buttons', invoke: ++invoke, service, ...members});
    counts[status === 200 ? 'granted' : 'refused']++;
    if ((status === 200) !== enabled) {
      const is = enabled ? 'enabled' : 'disabled';
      wrong.push(`${service} ${JSON.stringify(members)} is ${is}, and answered ${status} ${error?.name ?? ''}`);
    }
  };
  for (let round = 0; round < rounds; round++) {
    const snapshot = await desk.get('/snapshot'), enabled = [];
    const pick = (list, number) =>
      list.filter((_, place) => (place + round) % Math.max(1, Math.floor(list.length / number)) === 0).slice(0, number);
    const ends = snapshot.stations.flatMap(({device, connections}) =>
      connections.map(one => [snapshot.calls.find(call => call.call === one.call), device]));
    for (const [call, device] of pick(ends, 8)) {
      const mine = mineAt(snapshot, device), may = services(mine, call);
      const to = snapshot.groups.find(group => !call.connections.some(one => one.device === group.device)).device;
      const isOutside = !snapshot.stations.some(station => station.device === call.caller);
      const throwsOut = call.connections.some(one => one.device === device && one.state === 'alerting' && (one.group || isOutside));
      for (const service of SERVICES) {
        const members = {call: call.call, device, ...(MOVES.includes(service) ? {to} : {})};
        if (may.has(service)) enabled.push([service, members]);
        // the desk grants it; the page doesn't ask for it, since it throws a caller out
        else if (service !== 'clearConnection' || !throwsOut) await ask(false, service, members);
        else if (may.has('clearConnection')) wrong.push(`Hang up beside Answer at call ${call.call}`);
      }
      const called = snapshot.stations.find(one => one.device !== device).device;
      if (isFree(mine)) enabled.push(['makeCall', {device, called}]); else await ask(false, 'makeCall', {device, called});
    }
    for (const agent of pick(snapshot.agents, 6)) {
      const may = states(mineAt({...snapshot, agents: [agent]}, agent.device));
      const free = snapshot.stations.find(station => !station.agent)?.device;
      for (const requested of STATES) {
        const members = {agent: agent.agent, requested,
          ...(requested === 'loggedOn' ? {device: free, group: snapshot.groups[0].device} : {})};
        if (may.has(requested)) { if (requested !== 'loggedOn' || free) enabled.push(['setAgentState', members]); }
        // what is so already is granted too, and changes nothing: its button is of no use
        else if (agent.state === 'null' || requested === 'loggedOn') await ask(false, 'setAgentState', members);
      }
    }
    const one = enabled[round * 7 % enabled.length];
    if (one) await ask(true, ...one);
  }
  return {...counts, wrong};
}
