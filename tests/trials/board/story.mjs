// A small desk whose days are told call by call: who answers after how long, who gives up after how long.

/** Lines for `acd lines`: groups of one agent each, who take what comes one after the other. Calls are told in the order in which they
 * come. */
export class Story {
  constructor(begin, groups) {
    Object.assign(this, {told: [], calls: 0, groups});
    for (const [device, name] of groups) this.ask(begin, 'addGroup', {device, name, ring: 0, wrap: 0});
    for (const [number, [device]] of groups.entries()) {
      const agent = String(number + 1), station = String(200 + number);
      this.ask(begin, 'addStation', {device: station});
      this.ask(begin, 'addAgent', {agent, name: `Agent ${agent}`});
      this.ask(begin, 'setAgentState', {agent, requested: 'loggedOn', device: station, group: device});
      this.ask(begin, 'setAgentState', {agent, requested: 'ready'});
    }
  }

  ask(moment, service, members) {
    this.told.push([moment, JSON.stringify({requester: `story-${this.told.length}`, invoke: 1, service, ...members})]);
  }

  get lines() { return [...this.told].sort(([one], [other]) => one - other).map(([moment, request]) => `${moment} ${request}`); }

  /** A call that waits so long, and is answered or not, and talks so long. */
  call(moment, number, waits, talks) {
    const [called] = this.groups[number], device = String(200 + number), call = ++this.calls, caller = `030${1000 + call}`;
    this.ask(moment, 'arriveCall', {caller, called});
    if (talks) this.ask(moment + waits, 'answerCall', {call, device});
    this.ask(moment + waits + talks, 'clearConnection', {call, device: caller});
    if (talks) this.ask(moment + waits + talks + 9, 'setAgentState', {agent: String(number + 1), requested: 'ready'});
  }
}
