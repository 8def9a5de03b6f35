// What the office's page alone says, in English.
import {addWords} from '../words.js';

addWords(`
[office]
person: A new person
changes: Another role for {login}
role: Role
role.agent: agent
role.lead: lead
role.supervisor: supervisor
name: Name, in any script
number: Number of the agent
number.any: Number
login: Login: small letters, digits, -
login.head: Login
login.of: Login of {who}
password: First password
groups: Groups; if none is ticked, all
groups.lead: Groups of the lead, one at least
stations: Only at these stations, with commas
give: Give the login
change: Change
planned: Agent {who} is planned already. Call this agent {name}?
at: Log in at
told: Write it down or print it: nobody can see the password again.
print: Print
renew: New password
renew.sure: Give {login} a new first password? Who is logged in by it is logged out.
end: End
end.sure: End the login {login}? Who is logged in by it is logged out. The agent stays in the plan.
logins: Logins
here: These logins are this machine's. A standby has none of them, and of three machines each has its own. Logins of the machine's
  files are changed there alone.
of: Agent, groups
state: State
first: first password
roots: of the machine's files
plan: Plan
kind: Kind
kind.group: group
kind.station: station
kind.agent: agent
ring: Ring, s
wrap: After-call work, s
doPlan: Plan it
asPlanned: It is planned so.
csv: A plan as CSV
save: Save as CSV
csv.faulty: The file has faults, and nothing was changed:
csv.line: line {n}: {what}
csv.header: the first line must be kind,number,name,ring,wrap
csv.fields: it must have five fields
csv.kind: the kind must be group, station or agent
csv.number: the number must be of digits, 15 at most, an agent's 9
csv.name: a group and an agent have a name, of 80 signs at most, and a station has none
csv.ring: a group has a ring, from 0 to 3600 seconds, and nothing else has one
csv.wrap: a group has after-call work, from 0 to 3600 seconds, and nothing else has it
csv.twice: the number is there twice
csv.crossed: These are of another kind in the plan, and are left as they are:
csv.changes.one: {n} change
csv.changes.other: {n} changes
csv.beyond: The plan has these besides. They stay:
csv.at: {n} of {all}
csv.done.one: {n} change was made
csv.done.other: {n} changes were made
csv.refused.one: {n} change was refused
csv.refused.other: {n} changes were refused
acts: What was done last
when: When
who: Who
what: What
did.giveLogin: gave the login {of}
did.changeRole: gave {of} another role
did.givePassword: gave {of} a new first password
did.changePassword: changed the own password
did.endLogin: ended the login {of}
did.giveName: called {of} {name}
did.takeName: took the name in another script from {of}
did.notDone: number {number} was not done: it could not be written
old: nginx does not pass this page's questions on: the machine's administrator has to take the nginx.conf of this version.
`);
