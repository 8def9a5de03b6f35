// What the page of records alone says, in English.
import {addWords} from '../words.js';

addWords(`
[records]
kind: Of
kind.groups: groups
kind.agents: agents
of: Which
all: Together
all.groups: all groups
all.agents: all agents
period: Period
period.day: a day
period.week: a week
period.month: a month
period.own: from .. to
by: A line for each
by.each: group or agent
by.day: day
by.week: week
by.month: month
by.weekday: day of the week
by.hour: hour
by.weekday-hour: hour and day of the week
figure: Figure
figure.entered: Entered
figure.answered: Answered
figure.abandoned: Abandoned
figure.lost: Lost
figure.level: In time
figure.average_wait: Speed of answer
within: Day in it
since: From
until: To
before: The period before
after: The next period
week: {n}, from {day}
missing.one: {n} day has no records: {days}
missing.other: {n} days have no records: {days}
others.one: {n} day was counted by other formulas, and isn't in the sums: {days}
others.other: {n} days were counted by other formulas, and aren't in the sums: {days}
unread.one: {n} day can't be read, and isn't in the sums: {days}
unread.other: {n} days can't be read, and aren't in the sums: {days}
none: There are no records of these days.
reading: Reading ..
file.records: The calls, as a file
file.agents: The agents' day, as a file
file.groups: The groups' quarters of an hour, as a file
old: by other formulas
counted: How many waited at most is known of a single group alone. An hour or a weekday has the sums of all its days, and their number.
chart.calls: Calls
chart.hours: Hours of talk, after-call work and readiness
`);
