// A chart of steps, one after the other: bars, one on the other, and lines.
import {byId, make} from './draw.js';
import {number, word} from './words.js';

// HALF: from which width on two are beside one another, as the style has them; WIDE: what the words below a step take
const HEIGHT = 220, LEFT = 44, BELOW = 24, ABOVE = 12, GAP = 24, HALF = 2 * 640 + GAP, USUAL = 900;
export const WIDE = 46;

// The first round number of steps between two lines across, of which there are five at most.
const ticksOf = (most = 0) => {
  const unit = 10 ** Math.floor(Math.log10(most));
  return [0.2, 0.5, 1].map(part => part * unit).find(part => most / part <= 5) ?? 2 * unit;
};

// A series is shown so many times its values; `under` says what is written below a step, `called` what it is called.
/** @type {Chart} */
export const chart = ({under, called, isMiddle}, steps, title, series, times = 1, top, goal) => {
  /** @type {Shows} */
  const shows = ({value}, step) => { const is = value(step); return is && times * is; };
  const room = byId('charts').clientWidth || USUAL, width = room >= HALF ? (room - GAP) / 2 : room;
  const each = (width - LEFT - 8) / steps.length, x = (place = 0) => LEFT + place * each, bars = series.filter(one => !one.isLine);
  const values = steps.flatMap(step => {
    const shown = series.map(one => shows(one, step) ?? 0);
    return [bars.reduce((sum, one) => sum + (shows(one, step) ?? 0), 0), ...shown];
  });
  const most = top ?? Math.max(5, ...values), tick = ticksOf(most), high = top ?? Math.ceil(most / tick) * tick;
  const y = (value = 0) => HEIGHT - BELOW - (HEIGHT - BELOW - ABOVE) * value / high;
  const rounded = (value = 0) => number(Math.round(100 * value) / 100);
  const across = (look = '', value = 0) => make(`line.${look}`, {x1: LEFT, x2: width - 8, y1: y(value), y2: y(value)});
  const ticks = Array.from({length: Math.floor(high / tick + 1e-9) + 1}, (_, place) => place * tick), below = under(each);
  return make('figure', make('figcaption', title), make('svg', {viewBox: `0 0 ${width} ${HEIGHT}`, role: 'img', 'aria-label': title},
    ...ticks.flatMap(value => [across('grid', value), make('text', {x: LEFT - 8, y: y(value) + 4, 'text-anchor': 'end'}, rounded(value))]),
    ...steps.map((step, place) => {
      const text = below(step, place);
      return text && make('text', {x: x(isMiddle ? place + 0.5 : place), y: HEIGHT - 6, 'text-anchor': 'middle'}, text);
    }),
    ...steps.flatMap((step, place) => {
      let below = 0;
      return bars.map(one => {
        const value = shows(one, step) ?? 0, bottom = y(below), look = one.look + (step.running ? ' running' : '');
        below += value;
        const wide = {x: x(place) + 1, width: Math.max(1, each - 2)};
        return value > 0 && make('rect', {class: look, ...wide, y: y(below), height: bottom - y(below)});
      });
    }),
    ...series.map(one => one.isLine && make(`path.${one.look}`, {d: steps.map((step, place) => {
      const value = shows(one, step), goesOn = place > 0 && shows(one, steps[place - 1]) !== null;
      return value === null ? '' : `${goesOn ? 'L' : 'M'}${x(place + 0.5).toFixed(1)} ${y(value).toFixed(1)}`;
    }).join('')})),
    // values under the pointer
    ...steps.map((step, place) => make('rect.area', {x: x(place), width: each, y: ABOVE, height: HEIGHT - ABOVE - BELOW},
      make('title', [called(step), ...series.flatMap(one => {
        const value = shows(one, step);
        return value === null ? [] : `${one.name} ${rounded(value)}`;
      })].join('\n')))),
    ...goal === undefined ? [] : [across('goal', goal), make('text.halo', {x: LEFT + 6, y: y(goal) - 5}, word('tile.goal', {goal}))]),
  make('ul.key', ...series.map(({name, look, isLine}) => make('li', {class: look + (isLine ? ' line' : '')}, name))));
};
