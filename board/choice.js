// The own groups, chosen by name.
import {order} from './desk.js';
import {byId, make, put, withNumber} from './draw.js';
import {settings, usualGroups} from './settings.js';
import {word} from './words.js';

const PLACE = 'own-groups';

/** @param {string[]} chosen */
function choose(chosen) {
  const field = byId('fields').elements.groups;
  field.value = chosen.join(',') || (usualGroups() ? 'all' : '');
  field.dispatchEvent(new Event('change', {bubbles: true}));
}

/** @param {State} state */
export function drawChoice(state) {
  if (!byId('settings').open) return;
  const all = [...state.groups.values()].sort((one, other) => order(one.id, other.id));
  const chosen = settings.groups.split(',').filter(id => state.groups.has(id));
  /** @type {(id: string, name: string, is: boolean, take: () => void) => Part} */
  const box = (id, name, is, take) => make('label', {'data-key': id},
    make('input', {type: 'checkbox', value: id, 'data-checked': is, onchange: event => { event.stopPropagation(); take(); }}),
    make('span', name));
  put(PLACE, make('legend', {'data-key': 'legend'}, word('set.groups')),
    box('all', word('set.groups.all'), !chosen.length, () => choose([])),
    ...all.map(({id, name}) => box(id, withNumber({id, name}), chosen.includes(id),
      () => choose(chosen.includes(id) ? chosen.filter(one => one !== id) : [...chosen, id].sort(order)))));
  // a box that was clicked goes by what is so, and not by its attribute
  for (const one of byId(PLACE).querySelectorAll('input')) one.checked = one.hasAttribute('data-checked');
}
