// What a form about a person proposes: a login, a first password, an agent's number. No document.

const LETTERS = 'abcdefghjkmnpqrstuvwxyz23456789', PARTS = 3, OF_PART = 4, LONGEST = 15;
/** @type {Record<string, string>} */
const SPELLED = {ä: 'ae', ö: 'oe', ü: 'ue', ß: 'ss', æ: 'ae', ø: 'oe', œ: 'oe', ł: 'l', đ: 'd', ð: 'd', þ: 'th', ı: 'i'};

// One that nobody guesses, and everybody can read aloud.
export function drawn(random = (/** @type {Uint32Array} */ numbers) => crypto.getRandomValues(numbers)) {
  const signs = [...random(new Uint32Array(PARTS * OF_PART))].map(number => LETTERS[number % LETTERS.length]).join('');
  return signs.match(new RegExp(`.{${OF_PART}}`, 'g'))?.join('-') ?? '';
}

// Small letters and digits of a name, as the desk's keys take them: the first name, and as much of the others as tells it
// from those that are taken.
/** @param {string[]} taken */
export function loginOf(name = '', taken = []) {
  const plain = [...name.normalize('NFC').toLowerCase()].map(sign => SPELLED[sign] ?? sign).join('').normalize('NFKD');
  const [first = '', ...others] = plain.replace(/[^a-z0-9 -]/g, '').split(/[ -]+/).filter(Boolean), rest = others.join('');
  const isFree = (login = '') => !taken.includes(login) && !['clock', 'plan'].includes(login);
  for (let more = 0; first && more <= rest.length; more++) {
    const login = (first + rest.slice(0, more)).slice(0, LONGEST);
    if (isFree(login)) return login;
  }
  for (let more = 2; first && more < 100; more++) {
    const login = `${first.slice(0, LONGEST - 2)}${more}`;
    if (isFree(login)) return login;
  }
  return '';
}

// The one after the greatest.
/** @param {string[]} numbers */
export const nextOf = numbers => `${Math.max(0, ...numbers.map(Number).filter(number => number < 1e9 - 1)) + 1}`;
