// That all words of the board come from its table: with one whose values are `[key]`, whatever is said is in brackets or comes from the
// desk; and that German is whole.
import {readFile, writeFile} from 'node:fs/promises';
import {join} from 'node:path';
import {sleep, until} from './browser.mjs';
import {VIEWS} from './page.mjs';

/** The English words, which are lines below their areas; several forms of one are an object. */
function ofLines(text) {
  const table = {};
  let area = '';
  for (const line of text.split('\n')) {
    const [, into, name, said] = /^\[(.*)\]$|^(.*?): (.*)$/.exec(line) ?? [];
    if (into) area = `${into}.`;
    if (name) table[area + name] = said;
  }
  for (const key of Object.keys(table)) if (key.endsWith('.other')) {
    const word = key.slice(0, -'.other'.length), forms = Object.keys(table).filter(one => one.startsWith(`${word}.`));
    table[word] = Object.fromEntries(forms.map(one => [one.slice(word.length + 1), table[one]]));
    for (const one of forms) delete table[one];
  }
  return table;
}

/** A table of words by their keys; the module itself wants a browser. */
export async function tableOf(file) {
  const whole = await readFile(file, 'utf8'), [, english] = whole.match(/(?:keyed|addWords)\(`([^]*?)`\)/) ?? [];
  if (english) return ofLines(english);
  const [, text] = whole.match(/export default \{([^]*?)\n\};/), areas = Object.entries(new Function(`return {${text}}`)());
  return Object.fromEntries(
    areas.flatMap(([area, said]) =>
      typeof said === 'string' || said.other ? [[area, said]] : Object.entries(said).map(([name, one]) => [`${area}.${name}`, one])));
}

/** Whatever a person is told by the page: texts, titles, labels, choices. */
const SAID = `
  const walk = document.createTreeWalker(document.documentElement, NodeFilter.SHOW_TEXT), said = [];
  while (walk.nextNode()) if (!walk.currentNode.parentElement.closest('script, style, noscript')) said.push(walk.currentNode.textContent);
  for (const element of document.querySelectorAll('*')) {
    for (const name of ['title', 'aria-label', 'placeholder', 'alt']) if (element.hasAttribute(name)) said.push(element.getAttribute(name));
  }
  return [document.title, ...said].filter(text => text.trim());`;

/** All English words: the pages' together, and what one page alone says. */
async function allOf(board) {
  return Object.assign({},
    ...await Promise.all(['words.js', 'office/words.js', 'records/words.js'].map(file => tableOf(join(board, file)))));
}

/** A language of whose words each is its key in brackets, which a board takes by lang=zz; the keys. */
export async function brackets(board) {
  const keys = Object.keys(await allOf(board));
  await writeFile(join(board, 'words/zz.js'), `export default {${keys.map(key => `'${key}': '[${key}]'`)}};`);
  return keys;
}

/** What a page says that is neither in brackets nor told by the desk. */
export async function strange(browser, names) {
  const said = await browser.run(SAID);
  return {said, left: said.filter(text => /\p{L}/u.test(rest(text, names)))};
}

export async function words(see, browser, board, page, names) {
  const keys = await brackets(board);
  // before this browser knows a password, which would lead it on
  await logIn(see, browser, new URL(page('')).origin);
  for (const view of VIEWS) {
    await browser.open(page(`/board/?lang=zz&since=0&tone=1#${view}`));
    await until(() => browser.run('return window.board?.counted()'), 30);
    await browser.run('for (const details of document.querySelectorAll("details")) details.open = true');
    await sleep(1200);
    const {said, left} = await strange(browser, names);
    see(`${view}: all words are of the table`, said.length > 60 && !left.length, left.slice(0, 4).join('; '));
  }
  const german = Object.keys(await tableOf(join(board, 'words/de.js')));
  see('German has each key, and no other', String([...german].sort()) === String([...keys].sort()),
    keys.filter(key => !german.includes(key)).concat(german.filter(key => !keys.includes(key))).slice(0, 4));
  await inGerman(see, browser, page);
}

/** The page of log-in, and what it says of a wrong password. */
async function logIn(see, browser, address) {
  await browser.open(`${address}/board/login/?lang=zz`);
  await until(() => browser.run('return document.title === "[login.title]"'), 10);
  await browser.run(`for (const name of ['login', 'password']) document.querySelector('[name=' + name + ']').value = 'guess'`);
  await browser.click('button');
  await until(() => browser.text('#told'), 10);
  const {said, left} = await strange(browser, []);
  see('the page of log-in: all words are of the table', said.includes('[login.wrong]') && !left.length, left.join('; ') || String(said));
  await logInGerman(see, browser, address);
}

/** Without a session a page speaks as the last one of this browser did. */
async function logInGerman(see, browser, address) {
  await browser.run('localStorage["acd-language"] = "de"');
  await browser.open(`${address}/board/login/`);
  see('the page of log-in speaks as the office does',
    Boolean(await until(() => browser.run('return document.title === "Anmelden" && document.documentElement.lang === "de"'), 10)),
    await browser.run('return document.title'));
  await browser.run('delete localStorage["acd-language"]');
}

/** What is left of a text without what is in brackets, what the desk tells, and names of languages and zones. */
function rest(text, names) {
  let left = text.replace(/\[[\w.]+\]/g, '').replace(/^(English|Deutsch)$/, '').replace(/\b(UTC|GMT[+-]?\d*|CES?T|[AP]M)\b/g, '');
  for (const name of names) left = left.replaceAll(name, '');
  return left;
}

/** German says numbers, plurals and times as German does. */
async function inGerman(see, browser, page) {
  await browser.open(page('/board/?lang=de&since=0#wall'));
  await until(() => browser.run('return window.board?.counted()'), 30);
  await sleep(600);
  const [lang, title, heads, level] = await browser.run(`return [document.documentElement.lang, document.title,
    [...document.querySelectorAll("#wall-table th[scope=col]")].map(head => head.textContent),
    document.querySelector("#totals div:nth-child(4) b").textContent]`);
  see('the wall in German', lang === 'de' && title.endsWith('Hotline: Wand') && heads.includes('Rechtzeitig') && /^\d+\s%$/.test(level),
    JSON.stringify([lang, title, heads, level]));
  const said = await browser.run(SAID);
  const english = said.filter(text => /\b(the|Waiting|Abandoned|Settings|Longest|empty|seen|since)\b/.test(text));
  see('and nothing English', !english.length, english.slice(0, 3).join('; '));
}
