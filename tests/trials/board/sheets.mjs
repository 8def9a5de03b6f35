// The tables of the views as files for a spreadsheet, read by Python.
import {sleep, until} from './browser.mjs';
import {reportLines, run} from './desk.mjs';
import {live, VIEWS} from './page.mjs';

/** What the page would save is kept in it, in place of a file. */
export const KEPT = `window.kept = [];
URL.createObjectURL = blob => {
  blob.arrayBuffer().then(bytes => window.kept.push([...new Uint8Array(bytes)]));
  return 'blob:';
};
HTMLAnchorElement.prototype.click = function () { window.named = this.download; };`;
const READ = `
import csv, io, json, sys
given = json.load(sys.stdin)
text = bytes(given["bytes"]).decode("utf-8-sig")
print(json.dumps(list(csv.reader(io.StringIO(text, newline=""), delimiter=given["between"]))))`;

async function sheet(browser, view, between = ',') {
  await browser.run(`location.hash = '${view}'`);
  await sleep(400);
  return sheetOf(browser, between);
}

/** What the open page saves. */
export async function sheetOf(browser, between) {
  await browser.run('window.kept = []; document.querySelector("#csv").click()');
  const bytes = await until(() => browser.run('return window.kept[0]'), 5);
  return {rows: JSON.parse(await run('/usr/bin/python3', ['-c', READ], JSON.stringify({bytes, between}))), begins: bytes.slice(0, 3),
    name: await browser.run('return window.named')};
}

export async function sheets(see, browser, desk, address) {
  await browser.fresh(`${address}?since=0#queues`);
  await live(browser);
  await browser.run(KEPT);
  for (const view of VIEWS) {
    const {rows, begins, name} = await sheet(browser, view);
    see(`${view} as a file`,
      String(begins) === '239,187,191' && new RegExp(`^${view}-[0-9-]+\\.csv$`).test(name) && rows.length > 2
        && rows[1].length === rows[0].length, `${name} ${rows.length}`);
  }
  const {rows: [head, ...rows]} = await sheet(browser, 'queues'), report = reportLines(await desk.get('/reports/queues'));
  const of = name => head.indexOf(name);
  see('numbers beside names', rows.every((row, place) => row[of('Number')] === report[place][0]), String(rows[0]));
  const shares = rows.map((row, place) => [Number(row[of('Lost, %')]), report[place]])
    .filter(([, line]) => Number(line[4]) + Number(line[5]) > 0);
  see('a share is in percent', shares.some(([share]) => share > 1), String(shares[0]));
  const wrong = rows.filter((row, place) =>
    String(['Entered', 'Answered', 'Abandoned', 'Moved'].map(name => row[of(name)])) !== String(report[place].slice(3, 7)));
  see('the file of queues has the report\'s figures', rows.length === report.length && !wrong.length, String(wrong[0]));
  see('times in seconds, shares as numbers',
    rows.every(row => /^\d*(\.\d+)?$/.test(row[of('Speed of answer')]) && /^(\d{1,3}(\.\d{1,2})?)?$/.test(row[of('In time')])),
    String(rows[0]));
  const {field} = await browser.run(
    `return import('./csv.js').then(({field}) => ({field: ['=1+1', '037676944', '@x', 'a,b', 'a"b', '-3', '-', 'plain'].map(field)}))`);
  see('nothing is a formula, and no 0 is lost',
    String(field) === String(["'=1+1", "'037676944", "'@x", '"a,b"', '"a""b"', "'-3", '-', 'plain']), String(field));
  await browser.fresh(`${address}?since=0&lang=de#queues`);
  await live(browser);
  await browser.run(KEPT);
  const german = await sheet(browser, 'queues', ';');
  see('German parts by semicolons, and has commas',
    german.rows.length === rows.length + 1 && german.rows.slice(1).some(row => row.some(cell => /^\d+,\d+$/.test(cell))),
    String(german.rows[1]));
}

/** A call that has just come has its caller at once, though no event tells it. */
export async function callers(see, browser, desk, address) {
  await browser.fresh(`${address}?since=0#calls`);
  await live(browser);
  await sleep(1500);
  const {device} = (await desk.get('/snapshot')).groups[0];
  const {result: {call}} = await desk.post({requester: 'callers', invoke: 1, service: 'arriveCall', caller: '0305556677', called: device});
  const shown = () =>
    browser.run('return [...document.querySelectorAll(arguments[0])].map(cell => cell.textContent)',
      `#calls-table tr[data-key="${call}"] td`);
  see('a new call has its caller within 4 s', Boolean(await until(async () => (await shown()).includes('0305556677'), 4)),
    String(await shown()));
}
