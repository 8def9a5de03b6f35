// A table as a file for a spreadsheet.
import {language} from './words.js';

// if a number has a comma, a spreadsheet parts its fields by semicolons
const comma = new Intl.NumberFormat(language).format(0.5).includes(','), BETWEEN = comma ? ';' : ',', LIVES = 10000;

// What a spreadsheet would take for a formula, or for a number without its first 0, gets a quote.
/** @param {string|number} value */
export function field(value) {
  if (typeof value === 'number') return comma ? `${value}`.replace('.', ',') : `${value}`;
  const text = /^([=+\-@\t\r].|0\d+$)/.test(value) ? `'${value}` : value;
  return /["\n;,]/.test(text) ? `"${text.replaceAll('"', '""')}"` : text;
}

/** @param {(string|number)[][]} rows */
export function save(name = '', rows) {
  // a spreadsheet knows by the first sign that it is UTF-8
  const text = `\ufeff${rows.map(row => row.map(field).join(BETWEEN)).join('\r\n')}\r\n`;
  const address = URL.createObjectURL(new Blob([text], {type: 'text/csv'})), link = document.createElement('a');
  Object.assign(link, {href: address, download: name});
  link.click();
  setTimeout(() => URL.revokeObjectURL(address), LIVES);
}
