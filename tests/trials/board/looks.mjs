// What can be said of a page's looks and of its use without a mouse or without eyes.

/** Each visible text's contrast with what is behind it, and what is wider than the screen; runs in the page. */
const CONTRAST = `
  const parts = text => { const found = text.match(/[\\d.]+/g).map(Number); return found.length > 3 ? found : [...found, 1]; };
  const light = color => {
    const part = value => { value /= 255; return value <= 0.04045 ? value / 12.92 : ((value + 0.055) / 1.055) ** 2.4; };
    return 0.2126 * part(color[0]) + 0.7152 * part(color[1]) + 0.0722 * part(color[2]);
  };
  const behind = element => {
    for (; element; element = element.parentElement) {
      const color = parts(getComputedStyle(element).backgroundColor);
      if (color[3] > 0.99) return color;
    }
    return [255, 255, 255, 1];
  };
  const walk = document.createTreeWalker(document.body, NodeFilter.SHOW_TEXT), low = [];
  let texts = 0, least = 99;
  while (walk.nextNode()) {
    const text = walk.currentNode.textContent.trim(), element = walk.currentNode.parentElement, box = element.getBoundingClientRect();
    const svg = element.closest('svg');
    if (!text || !element.checkVisibility() || box.width < 2 || box.height < 2
      || ['SCRIPT', 'NOSCRIPT', 'OPTION', 'STYLE'].includes(element.tagName) || element.closest('.away, .skip, button:disabled')) continue;
    const style = getComputedStyle(element), [one, other] = [light(parts(svg ? style.fill : style.color)), light(behind(svg ?? element))];
    const contrast = (Math.max(one, other) + 0.05) / (Math.min(one, other) + 0.05);
    texts++;
    least = Math.min(least, contrast);
    if (contrast < 4.5) low.push(element.tagName + ' ' + text.slice(0, 20) + ' ' + contrast.toFixed(2));
  }
  return {texts, least, low, sideways: document.documentElement.scrollWidth > innerWidth};
`;
export const contrast = browser => browser.run(CONTRAST);

/** The controls that a mouse can reach and the Tab key can't, or that don't show that they have the focus. */
export async function unreached(browser, more = 3) {
  const count = await browser.run(`
    window.controls = [...document.querySelectorAll('a[href], button:enabled, input:enabled, select:enabled, summary')]
      .filter(element => element.checkVisibility());
    window.reached = new Set();
    document.activeElement?.blur();
    getSelection().setBaseAndExtent(document.body, 0, document.body, 0);
    return window.controls.length;`);
  for (let key = 0; key < count + more; key++) {
    await browser.press('\uE004');
    await browser.run(`const focus = document.activeElement;
      if (getComputedStyle(focus).outlineStyle !== "none") window.reached.add(focus);`);
  }
  return browser.run(`return window.controls.filter(element => element.isConnected && !window.reached.has(element))
    .map(element => element.outerHTML.slice(0, 80))`);
}

const CONTROLS = new Set(['button', 'link', 'checkbox', 'textbox', 'searchbox', 'spinbutton', 'combobox', 'radio']);
const NAMED = new Set([...CONTROLS, 'navigation', 'table', 'img', 'region', 'group', 'columnheader', 'rowheader', 'heading']);

/** What a screen reader would find without a name, or not find at all; out of the browser's own tree of what it tells one. */
export async function untold(browser, roles) {
  const {nodes} = await browser.command('Accessibility.getFullAXTree');
  const told = nodes.filter(node => !node.ignored).map(node => ({role: node.role?.value, name: node.name?.value?.trim() ?? ''}));
  const found = [];
  for (const {role, name} of told) {
    if (NAMED.has(role) && !name && !['region', 'group', 'table'].includes(role)) found.push(`${role} without a name`);
  }
  for (const role of roles) if (!told.some(node => node.role === role)) found.push(`no ${role}`);
  const twice = await browser.run(`const ids = [...document.querySelectorAll('[id]')].map(element => element.id);
    return ids.filter((id, place) => ids.indexOf(id) !== place)`);
  found.push(...twice.map(id => `two elements with the id ${id}`));
  if (!await browser.run('return document.documentElement.lang && document.title')) found.push('no language or no title');
  const levels = await browser.run(`return [...document.querySelectorAll('h1, h2, h3')].filter(element => element.checkVisibility())
    .map(element => Number(element.tagName[1]))`);
  if (levels.filter(level => level === 1).length !== 1) found.push('not one first heading');
  return found;
}

