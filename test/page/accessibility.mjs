// Rules for a page that anybody can use, read off the page itself. `accessibilityFaults` runs in the page: it is sent there
// as text, so it uses nothing from outside of itself. It answers a list of texts, one for each fault.
//
// 1  Each control and each part that readers are told of has a name, which has the words that are written on it.
// 2  Keys reach each control.
// 3  Text has a contrast of at least 4.5 to what lies behind it, large text of 3.
// 4  The border or the ground of a field can be told from what lies around it, by a contrast of 3.
// 5  The focus goes through the page from front to back: no tabindex above 0, nothing hidden can be focused.
// 6  Headings begin with one h1 and leave no level out. The page has a main part, a language and a title.
// 7  Roles stand where they may, and have what they need; each id that is pointed at is there, and once.
// 8  Pictures have a text, also those with buttons in them, which are groups.
// 9  Nothing is wider than the window.
// 10 What one has to hit is at least 24 pixels wide and high, unless it stands in a text.
export function accessibilityFaults() {
  const faults = [];
  const all = (selector, root = document) => [...root.querySelectorAll(selector)];
  const isSeen = (it) => it.checkVisibility({ visibilityProperty: true, opacityProperty: true }) && it.getClientRects().length > 0;
  const said = (it) => `<${it.localName}${it.id ? ` id=${it.id}` : ''}${it.className && it.className.baseVal === undefined ? ` class="${it.className}"` : ''}> ${JSON.stringify((it.textContent ?? '').trim().slice(0, 40))}`;
  const fault = (rule, it, why) => faults.push(`${rule}: ${said(it)}: ${why}`);

  // ---- names

  const textOf = (it) => (it === null ? '' : it.getAttribute('aria-label') ?? it.textContent).trim();

  // What the attributes say, or null where they say nothing.
  function labelOf(it) {
    const by = it.getAttribute('aria-labelledby');
    if (by !== null) return by.split(/\s+/).map((id) => textOf(document.getElementById(id))).join(' ').trim();
    const own = it.getAttribute('aria-label');
    return own === null ? null : own.trim();
  }

  function nameOf(it) {
    const label = labelOf(it);
    if (label !== null) return label;
    if (it.labels !== undefined && it.labels !== null && it.labels.length > 0) return [...it.labels].map(textOf).join(' ').trim();
    if (it.matches('img')) return (it.getAttribute('alt') ?? '').trim();
    const inside = it.matches('input, textarea, select') ? '' : it.textContent.trim();
    return inside === '' ? (it.title ?? '').trim() : inside;
  }

  const CONTROLS = 'button, a[href], input:not([type=hidden]), select, textarea, summary, [role=button], [role=link], [role=tab], [role=treeitem], [role=checkbox]';
  const controls = all(CONTROLS).filter(isSeen);
  for (const it of controls) {
    if (nameOf(it) === '') fault('1 name', it, 'it has no name');
    // Who speaks to the page says what is written there.
    const written = it.innerText?.trim().replace(/\s+/g, ' ') ?? '';
    const label = it.getAttribute('aria-label');
    if (label !== null && it.matches('button, a[href]') && /\w{2}/.test(written) && !label.toLowerCase().includes(written.toLowerCase())) {
      fault('1 name', it, `its name ${JSON.stringify(label)} does not have what is written on it`);
    }
  }
  for (const it of all('nav, [role=toolbar], [role=tree], [role=group], [role=region], dialog[open]').filter(isSeen)) {
    if ((labelOf(it) ?? '') === '') fault('1 name', it, 'this part has no name');
  }

  // ---- keys

  const isFocusable = (it) => it.tabIndex >= 0 && !it.disabled;
  for (const it of controls) {
    const owner = it.closest('[aria-activedescendant], [role=tree], [role=listbox], [role=tablist], [role=radiogroup]');
    if (!isFocusable(it) && !it.disabled && (owner === null || !isFocusable(owner))) fault('2 keys', it, 'keys do not reach it');
  }
  for (const it of all('*')) {
    if (it.tabIndex > 0) fault('5 order', it, 'its tabindex is above 0');
    if (it.hasAttribute('onclick')) fault('2 keys', it, 'it is clicked by an attribute');
  }
  for (const it of all('[aria-hidden=true]')) {
    for (const inside of [it, ...all('*', it)]) if (inside.tabIndex >= 0 && isSeen(inside) && !inside.closest('svg')) fault('5 order', inside, 'it is hidden from readers, and keys reach it');
  }

  // ---- contrast

  // A colour as red, green, blue from 0 to 255 and how thick it lies.
  const canvas = document.createElement('canvas').getContext('2d', { willReadFrequently: true });
  canvas.canvas.width = canvas.canvas.height = 1;
  const known = new Map();
  function colour(text) {
    if (!known.has(text)) {
      canvas.clearRect(0, 0, 1, 1);
      canvas.fillStyle = text;
      canvas.fillRect(0, 0, 1, 1);
      const [r, g, b, a] = canvas.getImageData(0, 0, 1, 1).data;
      known.set(text, [r, g, b, a / 255]);
    }
    return known.get(text);
  }
  const over = ([r, g, b, a], [x, y, z]) => [r * a + x * (1 - a), g * a + y * (1 - a), b * a + z * (1 - a), 1];
  const light = (rgb) => rgb.slice(0, 3).map((it) => it / 255).map((it) => (it <= 0.04045 ? it / 12.92 : ((it + 0.055) / 1.055) ** 2.4));
  const luminance = (rgb) => light(rgb).reduce((sum, it, i) => sum + it * [0.2126, 0.7152, 0.0722][i], 0);
  function contrast(one, other) {
    const [high, low] = [luminance(one), luminance(other)].sort((a, b) => b - a);
    return (high + 0.05) / (low + 0.05);
  }
  // What lies behind an element's text: the grounds of all around it, and what lies below them on the page.
  function groundOf(it) {
    const layers = [];
    for (let at = it; at !== null; at = at.parentElement) layers.push(colour(getComputedStyle(at).backgroundColor));
    const base = getComputedStyle(document.documentElement).colorScheme.includes('dark') && matchMedia('(prefers-color-scheme: dark)').matches ? [18, 18, 18, 1] : [255, 255, 255, 1];
    return layers.reverse().reduce((below, layer) => over(layer, below), base);
  }
  const thickness = (it) => {
    let all = 1;
    for (let at = it; at !== null; at = at.parentElement) all *= Number(getComputedStyle(at).opacity);
    return all;
  };
  // What is switched off, or belongs to a session that is over, may be pale.
  const isPale = (it) => it.closest('[disabled], [aria-disabled=true], .stale') !== null;

  const walker = document.createTreeWalker(document.body, NodeFilter.SHOW_TEXT);
  const done = new Set();
  while (walker.nextNode()) {
    const it = walker.currentNode.parentElement;
    if (walker.currentNode.data.trim() === '' || done.has(it) || !isSeen(it) || isPale(it) || it.closest('script, style, [aria-hidden=true], option')) continue;
    done.add(it);
    const style = getComputedStyle(it), isSvg = it.namespaceURI.endsWith('svg');
    const ink = colour(isSvg ? style.fill : style.color), size = parseFloat(style.fontSize);
    if (ink[3] === 0) continue;
    const box = it.getBoundingClientRect();
    if (box.width <= 1 || box.height <= 1) continue;
    let ground = groundOf(it);
    if (isSvg) {
      const rect = it.parentElement.querySelector(':scope > rect');
      if (rect !== null) ground = over(colour(getComputedStyle(rect).fill), ground);
    }
    const isLarge = size >= 24 || (size >= 18.66 && Number(style.fontWeight) >= 700);
    const is = contrast(over([ink[0], ink[1], ink[2], ink[3] * thickness(it)], ground), ground), wanted = isLarge ? 3 : 4.5;
    if (is < wanted) fault('3 contrast', it, `${is.toFixed(2)}, and ${wanted} is wanted`);
  }
  // A button's words tell that it is there; a field has none. The editor fills its part of the page.
  for (const it of controls.filter((control) => control.matches('input, select, textarea') && control.id !== 'source' && !isPale(control))) {
    const style = getComputedStyle(it), around = groundOf(it.parentElement);
    const border = parseFloat(style.borderTopWidth) > 0 ? contrast(over(colour(style.borderTopColor), around), around) : 1;
    const is = Math.max(border, contrast(groundOf(it), around));
    if (is < 3) fault('4 border', it, `its border is told from what lies around it by ${is.toFixed(2)}, and 3 is wanted`);
  }

  // ---- order, headings and roles

  for (const it of all('a[href], button, input, select, textarea, summary, [tabindex]')) {
    if (it.tabIndex < 0 || it.disabled || !it.checkVisibility()) continue;
    const box = it.getBoundingClientRect();
    if (box.width === 0 && box.height === 0) fault('5 order', it, 'keys reach it, and it is not to be seen');
  }
  const levels = all('h1, h2, h3, h4, h5, h6').filter(isSeen).map((it) => [Number(it.localName[1]), it]);
  if (levels.filter(([level]) => level === 1).length !== 1) faults.push(`6 headings: ${levels.filter(([level]) => level === 1).length} of the first level`);
  levels.forEach(([level, it], i) => { if (i > 0 && level > levels[i - 1][0] + 1) fault('6 headings', it, `level ${level} after ${levels[i - 1][0]}`); });
  if (document.documentElement.lang === '') faults.push('6 page: it has no language');
  if (document.title.trim() === '') faults.push('6 page: it has no title');
  if (all('main').length !== 1) faults.push('6 page: it has not one main part');

  const OWNED = { treeitem: 'tree', tab: 'tablist', option: 'listbox', menuitem: 'menu', row: 'table', listitem: 'list' };
  const KNOWN = new Set(['toolbar', 'search', 'status', 'alert', 'tree', 'treeitem', 'group', 'img', 'button', 'link', 'tab', 'tablist', 'tabpanel', 'dialog', 'region', 'presentation', 'none', 'list', 'listitem', 'log', 'note', 'separator', 'navigation', 'progressbar', 'row', 'table', 'cell', 'option', 'listbox', 'menu', 'menuitem']);
  for (const it of all('[role]')) {
    const role = it.getAttribute('role');
    if (!KNOWN.has(role)) fault('7 roles', it, `the role ${role} is not known`);
    if (role in OWNED && it.closest(`[role=${OWNED[role]}]`) === null) fault('7 roles', it, `a ${role} outside of a ${OWNED[role]}`);
  }
  for (const it of all('[aria-labelledby], [aria-describedby], [aria-controls], [aria-activedescendant], label[for]').filter(isSeen)) {
    for (const key of ['aria-labelledby', 'aria-describedby', 'aria-controls', 'aria-activedescendant', 'for']) {
      for (const id of (it.getAttribute(key) ?? '').split(/\s+/).filter((word) => word !== '')) {
        if (document.getElementById(id) === null && (key !== 'aria-activedescendant' || it === document.activeElement)) fault('7 ids', it, `${key} points at ${id}, which is not there`);
      }
    }
  }
  const ids = all('[id]').map((it) => it.id);
  for (const id of new Set(ids.filter((it, i) => ids.indexOf(it) !== i))) faults.push(`7 ids: ${id} is there more than once`);
  for (const it of all('[aria-expanded]')) if (!['true', 'false'].includes(it.getAttribute('aria-expanded'))) fault('7 roles', it, 'aria-expanded is neither true nor false');

  for (const it of all('img, svg[role=img], svg[role=group]')) if (isSeen(it) && nameOf(it) === '') fault('8 pictures', it, 'it has no text');
  for (const it of all('svg:not([role=img], [role=group])')) if (isSeen(it) && it.closest('[aria-hidden=true], [role=img]') === null) fault('8 pictures', it, 'it is neither a picture with a text nor hidden');
  for (const it of all('[role=img]')) if (it.querySelector('button, a[href], [tabindex]') !== null) fault('8 pictures', it, 'a picture has a button in it, which no reader comes to');

  const wide = document.documentElement.scrollWidth - innerWidth;
  if (wide > 0) faults.push(`9 width: the page is ${wide} pixels wider than the window`);

  for (const it of controls) {
    const box = it.getBoundingClientRect();
    const isInText = it.matches('.link, summary, a') || it.closest('[role=tree]') !== null;
    if (!isInText && !isPale(it) && (box.width < 24 || box.height < 24)) fault('10 size', it, `${Math.round(box.width)} by ${Math.round(box.height)} pixels`);
  }
  return faults;
}
