// Whether a page can be used by those who do not see it, or do not see it well: what is wrong with it, as the tree of
// accessibility that the browser gives out says, and by the colours that it has computed.

const ROLES = ['button', 'textbox', 'combobox', 'searchbox', 'checkbox', 'slider', 'image', 'group', 'log', 'region',
  'link', 'spinbutton', 'radio', 'tab'];

/** Runs on the page: the ids that are there twice, and the texts with a contrast below 4.5, as WCAG counts it. */
const look = () => {
  const rgb = (color) => {
    const [red, green, blue, alpha = 1] = color.match(/[\d.]+/g).map(Number);
    return { parts: [red, green, blue], alpha };
  };
  const blend = (top, under, alpha) => top.map((part, n) => part * alpha + under[n] * (1 - alpha));
  const light = (parts) => parts.map((part) => part / 255)
    .map((part) => (part <= 0.04045 ? part / 12.92 : ((part + 0.055) / 1.055) ** 2.4))
    .reduce((sum, part, n) => sum + part * [0.2126, 0.7152, 0.0722][n], 0);
  const ratio = (one, other) => {
    const [dark, bright] = [light(one), light(other)].sort((a, b) => a - b);
    return (bright + 0.05) / (dark + 0.05);
  };
  const style = (element, pseudo) => getComputedStyle(element, pseudo);
  const fill = (selector) => rgb(style(document.querySelector(selector)).fill).parts;
  const under = (element) => {
    if (element === null) return [255, 255, 255];
    const { parts, alpha } = rgb(style(element).backgroundColor);
    return alpha === 1 ? parts : blend(parts, under(element.parentElement), alpha);
  };
  const opacity = (element) => (element === null ? 1 : Number(style(element).opacity) * opacity(element.parentElement));
  // a text of the drawing, and what it lies on, which lies on something else
  const drawn = {
    '.number': ['.frame', '.frame'], '.rolls text': ['.rolls rect', '.field'], '.cube text': ['.cube rect', '.bar'],
    '.count.own': ['.own .rim', '.field'], '.count.other': ['.other .rim', '.field'],
  };
  const onBoard = (element) => {
    const [, [lies, field]] = Object.entries(drawn).find(([selector]) => element.matches(selector));
    const [ground, alpha] = [fill(field), opacity(element)];
    return ratio(blend(rgb(style(element).fill).parts, ground, alpha), blend(fill(lies), ground, alpha));
  };
  const onPage = (element, pseudo) => {
    const [ground, { parts, alpha }] = [under(element), rgb(style(element, pseudo).color)];
    return ratio(blend(parts, ground, alpha * opacity(element)), ground);
  };
  const hasText = (element) => element.matches('input, select')
    || [...element.childNodes].some((node) => node.nodeType === Node.TEXT_NODE && node.data.trim());
  const seen = [...document.querySelectorAll('body *')].filter((element) => hasText(element)
    && element.checkVisibility() && !element.matches(':disabled, option, style, script, .hidden, .hidden *'));
  const name = (element) => `${element.localName}#${element.id}.${element.getAttribute('class') ?? ''}`;
  const found = seen.map((element) => [name(element), element.closest('svg') ? onBoard(element) : onPage(element)]);
  for (const element of document.querySelectorAll('[placeholder]')) {
    if (element.checkVisibility()) found.push([`${name(element)}, empty`, onPage(element, '::placeholder')]);
  }
  const ids = [...document.querySelectorAll('[id]')].map(({ id }) => id);
  return {
    twice: ids.filter((id, n) => ids.indexOf(id) !== n),
    pale: found.filter(([, contrast]) => !(contrast >= 4.5)).map(([which, is]) => `${which} ${is.toFixed(2)}`),
    texts: found.length,
  };
};

/** What is wrong with a page as it is now, by day and by night. */
export const wrongOf = async (page, width = 1280, height = 800) => {
  const wrong = [];
  await page.call('Accessibility.enable');
  const { nodes } = await page.call('Accessibility.getFullAXTree');
  const kept = nodes.filter(({ ignored }) => !ignored);
  const live = kept.flatMap(({ properties = [] }) => properties).filter(({ name }) => name === 'live');
  if (!live.some(({ value }) => value.value === 'polite')) wrong.push('there is no live region');
  for (const { role, name } of kept) {
    if (ROLES.includes(role?.value) && !name?.value) wrong.push(`a ${role.value} has no name`);
  }
  for (const isDark of [false, true]) {
    await page.size(width, height, isDark);
    const { twice, pale, texts } = await page.ask(`(${look})()`);
    wrong.push(...twice.map((id) => `the id ${id} is there twice`));
    wrong.push(...pale.map((what) => `${isDark ? 'dark' : 'light'}: ${what}`));
    if (texts < 10) wrong.push(`only ${texts} texts were looked at`);
  }
  await page.size(width, height);
  return wrong;
};
