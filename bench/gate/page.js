// What bench/gate/page.sh does with a page in a browser: it folds, searches, follows links, pins and walks, and leaves what fails in the title.
'use strict';
const wrong = [];
const holds = (what, is) => is || wrong.push(what);
const one = (selector, within = document) => within.querySelector(selector);
const press = (key) => document.activeElement.dispatchEvent(new KeyboardEvent('keydown', { key, bubbles: true, cancelable: true }));
const change = (id, value) => {
  const it = document.getElementById(id);
  if (typeof value === 'boolean') it.checked = value;
  else it.value = value;
  it.dispatchEvent(new Event('input', { bubbles: true }));
  it.dispatchEvent(new Event('change', { bubbles: true }));
};
const isSeen = (it) => it.checkVisibility();
const rowOf = (node) => node.firstElementChild;
const tree = one('.tree'), text = one('.text'), strong = [...tree.querySelectorAll('.i')].find((it) => one('b', it).textContent === 'Strong');

// A triangle folds, and nothing else does.
one('u', rowOf(strong)).click();
holds('a triangle folds its node', !strong.open && !isSeen(strong.children[2]) && !one('.pin'));
one('u', rowOf(strong)).click();
holds('a triangle unfolds its node', strong.open);

// A click on a row pins its node, and a second one ends that.
one('b', rowOf(strong)).click();
const pinnedTexts = () => [...text.querySelectorAll('.pin')].map((it) => it.textContent).join('');
holds('a row pins its node', strong.open && strong.matches('.pin') && isSeen(one(':scope > p', strong)));
holds('the text of a pinned node is marked', pinnedTexts() === '*this tree.\n');
holds('empty answers stand behind a word', one('.more > summary', strong) && !/: (false|none|\[\])/.test(one(':scope > p', strong).firstChild.textContent));
one('b', rowOf(strong)).click();
holds('a second click ends that', !one('.pin'));
one('span', text).click();
holds('a click on the text pins its leaf', one('.tree .pin b').textContent === 'HeadingMarker');
document.dispatchEvent(new KeyboardEvent('keydown', { key: 'Escape' }));
holds('Escape ends that', !one('.pin'));

// Pointing only marks.
rowOf(strong).dispatchEvent(new MouseEvent('mouseover', { bubbles: true }));
holds('pointing marks a node, its text and those above it', strong.matches('.hit') && one('.text .hit') && one('.above') && !one('.pin'));

// The links of an error lead to its node and to its text.
const [toText, toNode] = document.querySelectorAll('.reports a');
location.hash = toNode.hash;
follow();
holds('a link leads to its node', one('.tree .pin b').textContent === 'Error' && pinnedTexts() === '*');
document.getElementById('fold').click();
location.hash = toText.hash;
follow();
holds('a link leads to its text and unfolds', pinnedTexts() === '*' && isSeen(rowOf(one('.tree .pin'))));
clear(pinned);

// The tools.
document.getElementById('fold').click();
holds('all is folded', !one('.tree .i[open]'));
change('depth', '1');
holds('the root is unfolded', one('.tree > .i').open && !one('.tree .i .i[open]'));
change('find', 'strong');
holds('a search finds a kind and shows it', document.getElementById('told').textContent === '1 of 2' && isSeen(rowOf(strong)));
change('find', 'Trees');
holds('a search finds a text', document.querySelectorAll('.tree .found').length > 3);
change('find', '');
change('depth', '9');
change('bare', true);
holds('spaces are hidden', !isSeen(one('.tree .t')));
change('bare', false);
const digits = one('.tree s');
holds('numbers are short', getComputedStyle(digits).fontSize === '0px');
change('whole', true);
holds('numbers are whole', getComputedStyle(digits).fontSize === '13px');

// The arrows walk.
rowOf(one('.tree > .i')).focus();
for (const key of ['ArrowDown', 'ArrowDown']) press(key);
holds('the arrow down leads to the next row', one('b', document.activeElement).textContent === 'HeadingMarker');
press('ArrowLeft');
holds('the arrow left leads out of a node', one('b', document.activeElement).textContent === 'Heading');
press('ArrowLeft');
holds('and folds it', !document.activeElement.parentElement.open);
press('ArrowRight');
holds('the arrow right unfolds it', document.activeElement.parentElement.open);
press('Enter');
holds('Enter pins it', one('.tree .pin b').textContent === 'Heading');

// Names, lines, modes and widths.
for (const it of document.querySelectorAll('input')) holds('each input has a label', it.closest('label').textContent.trim());
for (const it of document.querySelectorAll('button, svg')) holds('each button and drawing has a name', it.textContent.trim() || it.getAttribute('aria-label'));
const fresh = [...text.querySelectorAll('s')].map((it) => it.getBoundingClientRect().top);
holds('each line has a number', fresh.length === 3 && fresh[0] < fresh[1] && fresh[1] < fresh[2]);
holds('the page is as wide as the window', document.documentElement.scrollWidth <= innerWidth);
const isDark = matchMedia('(prefers-color-scheme: dark)').matches;
const [red] = getComputedStyle(document.body).backgroundColor.match(/\d+/g);
holds('the paper is dark in dark mode', isDark === Number(red) < 128);
document.title = wrong.length ? `wrong: ${wrong.join('; ')}` : `right, ${isDark ? 'dark' : 'light'}, ${innerWidth} wide`;
