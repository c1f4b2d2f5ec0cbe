// What lies over what in a page that a browser shows: texts over texts, out of their boxes and under arrows, boxes over boxes, and a page that is wider than its window.
// MEET is how far two boxes of pixels may reach into each other, and MOST how many faults are listed.
const MEET = 1, MOST = 50, found = [];
// what an element's ancestors let one see, and the part of a box in it
const clips = new Map(), all = { left: -1e9, top: -1e9, right: 1e9, bottom: 1e9 };
const both = (one, other) => ({ left: Math.max(one.left, other.left), top: Math.max(one.top, other.top), right: Math.min(one.right, other.right), bottom: Math.min(one.bottom, other.bottom) });
function clip(element) {
  if (!element || element === document.body) return all;
  if (!clips.has(element)) clips.set(element, element.tagName !== "svg" && getComputedStyle(element).overflow === "visible" ? clip(element.parentElement) : both(clip(element.parentElement), element.getBoundingClientRect()));
  return clips.get(element);
}
function shown(rect, element) {
  const box = both(rect, clip(element));
  return box.right - box.left > MEET && box.bottom - box.top > MEET ? box : null;
}
const meet = (one, other) => one.left + MEET < other.right && other.left + MEET < one.right && one.top + MEET < other.bottom && other.top + MEET < one.bottom;
const inside = (one, other) => other.left <= one.left + MEET && one.right <= other.right + MEET && other.top <= one.top + MEET && one.bottom <= other.bottom + MEET;
function textsOf() {
  const texts = [], walker = document.createTreeWalker(document.body, NodeFilter.SHOW_TEXT);
  for (let node = walker.nextNode(); node; node = walker.nextNode()) {
    const element = node.parentElement;
    if (!node.data.trim() || ["SCRIPT", "TITLE", "OPTION"].includes(element.tagName.toUpperCase())) continue;
    const range = document.createRange();
    range.selectNodeContents(node);
    for (const rect of range.getClientRects()) {
      const box = shown(rect, element);
      if (box) texts.push({ ...box, words: node.data.trim().slice(0, 60), element });
    }
  }
  return texts.sort((one, other) => one.top - other.top);
}
function pairs(boxes, say) {
  boxes.forEach((one, at) => {
    for (let next = at + 1; next < boxes.length && boxes[next].top < one.bottom; next += 1) if (one.element !== boxes[next].element && meet(one, boxes[next])) found.push(say(one, boxes[next]));
  });
}
const texts = textsOf();
pairs(texts, (one, other) => `${one.words} | lies over | ${other.words}`);
const boxes = [...document.querySelectorAll("svg .task > rect, svg .memory > rect")].flatMap((element) => {
  const box = shown(element.getBoundingClientRect(), element);
  return box ? [{ ...box, words: element.parentElement.dataset.name, element }] : [];
}).sort((one, other) => one.top - other.top);
pairs(boxes, (one, other) => `the box ${one.words} | lies over | the box ${other.words}`);
const drawn = texts.filter((it) => it.element.ownerSVGElement);
for (const box of boxes) for (const text of drawn) {
  if (text.top < box.bottom && meet(text, box) && !inside(text, box)) found.push(`${text.words} | lies over the border of | ${box.words}`);
}
for (const line of document.querySelectorAll("svg .wire path.line")) {
  const place = line.getScreenCTM(), length = line.getTotalLength(), seen = new Set(), { a, d, e, f } = place || {};
  if (!line.getClientRects().length) continue;
  const whole = line.getBoundingClientRect(), near = drawn.filter((it) => it.element.ownerSVGElement === line.ownerSVGElement && meet({ left: whole.left - 2, right: whole.right + 2, top: whole.top - 2, bottom: whole.bottom + 2 }, it));
  // from each point as far as no text is; a point on the arrow costs much time
  for (let at = 0, step = 0; step < Infinity && at <= length; at += Math.max(1.5, step) / a) {
    const point = line.getPointAtLength(at), x = point.x * a + e, y = point.y * d + f;
    step = Infinity;
    for (const text of near) {
      const away = Math.max(text.left - x, x - text.right, text.top - y, y - text.bottom);
      if (seen.has(text)) continue;
      if (away < -MEET) { seen.add(text); found.push(`${text.words} | lies under the arrow | ${line.parentElement.dataset.name}`); } else step = Math.min(step, away);
    }
  }
}
const wide = document.documentElement.scrollWidth, isGrown = byId("graph").style.width !== "";
if (wide > innerWidth && !isGrown) found.push(`the page is ${wide} pixels wide`);
for (const it of document.querySelectorAll("header, nav, section, aside, .pane, .scroll, #floor, table, p")) {
  const box = it.getBoundingClientRect();
  if (!isGrown && box.width && shown(box, it) && !it.closest(".scroll, aside, #floor") && (box.right > innerWidth || box.left < 0)) found.push(`${it.tagName} ${it.id} | is not in the window`);
}
return { count: found.length, found: found.slice(0, MOST), texts: texts.length, boxes: boxes.length };
