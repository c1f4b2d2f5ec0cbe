"use strict";
// One page of a design: it draws what stands in the element `data`, and keeps what is chosen.
const D = JSON.parse(document.getElementById("data").textContent);
const SVG = "http://www.w3.org/2000/svg";
const byId = (id) => document.getElementById(id);
const tasks = new Map(D.tasks.map((it) => [it.label, it]));
const streams = new Map(D.streams.map((it) => [it.name, it]));
const digit = new Map([...D.alphabet].map((it, at) => [it, at]));
const sections = [["network", "Network"], ["time", "Time"], ["bounds", "Bound"], ["source", "Source"], ["plan", "Plan"], ["report", "Report"]];
let chosen = null;
const listeners = [];

// ---- making elements

function make(name, attributes = {}, ...children) {
  const made = document.createElement(name);
  for (const [key, value] of Object.entries(attributes)) {
    if (key.startsWith("on")) made.addEventListener(key.slice(2), value); else made.setAttribute(key, value);
  }
  made.append(...children);
  return made;
}

function draw(name, attributes, ...children) {
  const made = document.createElementNS(SVG, name);
  for (const [key, value] of Object.entries(attributes)) made.setAttribute(key, value);
  made.append(...children);
  return made;
}

const label = (x, y, words, more = {}) => draw("text", { x, y, "font-size": 12, ...more }, words);

function table(head, rows, numbers = []) {
  const cell = (name, value, at) => make(name, numbers.includes(at) ? { class: "number" } : {}, value);
  const made = make("table", {}, make("tr", {}, ...head.map((it, at) => cell("th", it, at))));
  for (const row of rows) made.append(make("tr", {}, ...row.map((it, at) => cell("td", it, at))));
  return made;
}

// a long name without its begin, which it shares with others; a viewer shows the whole one under the pointer
const cutName = (name, most) => name.length > most ? `..${name.slice(2 - most)}` : name;
const link = (name, most = 1e9) => make("button", { class: "link", type: "button", title: name, onclick: () => choose(name) }, cutName(name, most));
const NARROW = 24;

// ---- what is chosen: a task or a stream, by name

function choose(name) {
  chosen = tasks.has(name) || streams.has(name) ? name : null;
  for (const listener of listeners) listener();
}

function isNear(name) {
  const stream = streams.get(chosen);
  if (stream) return name === stream.writer || name === stream.reader;
  const other = streams.get(name);
  return other !== undefined && chosen !== null && (other.writer === chosen || other.reader === chosen);
}

// ---- head

function showHead() {
  byId("title").textContent = D.top;
  const end = D.done ? `done in cycle ${D.cycles}` : D.lastTick < D.cycles ? `stands still since cycle ${D.lastTick + 1}` : `not done after ${D.cycles} cycles`;
  byId("facts").textContent = `${D.path}: ${D.tasks.length} tasks, ${D.streams.length} streams, ${end}`;
  sections.forEach(([id, name], at) => document.querySelector("nav").append(make("a", { href: `#${id}` }, `${name} `, make("kbd", {}, String(at + 1)))));
  byId("names").append(...[...tasks.keys(), ...streams.keys()].map((it) => make("option", { value: it })));
  byId("find").addEventListener("change", (event) => choose(event.target.value));
  const isDark = matchMedia("(prefers-color-scheme: dark)").matches;
  document.documentElement.classList.toggle("dark", isDark);
  byId("theme").addEventListener("click", changeTheme);
}

function changeTheme() {
  document.documentElement.classList.toggle("dark");
  for (const listener of listeners) listener();
}

// ---- the network

const views = {};
let shownView = "whole";

function showGraph() {
  for (const [name, graph] of [["whole", D.graph], ["folded", D.folded]]) if (graph) addView(name, graph);
  const keys = [["memory", "memory"], ["upper", "upper-level task"], ...(D.plan ? [["late", "stream with registers"]] : []), ...(D.circle.length ? [["circle", "task of a deadlock"]] : []), ["chosen", "selected"], ["near", "next to it"]];
  document.querySelector("#network .note").append("A box is a task, an arrow a stream: ", ...keys.flatMap(([kind, words]) => [make("span", { class: `swatch ${kind}` }), ` ${words}`]), ". Click or press Enter on one; drag and wheel move and zoom.");
  const fold = byId("fold");
  fold.hidden = !D.folded;
  fold.addEventListener("click", () => showView(shownView === "whole" ? "folded" : "whole"));
  byId("fit").addEventListener("click", () => views[shownView].fit());
  byId("size").addEventListener("click", () => views[shownView].fit(views[shownView].end));
  listeners.push(() => { for (const view of Object.values(views)) markChosen(view.inside); });
  showView(D.folded ? "folded" : "whole");
}

function addView(name, { width, height, boxes, wires }) {
  const svg = draw("svg", { viewBox: `0 0 ${width} ${height}`, class: name, role: "img", "aria-label": "Tasks, streams and memories" });
  svg.append(draw("defs", {}, draw("marker", { id: `end-${name}`, markerUnits: "userSpaceOnUse", markerWidth: 9, markerHeight: 8, refX: 8, refY: 4, orient: "auto" }, draw("path", { d: "M0 0 L9 4 L0 8 Z", fill: "var(--edge)" }))));
  const inside = draw("g", {}), shapes = wires.map((it) => wireShape(it, name));
  // names are above all arrows, so that none is crossed out
  inside.append(...boxes.filter((it) => it[0] === "upper").map(boxShape), ...shapes.map((it) => it[0]), ...boxes.filter((it) => it[0] !== "upper").map(boxShape), ...shapes.map((it) => it[1]));
  svg.append(inside);
  byId("graph").append(svg);
  views[name] = { svg, inside, boxes, width, height, end: [0, 0, 1, height], ...panAndZoom(svg, width, height) };
}

function showView(name, around = null) {
  shownView = name;
  for (const [other, view] of Object.entries(views)) view.svg.style.display = other === name ? "" : "none";
  const view = views[name], box = around && view.boxes.find((it) => it[0] === "upper" && it[1] === around);
  const high = `${Math.max(300, Math.min(460, 1.2 * view.height + 40))}px`;
  byId("graph").style.height = byId("detail").style.maxHeight = high;
  byId("fold").textContent = name === "whole" ? "fold upper-level tasks" : "unfold upper-level tasks";
  view.fit(box ? box.slice(3) : opening(view));
}

// a network whose labels would be small as a whole opens at its left end: in its whole height, or, if that is still too small, at full size; one that is only tall, at its upper end in its whole width
function opening(view) {
  const pane = byId("graph"), wide = Math.min(view.width, Math.max(0.8 * pane.clientWidth, view.height * pane.clientWidth / pane.clientHeight));
  if (pane.clientWidth < 0.5 * view.width) return pane.clientWidth < 0.12 * wide ? view.end : [0, 0, wide, view.height];
  return pane.clientHeight < 0.5 * view.height ? [0, 0, view.width, Math.max(0.8 * pane.clientWidth, view.width) * pane.clientHeight / pane.clientWidth] : null;
}

function boxShape([kind, name, words, x, y, width, height, labelX, labelY]) {
  const group = draw("g", { class: kind, "data-name": name });
  group.append(draw("rect", { x, y, width, height, rx: kind === "memory" ? 9 : 4 }));
  const small = kind === "memory", isFolded = kind === "task" && !tasks.has(name);
  if (kind === "upper") group.append(draw("title", {}, name), label(labelX, labelY, words, { class: "quiet", "font-size": 10 }));
  else group.append(label(x + width / 2, y + height / 2 + (small ? 3.5 : 4), words, { "text-anchor": "middle", "font-size": small ? 10 : 12 }));
  if (kind === "task") reactTo(group, name, isFolded ? () => showView("whole", name) : undefined);
  if (isFolded) {
    group.classList.add("fold");
    group.append(draw("title", {}, `${name}: an upper-level task; a click shows what is in it`));
  }
  if (D.circle.includes(name) || isFolded && D.circle.some((it) => it.startsWith(`${name}$`))) group.classList.add("circle");
  return group;
}

function wireShape([name, way, words, facts, x, y], view) {
  const group = draw("g", { class: "wire", "data-name": name });
  group.append(draw("path", { d: way, class: "grip" }), draw("path", { d: way, class: "line", "marker-end": `url(#end-${view})` }));
  const named = draw("g", { class: "named", "data-name": name }, label(x, y - 6, words, { "font-size": 10, "font-weight": "bold" }), label(x, y + 11, facts, { "font-size": 10, class: "quiet" }));
  if (D.plan && D.plan.streams[name] && D.plan.streams[name][1] + D.plan.streams[name][2] > 0) group.classList.add("late");
  reactTo(group, name);
  named.addEventListener("click", () => choose(name));
  return [group, named];
}

function reactTo(group, name, act = () => choose(name)) {
  group.setAttribute("tabindex", "0");
  group.setAttribute("role", "button");
  group.setAttribute("aria-label", name);
  group.addEventListener("click", act);
  group.addEventListener("keydown", (event) => { if (event.key === "Enter" || event.key === " ") { event.preventDefault(); act(); } });
}

function markChosen(inside) {
  for (const it of inside.children) {
    it.classList.toggle("chosen", it.dataset.name === chosen);
    it.classList.toggle("near", isNear(it.dataset.name));
  }
}

function panAndZoom(svg, width, height) {
  const pane = svg.parentElement;
  const view = { x: 0, y: 0, width, height };
  const show = () => svg.setAttribute("viewBox", `${view.x} ${view.y} ${view.width} ${view.height}`);
  // all of it, or a box of it, but no larger than its labels are meant to be
  const fit = (box = null) => {
    const [x, y, wide, high] = box || [0, 0, width, height], shape = pane.clientHeight / Math.max(pane.clientWidth, 400);
    view.width = Math.max(wide, wide > 1 ? high / shape : 0, 0.8 * Math.max(pane.clientWidth, 400));
    view.height = view.width * shape;
    view.x = wide > 1 ? x + (wide - view.width) / 2 : 0; view.y = y + (high - view.height) / 2;
    show();
  };
  svg.addEventListener("wheel", (event) => {
    event.preventDefault();
    const factor = Math.exp(event.deltaY / 600), box = svg.getBoundingClientRect();
    const [px, py] = [(event.clientX - box.left) / box.width, (event.clientY - box.top) / box.height];
    view.x += view.width * px * (1 - factor); view.y += view.height * py * (1 - factor);
    view.width *= factor; view.height *= factor;
    show();
  }, { passive: false });
  let from = null;
  svg.addEventListener("pointerdown", (event) => { from = [event.clientX, event.clientY]; });
  addEventListener("pointerup", () => { from = null; });
  addEventListener("pointermove", (event) => {
    if (!from) return;
    const scale = Math.max(view.width / svg.clientWidth, view.height / svg.clientHeight);
    view.x -= (event.clientX - from[0]) * scale; view.y -= (event.clientY - from[1]) * scale;
    from = [event.clientX, event.clientY];
    show();
  });
  return { fit };
}

// ---- one task or stream

const share = (cycles) => `${cycles} (${Math.round(100 * cycles / Math.max(D.cycles, 1))}%)`;

function parts(task) {
  const waits = task.waits.map(([what, name, cycles]) => [what === "memory" ? "memory-wait" : what, what === "memory" ? `waits for memory ${name}` : `waits to ${what} ${name}`, cycles]);
  return [["tick", "makes a tick", task.ticks], ...waits, ["bad", "stands before a wrong token", task.bad], ["ended", "has ended", task.ended]].filter((it) => it[2] > 0);
}

function bar(found) {
  const whole = found.reduce((sum, it) => sum + it[2], 0) || 1;
  return make("div", { class: "bar" }, ...found.map(([kind, words, cycles]) => make("i", { class: kind, style: `width:${100 * cycles / whole}%`, title: `${words}: ${cycles}` })));
}

function showDetail() {
  const place = byId("detail");
  const task = tasks.get(chosen), stream = streams.get(chosen);
  if (task) place.replaceChildren(...taskDetail(task));
  else if (stream) place.replaceChildren(...streamDetail(stream));
  else place.replaceChildren(...overview());
}

function overview() {
  const rows = D.tasks.slice().sort((one, other) => other.ticks - one.ticks).slice(0, 40).map((it) => [link(it.label, NARROW), make("div", { style: "width:100px;margin-top:4px" }, bar(parts(it)))]);
  return [make("h3", {}, "Tasks"), make("p", { class: "note" }, D.tasks.length > 40 ? `the 40 of most ticks, of ${D.tasks.length}` : "how each spends its cycles"), table(["", ""], rows)];
}

function taskDetail(task) {
  const own = D.streams.filter((it) => it.writer === task.label || it.reader === task.label);
  const rows = own.map((it) => [it.reader === task.label ? "reads" : "writes", link(it.name, NARROW), link((it.reader === task.label ? it.writer : it.reader) || "", NARROW)]);
  const memories = Object.values(task.bindings).filter((it) => D.memories.includes(it)).map((it) => ["has", it, "memory"]);
  return [
    make("h3", {}, task.label), make("p", { class: "note" }, `task ${task.task}, line ${task.line}${task.detached ? ", detached" : ""}`), bar(parts(task)),
    table(["", "cycles"], parts(task).map(([kind, words, cycles]) => [make("span", {}, make("span", { class: `key ${kind}` }), ` ${words}`), share(cycles)]), [1]),
    ...usesOf(task), make("h3", {}, "Streams"), table(["", "stream", "other end"], [...rows, ...memories]),
    make("h3", {}, "States"), table(["", "line", "act"], task.states.map(([line, says], at) => [String(at), String(line), says]), [0, 1]),
  ];
}

function usesOf(task) {
  const found = D.uses && D.uses.find((it) => it[0] === task.task);
  return found ? [make("p", { class: "note" }, `It uses ${found[2]} LUT and ${found[3]} FF, by the program's estimate.`)] : [];
}

// ---- all streams

const perToken = (it) => it.tokens ? (D.cycles / it.tokens).toFixed(1) : "";

function showStreams() {
  const rows = D.streams.slice(0, 400).map((it) => [link(it.name, 40), it.kind, String(it.depth), String(it.tokens), perToken(it), String(it.most), share(it.heldWriter), share(it.heldReader)]);
  if (rows.length) byId("carried").append(table(["stream", "kind", "depth", "tokens", "cycles per token", "most in it", "held up its writer", "held up its reader"], rows, [2, 3, 4, 5, 6, 7]));
  if (D.streams.length > 400) byId("carried").append(make("p", { class: "note" }, `the first 400 of ${D.streams.length}`));
}

function streamDetail(it) {
  const planned = D.plan && D.plan.streams[it.name];
  const rows = [["kind", it.kind], ["depth", String(it.depth)], ["written by", link(it.writer || "nobody", 24)], ["read by", link(it.reader || "nobody", 24)], ["tokens", String(it.tokens)], ["cycles per token", perToken(it)],
    ["full", `${it.least} to ${it.most}, ${it.mean} in the mean`], ["held up its writer", share(it.heldWriter)], ["held up its reader", share(it.heldReader)]];
  if (planned) rows.push(["width", `${planned[0]} bits`], ["latency", `${planned[1]} registers at borders, ${planned[2]} for balance`], ["flow", String(planned[3])]);
  return [make("h3", {}, it.name), make("p", { class: "note" }, "a stream"), table(["", ""], rows)];
}

// ---- time

const ROW = 18, HEAD = 22, NAMES = '11px "DejaVu Sans", Verdana, sans-serif';
const time = { first: 1, count: Math.max(D.cycles, 1), rows: [], longest: 0, left: 60 };
const COLOURS = ["tick", "ended", "bad", "read", "write", "memory", "fill", "ink", "quiet", "line", "card", "markpale"];

function showTime() {
  const place = byId("tracks"), canvas = place.querySelector("canvas");
  byId("legend").append(...[["tick", "tick"], ["read", "waits to read"], ["write", "waits to write"], ["memory-wait", "waits for a memory"], ["bad", "wrong token"], ["ended", "has ended"], ["fill", "fill of a stream"]].flatMap(([kind, words]) => [make("span", { class: `key ${kind}` }), ` ${words}`]),
    ". Arrow keys and dragging move, + and - and the wheel with Ctrl zoom, 0 shows all.", D.span > 1 ? ` A column is one of each ${D.span} cycles.` : "");
  time.rows = [...D.tasks.map((it) => ({ name: it.label, task: it })), ...D.streams.map((it) => ({ name: it.name, stream: it }))];
  place.firstElementChild.style.height = `${HEAD + ROW * time.rows.length + 6}px`;
  const pen = canvas.getContext("2d");
  pen.font = NAMES;
  // names have the room that they need, up to a quarter of the width
  time.longest = Math.max(...time.rows.map((it) => pen.measureText(it.name).width));
  time.width = () => Math.max(canvas.clientWidth - time.left - 12, 50);
  place.addEventListener("scroll", drawTime);
  addEventListener("resize", drawTime);
  place.addEventListener("wheel", (event) => { if (event.ctrlKey) { event.preventDefault(); zoomTime(Math.exp(event.deltaY / 300), cycleAt(event)); } }, { passive: false });
  let from = null;
  canvas.addEventListener("pointerdown", (event) => { from = event.clientX; });
  addEventListener("pointerup", () => { from = null; });
  canvas.addEventListener("pointermove", (event) => {
    if (from !== null) { moveTime(-(event.clientX - from) * time.count / time.width()); from = event.clientX; }
    sayNow(event);
  });
  canvas.addEventListener("click", (event) => { const row = rowAt(event); if (row) choose(row.name); });
  listeners.push(drawTime);
}

function cycleAt(event) {
  const x = event.clientX - byId("tracks").querySelector("canvas").getBoundingClientRect().left - time.left;
  return time.first + x * time.count / time.width();
}

function rowAt(event) {
  const place = byId("tracks"), y = event.clientY - place.getBoundingClientRect().top + place.scrollTop - HEAD;
  return time.rows[Math.floor(y / ROW)];
}

function zoomTime(factor, around = time.first + time.count / 2) {
  const count = Math.min(Math.max(time.count * factor, 8), Math.max(D.cycles, 8));
  time.first = around - (around - time.first) * count / time.count;
  time.count = count;
  moveTime(0);
}

function moveTime(cycles) {
  time.first = Math.max(1, Math.min(time.first + cycles, Math.max(1, D.cycles + 1 - time.count)));
  drawTime();
}

function codeOf(task, cycle) { return digit.get(task.history[Math.floor((cycle - 1) / D.span)]); }

function stateOf(task, cycle) {
  const at = Math.floor((cycle - 1) / D.span) * task.width;
  const number = task.width === 1 ? digit.get(task.at[at]) : digit.get(task.at[at]) * D.alphabet.length + digit.get(task.at[at + 1]);
  return task.states[number];
}

function kindOf(task, code) { return code < 3 ? ["tick", "ended", "bad"][code] : task.waits[code - 3][0]; }

function sayNow(event) {
  const row = rowAt(event), cycle = Math.floor(cycleAt(event));
  if (!row || cycle < 1 || cycle > D.cycles) return;
  if (row.task) {
    const code = codeOf(row.task, cycle), [line, says] = stateOf(row.task, cycle) || ["", ""];
    const what = code < 3 ? ["makes its tick", "has ended", "stands before a wrong token"][code] : "waits";
    byId("now").textContent = `cycle ${cycle}: ${row.name} ${what}` + (code === 1 ? "" : `, line ${line}: ${says}`);
  } else byId("now").textContent = `cycle ${cycle}: ${row.name} has ${digit.get(row.stream.fill[Math.floor((cycle - 1) / D.span)]) * row.stream.scale} of ${row.stream.depth} tokens`;
}

function drawTime() {
  const place = byId("tracks"), canvas = place.querySelector("canvas"), ratio = devicePixelRatio || 1;
  const width = place.clientWidth, height = Math.min(560, HEAD + ROW * time.rows.length + 6);
  time.left = Math.max(60, Math.min(time.longest + 24, width / 4));
  canvas.style.width = `${width}px`; canvas.style.height = `${height}px`;
  canvas.width = width * ratio; canvas.height = height * ratio;
  const pen = canvas.getContext("2d"), style = getComputedStyle(document.documentElement);
  const colour = Object.fromEntries(COLOURS.map((it) => [it, style.getPropertyValue(`--${it}`).trim()]));
  pen.scale(ratio, ratio);
  pen.font = NAMES;
  const firstRow = Math.max(0, Math.floor(place.scrollTop / ROW));
  const shift = HEAD - (place.scrollTop - firstRow * ROW);
  time.rows.slice(firstRow, firstRow + Math.ceil(height / ROW) + 1).forEach((row, at) => drawRow(pen, colour, row, shift + at * ROW, width));
  drawAxis(pen, colour, width, height);
}

function drawRow(pen, colour, row, y, width) {
  if (row.name === chosen || isNear(row.name)) { pen.fillStyle = colour.markpale; pen.fillRect(0, y, width, ROW); }
  const pixels = width - time.left - 12, step = time.count / pixels;
  // a mark for each cycle, or where they are narrower than a pixel for each pixel
  for (let at = 0; at < time.count; at += Math.max(1, step)) {
    const now = Math.floor(time.first + at), x = time.left + Math.max(0, Math.round((step > 1 ? at : now - time.first) / step));
    if (now > D.cycles) break;
    const wide = Math.max(1, time.left + Math.round((now + 1 - time.first) / step) - x);
    if (row.task) {
      pen.fillStyle = colour[kindOf(row.task, codeOf(row.task, now))];
      pen.fillRect(x, y + 4, wide, ROW - 7);
    } else {
      const fill = digit.get(row.stream.fill[Math.floor((now - 1) / D.span)]) * row.stream.scale;
      const high = (ROW - 5) * Math.min(fill / Math.max(row.stream.depth, row.stream.most, 1), 1);
      pen.fillStyle = colour.fill;
      pen.fillRect(x, y + ROW - 2 - high, wide, high);
    }
  }
  pen.fillStyle = colour.ink;
  pen.fillText(cutText(pen, row.name, time.left - 20), 8, y + 13);
  if (!row.task) { pen.fillStyle = colour.line; pen.fillRect(time.left, y + ROW - 2, pixels, 1); }
}

function cutText(pen, words, width) {
  if (pen.measureText(words).width <= width) return words;
  while (words && pen.measureText(`..${words}`).width > width) words = words.slice(1);
  return `..${words}`;
}

function drawAxis(pen, colour, width, height) {
  pen.fillStyle = colour.card; pen.fillRect(0, 0, width, HEAD - 2);
  const rough = time.count * 90 / (width - time.left), power = 10 ** Math.floor(Math.log10(rough)), step = Math.max(1, [1, 2, 5, 10].map((it) => it * power).find((it) => it >= rough));
  for (let cycle = Math.ceil(time.first / step) * step; cycle <= time.first + time.count; cycle += step) {
    const x = time.left + (cycle - time.first) * (width - time.left - 12) / time.count;
    pen.fillStyle = colour.line; pen.fillRect(x, HEAD - 6, 1, height);
    if (x < width - 40) { pen.fillStyle = colour.quiet; pen.fillText(String(cycle), x + 3, 13); }
  }
}

// ---- what bounds it

function showBounds() {
  const place = byId("why");
  if (D.circle.length) place.append(make("p", { class: "warn" }, `A deadlock: ${[...D.circle, D.circle[0]].join(" → ")} wait for each other.`));
  const waiting = Object.entries(D.waiting).slice(0, 40).map(([name, [wait, other]]) => [link(name), `waits ${wait}`, other ? link(other) : ""]);
  if (waiting.length) place.append(table(["In the last cycle", "", "of the other end"], waiting));
  if (D.done) {
    place.append(make("p", { class: "note" }, `${D.bound.cycles} cycles in a row, each of which had to wait for the one before. They are`));
    const rows = [
      ...Object.entries(D.bound.tasks).slice(0, 8).map(([name, cycles]) => [link(name), String(cycles), "ticks of this task"]),
      ...Object.entries(D.bound.memories).map(([name, cycles]) => [`memory ${name}`, String(cycles), "cycles in which it was not ready"]),
      ...Object.entries(D.bound.rooms).slice(0, 8).map(([name, times]) => [link(name), String(times), "times a place in its FIFO had to become free"]),
      ...D.bound.lines.slice(0, 8).map(([line, cycles]) => [`line ${line}`, String(cycles), make("code", {}, (D.lines[line - 1] || "").trim())]),
    ];
    place.append(table(["", "", ""], rows, [1]));
  }
  for (const [line, turns, cycles] of D.shorter) place.append(make("p", {}, `A tick less in each of the ${turns} turns at line ${line} gives ${cycles} cycles, as long as nothing else bounds it.`));
  if (D.changes) {
    place.append(make("h3", {}, "Changes that were built and simulated"));
    place.append(D.changes.length ? table(["", ""], D.changes.map(([words, cycles]) => [words, `done in cycle ${cycles}`])) : make("p", { class: "note" }, "No depth and no memory makes it faster."));
  }
  for (const words of D.pastEnd) place.append(make("p", { class: "warn" }, words));
}

// ---- the source

function showSource() {
  const place = byId("code"), made = make("table", {});
  const rows = D.lines.map((text, at) => make("tr", {}, make("td", { class: "number" }, String(at + 1)), make("td", { class: "number" }), make("td", {}), make("td", {}, text)));
  made.append(...rows);
  place.append(made);
  let costs = {}, here = null;
  listeners.push(() => {
    const task = tasks.get(chosen), before = costs;
    costs = task ? costsOf(task) : D.costs;
    const most = Math.max(1, ...Object.values(costs).map(([ticks, waits]) => ticks + waits));
    for (const line of new Set([...Object.keys(before), ...Object.keys(costs)])) showCost(rows[line - 1], costs[line], most);
    if (here) here.classList.remove("here");
    here = task ? rows[task.line - 1] : null;
    // the page stays where it is: only the box with the source is moved
    if (here) { here.classList.add("here"); place.scrollTop = here.offsetTop - 60; }
  });
}

function showCost(row, cost, most) {
  row.children[1].textContent = cost ? String(cost[0] + cost[1]) : "";
  row.children[2].replaceChildren(cost ? bar([["tick", "ticks", cost[0]], ["wait", "waits", cost[1]], ["none", "", most - cost[0] - cost[1]]]) : "");
}

function costsOf(task) {
  const costs = {};
  for (let at = 0; at < task.history.length; at += 1) {
    const code = digit.get(task.history[at]);
    if (code === 1) continue;
    const [line] = stateOf(task, at * D.span + 1);
    costs[line] = costs[line] || [0, 0];
    costs[line][code === 0 ? 0 : 1] += D.span;
  }
  return costs;
}

// ---- the plan

function usesTable() {
  if (!D.uses) return "";
  const sum = (at) => D.uses.reduce((whole, it) => whole + it[1] * it[at], 0);
  const rows = D.uses.map((it) => it.map(String)), at = [2, 3, 4, 5, 6];
  return make("div", {}, make("p", { class: "note" }, "What one instance of each task uses, by the program's estimate."), table(["task", "instances", "LUT", "FF", "BRAM", "DSP", "URAM"], [...rows, ["all", String(D.tasks.length), ...at.map((it) => String(sum(it)))]], [1, ...at]));
}

// the gaps between slots, in which the bundles of streams are drawn
const ACROSS = 100, DOWN = 58;

function showPlan() {
  const place = byId("floor");
  if (!D.plan) { place.append(usesTable(), make("p", { class: "note" }, "No device was given: tools/look.py .. --device DEV shows the plan.")); return; }
  const { rows, cols } = D.plan, inside = new Map();
  for (const [name, [row, col]] of Object.entries(D.plan.tasks)) inside.set(`${row} ${col}`, [...(inside.get(`${row} ${col}`) || []), name]);
  const isSmall = Math.max(...[...inside.values()].map((it) => it.length)) > 60;
  const slotWidth = Math.max(320, Math.min(900, Math.floor((place.clientWidth + ACROSS) / cols) - ACROSS - 2)), columns = Math.floor((slotWidth - 12) / (isSmall ? 22 : 158));
  const chip = { width: (slotWidth - 12) / columns - 8, height: isSmall ? 10 : 20 };
  const top = 22 + 16 * D.plan.resources.filter((name, at) => D.plan.slots.some((it) => it.has[at] > 0)).length;
  // a row of slots is as high as its fullest slot needs
  const fullest = Array.from({ length: rows }, (_, row) => Math.max(0, ...Array.from({ length: cols }, (_, col) => (inside.get(`${row} ${col}`) || []).length)));
  const heights = fullest.map((it) => it ? top + 8 + Math.ceil(it / columns) * (chip.height + 8) : 26), tops = heights.map((_, row) => 24 + heights.slice(0, row).reduce((sum, it) => sum + it + DOWN, 0));
  const svg = draw("svg", { width: cols * (slotWidth + ACROSS) - ACROSS + 2, height: tops[rows - 1] + heights[rows - 1] + 2 });
  svg.append(draw("defs", {}, draw("marker", { id: "end-plan", markerUnits: "userSpaceOnUse", markerWidth: 9, markerHeight: 8, refX: 8, refY: 4, orient: "auto" }, draw("path", { d: "M0 0 L9 4 L0 8 Z", fill: "var(--write)" }))));
  const size = { columns, chip, slotWidth, heights, tops, isSmall, top };
  svg.append(...D.plan.slots.map((it) => slotShape(it, inside.get(it.place.join(" ")) || [], size)), ...D.plan.bundles.map((it) => bundleShape(it, size)));
  place.append(planWords(), make("p", { class: "note" }, "An arrow is all streams from one slot to the next one: a stream goes along its writer's column, then along its reader's row. The mark on a bar is the most that a plan may use."), svg, make("div", { class: "tables" }, balanceTable(), usesTable()));
  listeners.push(() => { for (const it of svg.querySelectorAll("[data-name]")) { it.classList.toggle("chosen", it.dataset.name === chosen); it.classList.toggle("near", isNear(it.dataset.name)); } });
}

const cornerOf = ([row, col], size) => [1 + col * (size.slotWidth + ACROSS), size.tops[row]];

function slotShape(slot, names, size) {
  const [x, y] = cornerOf(slot.place, size), says = slot.forbidden ? ", forbidden" : names.length ? "" : ", empty";
  const group = draw("g", { class: "slot" }, draw("rect", { x, y, width: size.slotWidth, height: size.heights[slot.place[0]], rx: 6 }), label(x + 2, y - 8, `slot ${slot.place.join(" ")}${says}`, { "font-weight": "bold" }));
  let top = y - 4;
  if (names.length) D.plan.resources.forEach((name, at) => {
    if (!slot.has[at]) return;
    top += 16;
    const part = slot.uses[at] / slot.has[at], wide = size.slotWidth - 112;
    group.append(label(x + 10, top + 9, name, { "font-size": 10, class: "quiet" }), draw("rect", { x: x + 52, y: top, width: wide, height: 9, style: "fill:var(--line);stroke:none" }));
    group.append(draw("rect", { x: x + 52, y: top, width: wide * Math.min(part, 1), height: 9, style: `fill:var(${100 * part > D.plan.percent ? "--bad" : "--tick"});stroke:none` }));
    group.append(draw("line", { x1: x + 52 + wide * D.plan.percent / 100, x2: x + 52 + wide * D.plan.percent / 100, y1: top - 2, y2: top + 11, style: "stroke:var(--write)" }));
    group.append(label(x + 60 + wide, top + 9, `${(100 * part).toFixed(1)}%`, { "font-size": 10 }));
  });
  names.forEach((name, at) => {
    const left = x + 10 + (at % size.columns) * (size.chip.width + 8), top = y + size.top + Math.floor(at / size.columns) * (size.chip.height + 8);
    const made = draw("g", { class: "task chip", "data-name": name }, draw("rect", { x: left, y: top, width: size.chip.width, height: size.chip.height, rx: 3, style: "fill:var(--card)" }), draw("title", {}, name));
    const words = cutName(name, Math.floor((size.chip.width - 8) / 6.6));
    if (!size.isSmall) made.append(label(left + size.chip.width / 2, top + 14, words, { "text-anchor": "middle", "font-size": 10 }));
    made.addEventListener("click", () => choose(name));
    group.append(made);
  });
  return group;
}

function bundleShape([place, other, bits, count], size) {
  const [x, y] = cornerOf(place, size), [toX, toY] = cornerOf(other, size), words = [count === 1 ? "1 stream" : `${count} streams`, `${bits} bits`];
  const group = draw("g", { class: "wire late" }), arrow = (way) => draw("path", { class: "line", d: way, "marker-end": "url(#end-plan)" });
  if (place[0] === other[0]) {
    const [from, to] = x < toX ? [x + size.slotWidth + 4, toX - 4] : [x - 4, toX + size.slotWidth + 4], middle = y + size.heights[place[0]] / 2 + (x < toX ? -24 : 24);
    group.append(arrow(`M${from} ${middle} H${to}`), ...words.map((it, at) => label((from + to) / 2, middle + [-6, 14][at], it, { "font-size": 10, "text-anchor": "middle" })));
  } else {
    const isDown = y < toY, border = (isDown ? y + size.heights[place[0]] : toY + size.heights[other[0]]), middle = x + size.slotWidth * (isDown ? 0.45 : 0.72);
    group.append(arrow(isDown ? `M${middle} ${border + 4} V${border + DOWN - 4}` : `M${middle} ${border + DOWN - 4} V${border + 4}`), ...words.map((it, at) => label(middle + 8, border + [26, 40][at], it, { "font-size": 10 })));
  }
  return group;
}

function planWords() {
  const { cost, registers, dual } = D.plan;
  const proof = registers === dual ? `The flow has the value ${dual}, as many as the registers that the balance adds, so no even balance takes fewer.` : `The flow has the value ${dual}, and the balance adds ${registers} registers.`;
  return make("p", {}, `Cost ${cost}: bits times borders crossed. ${proof}`);
}

function balanceTable() {
  const crossing = Object.entries(D.plan.streams).filter(([, it]) => it[1] + it[2] > 0);
  const rows = crossing.slice(0, 60).map(([name, [width, latency, balance, flow]]) => [link(name), String(width), String(latency), String(balance), String(width * balance), String(flow)]);
  return rows.length ? table(["stream with registers", "bits", "at borders", "for balance", "bits times balance", "flow"], rows, [1, 2, 3, 4, 5]) : make("p", { class: "note" }, "No stream crosses a border.");
}

// ---- the report

function showReport() {
  const place = byId("told");
  if (!D.run) { place.append(make("p", { class: "note" }, "There is no report.")); return; }
  const rows = D.run.rows.map(([what, name, kind, count, values, note]) => [what === "stream" && streams.has(name) ? link(name) : `${what} ${name}`, kind, String(count), make("div", { class: "values" }, values, note ? make("span", { class: "note" }, ` (${note})`) : "")]);
  place.append(...D.run.messages.map((it) => make("p", { class: "warn" }, it)), make("p", {}, D.run.end), make("div", { class: "scroll padded" }, table(["", "kind", "values", ""], rows, [2])));
}

// ---- keys

addEventListener("keydown", (event) => {
  if (event.target.tagName === "INPUT") { if (event.key === "Escape") event.target.blur(); return; }
  if (event.ctrlKey || event.metaKey || event.altKey) return;
  const section = sections[Number(event.key) - 1];
  const keys = { "+": () => zoomTime(0.7), "=": () => zoomTime(0.7), "-": () => zoomTime(1.4), 0: () => zoomTime(1e9), ArrowLeft: () => moveTime(-time.count / 8), ArrowRight: () => moveTime(time.count / 8), Escape: () => choose(null), t: changeTheme, "/": () => byId("find").focus() };
  if (section) { byId(section[0]).scrollIntoView(); byId(section[0]).focus({ preventScroll: true }); } else if (keys[event.key]) keys[event.key](); else return;
  event.preventDefault();
});

showHead();
showGraph();
showStreams();
listeners.push(showDetail);
showTime();
showBounds();
showSource();
showPlan();
showReport();
choose(null);
document.documentElement.dataset.ready = "yes";
