'use strict';
// What a record's page does. The data is what folding.py makes: words stand by number in `data.words`.
const data = JSON.parse(document.getElementById('data').textContent);
const word = (number) => data.words[number];
const at = (id) => document.getElementById(id);
const LINES = Math.max(data.lines, 1);

// docs/RULES.md, "The rules".
const RULES = {
  1: ['WrongThread', "the environment is another thread's, or the caller may not make the call"],
  2: ['Detached', "an environment is needed and none is handed in, or it isn't the present session's"],
  3: ['InCritical', 'the caller is inside a critical region, and the function may not be called there'],
  4: ['Pending', 'the caller has a pending exception, and the function may not be called then'],
  5: ['ForeignLocal', 'a local reference that another thread was handed'],
  6: ['DeadReference', 'a reference that was never made or has ended'],
  7: ['WrongRefKind', 'the deletion of a reference of another kind'],
  8: ['NullReference', '`null`, or a weak reference whose object was collected, where an object is wanted'],
  9: ['WrongType', "an object that isn't of the declared type"],
  10: ['BadField', "a field ID that isn't one of the object's class and the function's type"],
  11: ['BadBuffer', "a buffer that isn't open, or may not be used so"],
  12: ['BadArgument', "a number, a name or bytes that the function doesn't take"],
  13: ['Pinned', 'the deletion of a reference through which an open critical buffer was made'],
  14: ['NotOwner', "MonitorExit by a thread that doesn't own the monitor"],
  15: ['BadFrame', 'a pop without a push, a return outside a native method, a detachment inside one'],
  16: ['NoNativeAccess', "a use of native code that the setup refuses to the class's module"],
  17: ['NotLinked', "NativeEnter of a method that isn't linked"],
};

// The rows of a lane: the kind of bars, what one is called, how high it is, and how many lie over one another at most.
const ROWS = [
  { kind: 'sessions', name: 'session', height: 4, most: 1 },
  { kind: 'natives', name: 'native method', height: 13, most: 6 },
  { kind: 'critical', name: 'critical region', height: 9, most: 3 },
  { kind: 'monitors', name: 'monitor', height: 9, most: 3 },
  { kind: 'pending', name: 'exception pending', height: 7, most: 1 },
  { kind: 'buffers', name: 'buffer', height: 9, most: 6 },
  { kind: 'locals', name: 'local reference', height: 9, most: 14 },
];
const OF_ALL = [{ kind: 'globals', name: 'global or weak reference', height: 9, most: 20 }];
const MARKS = 16; // the height of a lane's marks
const LIST = 500; // rows of the list that are shown at once

const view = { from: 1, to: LINES + 1 };
let chosen = null; // the line that is chosen, and the names of references in it
let tab = data.denied || !data.advised ? 'denied' : 'advice';

// ---- bars

function barOf(kind, it) {
  const [thread, start, end, name, of, by, place, endedBy, endedAt] = it;
  return { kind, thread, start, end: end || LINES + 1, isOpen: !end, name: word(name), of: word(of), by: word(by),
    place: word(place), endedBy: word(endedBy), endedAt: word(endedAt) };
}

const bars = {};
for (const kind of Object.keys(data.bars)) {
  bars[kind] = data.bars[kind].bars.map((it) => barOf(kind, it));
}

function lane(title, rows, thread) {
  const own = rows.map((row) => ({ ...row,
    bars: bars[row.kind].filter((bar) => thread === null || bar.thread === thread) }));
  const marks = thread === null ? [] : [
    ...data.denials.filter((it) => it[1] === thread).map((it) => ({ line: it[0], kind: 'denied' })),
    ...data.advice.filter((it) => it[0] && threadAt(it[0]) === thread).map((it) => ({ line: it[0], kind: 'advice' }))];
  return { title, rows: own.filter((row) => row.bars.length), marks };
}

// Which thread's line it is isn't told with advice: that of the denial there, or of the native method around it.
function threadAt(line) {
  const native = bars.natives.filter((bar) => bar.start <= line && line <= bar.end).pop()
    || bars.sessions.filter((bar) => bar.start <= line && line <= bar.end).pop();
  return native ? native.thread : data.threads[0];
}

const lanes = data.threads.map((number) => lane(number ? `thread ${number}` : 'thread 0: the machine', ROWS, number))
  .concat([lane('global and weak references, of all threads', OF_ALL, null)])
  .filter((it) => it.rows.length || it.marks.length);

// ---- drawing

const colors = {};
function readColors() {
  const style = getComputedStyle(document.documentElement);
  for (const name of ['back', 'panel', 'ink', 'quiet', 'line', 'strong', 'chosen', 'denied', 'advice',
    ...Object.keys(bars)]) {
    colors[name] = style.getPropertyValue(`--${name}`).trim();
  }
}

function sized(canvas, height) {
  const ratio = window.devicePixelRatio || 1;
  const width = canvas.clientWidth;
  canvas.width = Math.round(width * ratio);
  canvas.height = Math.round(height * ratio);
  canvas.style.height = `${height}px`;
  const context = canvas.getContext('2d');
  context.setTransform(ratio, 0, 0, ratio, 0, 0);
  context.clearRect(0, 0, width, height);
  return [context, width];
}

const place = (line, width) => ((line - view.from) / (view.to - view.from)) * width;

// Puts each bar that is seen into the first track that is free. Those for which there is none aren't drawn.
function packed(row) {
  const ends = [];
  const seen = [];
  let left = 0;
  for (const bar of row.bars) {
    if (bar.start >= view.to || bar.end <= view.from) continue;
    let track = ends.findIndex((end) => end <= bar.start);
    if (track < 0) track = ends.length;
    if (track >= row.most) {
      left++;
      continue;
    }
    ends[track] = bar.end;
    seen.push({ bar, track });
  }
  return { seen, left, tracks: ends.length };
}

function drawMark(context, mark, width) {
  const x = place(mark.line + 0.5, width);
  context.fillStyle = colors[mark.kind];
  context.beginPath();
  if (mark.kind === 'denied') {
    context.moveTo(x - 5, 2);
    context.lineTo(x + 5, 2);
    context.lineTo(x, 13);
  } else {
    context.moveTo(x, 2);
    context.lineTo(x + 5, 7.5);
    context.lineTo(x, 13);
    context.lineTo(x - 5, 7.5);
  }
  context.fill();
}

function drawBar(context, box, bar) {
  const isChosen = chosen && chosen.names.has(bar.name);
  context.fillStyle = colors[bar.kind];
  context.fillRect(box.x, box.y, box.width, box.height);
  if (isChosen) {
    context.strokeStyle = colors.denied;
    context.lineWidth = 2;
    context.strokeRect(box.x, box.y, box.width, box.height);
  }
  const text = bar.kind === 'natives' ? bar.by || 'native' : bar.name;
  if (box.height >= 7 && box.width > 8 + 7 * text.length) {
    context.fillStyle = colors.ink;
    context.font = `${Math.min(10, box.height + 1)}px system-ui, sans-serif`;
    context.textBaseline = 'middle';
    context.fillText(text, Math.max(box.x, 0) + 4, box.y + box.height / 2 + 0.5);
  }
}

function drawLane(it) {
  const rows = it.rows.map((row) => ({ row, ...packed(row) }));
  const height = (it.marks.length ? MARKS : 0)
    + rows.reduce((sum, { row, tracks }) => sum + tracks * (row.height + 1) + (tracks ? 3 : 0), 0);
  const [context, width] = sized(it.canvas, Math.max(height, 4));
  it.boxes = [];
  let y = it.marks.length ? MARKS : 0;
  let left = 0;
  for (const { row, seen, tracks, left: more } of rows) {
    for (const { bar, track } of seen) {
      const x = Math.max(place(bar.start, width), -2);
      const box = { x, y: y + track * (row.height + 1), height: row.height, bar, row,
        width: Math.max(Math.min(place(bar.end, width), width + 2) - x, 1.5) };
      drawBar(context, box, bar);
      it.boxes.push(box);
    }
    y += tracks * (row.height + 1) + (tracks ? 3 : 0);
    left += more;
  }
  if (chosen) {
    context.fillStyle = colors.denied;
    context.globalAlpha = 0.35;
    context.fillRect(place(chosen.line + 0.5, width) - 1, 0, 2, Math.max(height, 4));
    context.globalAlpha = 1;
  }
  for (const mark of it.marks) {
    if (mark.line >= view.from && mark.line < view.to) drawMark(context, mark, width);
  }
  it.more.textContent = left ? `  ${left} more bars lie here` : '';
}

function drawOverview() {
  const [context, width] = sized(at('overview'), 46);
  const [questions, denials] = data.counts;
  const columns = Math.max(Math.ceil(LINES / data.width), 1);
  const most = Math.max(...questions, 1);
  const each = width / (LINES / data.width);
  for (let column = 0; column < columns; column++) {
    const height = (questions[column] / most) * 34;
    context.fillStyle = colors.natives;
    context.fillRect(column * each, 44 - height, Math.max(each, 1), height);
    if (denials[column]) {
      context.fillStyle = colors.denied;
      context.fillRect(column * each, 2, Math.max(each, 2), 6);
    }
  }
  const from = ((view.from - 1) / LINES) * width;
  const to = ((view.to - 1) / LINES) * width;
  context.strokeStyle = colors.strong;
  context.lineWidth = 2;
  context.strokeRect(from + 1, 1, Math.max(to - from - 2, 3), 44);
}

let isDue = false;
function draw() {
  if (isDue) return;
  isDue = true;
  requestAnimationFrame(() => {
    isDue = false;
    drawOverview();
    lanes.forEach(drawLane);
    at('range').textContent = `lines ${Math.floor(view.from)} to ${Math.ceil(view.to) - 1} of ${data.lines}`;
  });
}

// ---- moving

function look(from, to) {
  const length = Math.min(Math.max(to - from, 10), LINES);
  const start = Math.min(Math.max(from, 1), LINES + 1 - length);
  view.from = start;
  view.to = start + length;
  draw();
}

function zoom(factor, middle) {
  const length = (view.to - view.from) * factor;
  look(middle - (middle - view.from) * factor, middle - (middle - view.from) * factor + length);
}

const lineAt = (canvas, x) => view.from + (x / canvas.clientWidth) * (view.to - view.from);

function dragged(canvas, move) {
  canvas.addEventListener('pointerdown', (down) => {
    let last = down.clientX;
    canvas.setPointerCapture(down.pointerId);
    const moved = (event) => {
      move(event.clientX - last, event);
      last = event.clientX;
    };
    canvas.addEventListener('pointermove', moved);
    canvas.addEventListener('pointerup', () => canvas.removeEventListener('pointermove', moved), { once: true });
  });
}

// ---- what stands under the pointer

function told(bar, row) {
  const lines = [`${row.name} ${bar.name}`.trim()];
  if (bar.kind === 'monitors') {
    lines[0] = `monitor of ${bar.name}`;
  } else if (bar.of && bar.kind !== 'natives') {
    lines.push(bar.of);
  }
  const made = bar.by ? ` by ${bar.by}` : '';
  lines.push(`from line ${bar.start}${made}${bar.place ? ` at ${bar.place}` : ''}`);
  const ended = bar.endedBy ? ` by ${bar.endedBy}` : '';
  lines.push(bar.isOpen ? 'to the end' : `to line ${bar.end}${ended}${bar.endedAt ? ` at ${bar.endedAt}` : ''}`);
  return lines;
}

function under(it, event) {
  const { left, top } = it.canvas.getBoundingClientRect();
  const x = event.clientX - left;
  const y = event.clientY - top;
  return it.boxes.find((box) => x >= box.x - 1 && x <= box.x + box.width + 1 && y >= box.y && y <= box.y + box.height);
}

function markUnder(it, event) {
  const { left, top } = it.canvas.getBoundingClientRect();
  if (event.clientY - top > MARKS) return null;
  const near = it.marks.filter((mark) => Math.abs(place(mark.line + 0.5, it.canvas.clientWidth) + left - event.clientX) < 6);
  return near[near.length - 1] || null;
}

function showTip(it, event) {
  const box = under(it, event);
  const tip = at('tip');
  tip.hidden = !box;
  if (box) {
    tip.textContent = told(box.bar, box.row).join('\n');
    tip.style.left = `${Math.min(event.clientX + 14, window.innerWidth - 490)}px`;
    tip.style.top = `${event.clientY + 16}px`;
  }
}

// ---- the list

function element(name, text, className) {
  const made = document.createElement(name);
  if (text !== undefined) made.textContent = text;
  if (className) made.className = className;
  return made;
}

const FOUND = {
  denied: () => data.denials.map(([line, thread, rule, fun, operands, note]) => ({
    line, strong: `${rule} ${RULES[rule][0]}`, className: 'denied', text: ` ${word(fun)} ${word(operands)}`,
    small: `line ${line}, thread ${thread}${word(note) ? `, ${word(note)}` : ''}`,
    names: word(operands).split(' '), more: [`${RULES[rule][1]}.`] })),
  places: () => data.places.map(([rule, fun, note, count]) => ({
    line: null, strong: `${count} × ${rule} ${RULES[rule][0]}`, className: 'denied', text: ` ${word(fun)}`,
    small: word(note) || 'no place', names: [], more: [`${RULES[rule][1]}.`], find: `${word(fun)} ${word(note)}` })),
  advice: () => data.advice.map(([line, kind, fun, says, more]) => ({
    line, strong: kind, className: 'advice', text: ` ${word(fun)}`, small: line ? `line ${line}` : 'at the end',
    names: [], more: [`${word(says)}.`, ...more.map(word)] })),
  leaks: () => data.leaks.map(([what, by, note, count, names]) => ({
    line: names[0][1], strong: `${count} ${what}${count > 1 ? 's' : ''}`, className: '', text: word(by) ? ` by ${word(by)}` : '',
    small: word(note) || `since line ${names[0][1]}`, names: names.map((it) => it[0]),
    more: names.map(([name, line]) => `${name} since line ${line}`) })),
};
const TABS = [['denied', 'denied', data.denied], ['places', 'by place', data.places.length],
  ['advice', 'advice', data.advised], ['leaks', 'left', data.leaks.length]];

function showDetail(it) {
  const detail = at('detail');
  detail.replaceChildren();
  const head = element('p');
  head.append(element('b', it.strong), element('code', it.text));
  detail.append(head, element('p', it.small), ...it.more.map((text) => element('p', text)));
  for (const kind of ['locals', 'globals', 'buffers']) {
    for (const bar of bars[kind].filter((one) => it.names.includes(one.name)).slice(-5)) {
      detail.append(element('p', told(bar, [...ROWS, ...OF_ALL].find((row) => row.kind === kind)).join('; ')));
    }
  }
}

function choose(it, button) {
  for (const other of at('list').querySelectorAll('[aria-current]')) other.removeAttribute('aria-current');
  button.setAttribute('aria-current', 'true');
  if (it.find !== undefined) {
    at('search').value = it.find;
    tab = 'denied';
    showList();
    return;
  }
  showDetail(it);
  if (it.line) {
    chosen = { line: it.line, names: new Set(it.names) };
    const length = Math.min(view.to - view.from, Math.max(LINES / 20, 60));
    look(it.line - length / 2, it.line + length / 2);
  }
}

function showList() {
  const wanted = at('search').value.toLowerCase().split(' ').filter(Boolean);
  const found = FOUND[tab]().filter((it) => {
    const text = `${it.strong}${it.text} ${it.small} ${it.names.join(' ')}`.toLowerCase();
    return wanted.every((one) => text.includes(one));
  });
  const rows = found.slice(0, LIST).map((it) => {
    const button = element('button');
    button.type = 'button';
    if (it.line) button.dataset.line = it.line;
    button.append(element('b', it.strong, it.className), it.text, document.createElement('br'), element('small', it.small));
    button.addEventListener('click', () => choose(it, button));
    const row = element('li');
    row.append(button);
    return row;
  });
  if (found.length > LIST) rows.push(element('li', `${found.length - LIST} more: search for them`));
  const [, , count] = TABS.find(([name]) => name === tab);
  const listed = FOUND[tab]().length;
  if (count > listed) rows.push(element('li', `${count - listed} more of the same places are counted, and not listed`));
  if (!rows.length) rows.push(element('li', wanted.length ? 'nothing of that' : 'none'));
  at('list').replaceChildren(...rows);
  for (const button of at('tabs').children) button.setAttribute('aria-pressed', String(button.dataset.tab === tab));
}

// ---- beginning

function sum() {
  const parts = [`${data.lines} lines`, `${data.questions} calls judged`, `${data.denied} denied`];
  if (data.advised) parts.push(`${data.advised} pieces of advice`);
  const folded = Object.values(data.bars).reduce((all, it) => all + it.count - it.bars.length, 0);
  if (folded) parts.push(`${folded} short bars folded`);
  if (data.cut) parts.push('the last line was cut off');
  return parts.join(', ');
}

function addLanes() {
  for (const it of lanes) {
    const box = element('div', undefined, 'lane');
    const title = element('h2', it.title);
    it.more = element('span');
    title.append(it.more);
    it.canvas = document.createElement('canvas');
    box.append(title, it.canvas);
    at('lanes').append(box);
    it.boxes = [];
    it.canvas.addEventListener('pointermove', (event) => showTip(it, event));
    it.canvas.addEventListener('pointerleave', () => { at('tip').hidden = true; });
    it.canvas.addEventListener('wheel', (event) => {
      if (!event.ctrlKey && !event.shiftKey && Math.abs(event.deltaY) > Math.abs(event.deltaX)) return;
      event.preventDefault();
      zoom(event.deltaY > 0 ? 1.25 : 0.8, lineAt(it.canvas, event.offsetX));
    }, { passive: false });
    dragged(it.canvas, (by) => {
      const lines = (by / it.canvas.clientWidth) * (view.to - view.from);
      look(view.from - lines, view.to - lines);
    });
    it.canvas.addEventListener('click', (event) => {
      const mark = markUnder(it, event);
      if (mark) openLine(mark.line, mark.kind);
    });
    it.canvas.addEventListener('dblclick', (event) => zoom(0.5, lineAt(it.canvas, event.offsetX)));
  }
}

// Chooses what stands at this line.
function openLine(line, kind) {
  tab = kind;
  at('search').value = `line ${line}`;
  showList();
  const button = at('list').querySelector(`[data-line="${line}"]`);
  if (button) {
    button.click();
    button.scrollIntoView({ block: 'nearest' });
  }
}

function addLegend() {
  for (const { kind, name } of [...ROWS, ...OF_ALL, { kind: 'denied', name: 'denied call' }, { kind: 'advice', name: 'advice' }]) {
    if (bars[kind] && !bars[kind].length) continue;
    const entry = element('span');
    const color = element('i');
    color.style.background = `var(--${kind})`;
    entry.append(color, name);
    at('legend').append(entry);
  }
}

function addTabs() {
  for (const [name, title, count] of TABS) {
    const button = element('button', `${title} ${count}`);
    button.type = 'button';
    button.dataset.tab = name;
    button.addEventListener('click', () => { tab = name; showList(); });
    at('tabs').append(button);
  }
}

function theme(name) {
  document.documentElement.dataset.theme = name;
  readColors();
  draw();
}

function begin() {
  const wantsDark = window.matchMedia('(prefers-color-scheme: dark)');
  at('sum').textContent = sum();
  addLanes();
  addLegend();
  addTabs();
  showList();
  theme(wantsDark.matches ? 'dark' : 'light');
  at('theme').addEventListener('click', () =>
    theme(document.documentElement.dataset.theme === 'dark' ? 'light' : 'dark'));
  wantsDark.addEventListener('change', (event) => theme(event.matches ? 'dark' : 'light'));
  at('search').addEventListener('input', showList);
  at('closer').addEventListener('click', () => zoom(0.5, (view.from + view.to) / 2));
  at('wider').addEventListener('click', () => zoom(2, (view.from + view.to) / 2));
  at('whole').addEventListener('click', () => look(1, LINES + 1));
  dragged(at('overview'), (by, event) => {
    const length = view.to - view.from;
    const middle = 1 + (event.offsetX / at('overview').clientWidth) * LINES;
    look(middle - length / 2, middle + length / 2);
  });
  window.addEventListener('resize', draw);
  window.addEventListener('keydown', (event) => {
    if (event.target === at('search')) return;
    const length = view.to - view.from;
    const steps = { ArrowLeft: -0.2, ArrowRight: 0.2 };
    if (event.key in steps) look(view.from + length * steps[event.key], view.to + length * steps[event.key]);
    if (event.key === '+') zoom(0.5, (view.from + view.to) / 2);
    if (event.key === '-') zoom(2, (view.from + view.to) / 2);
    if (event.key === '0') look(1, LINES + 1);
  });
}

begin();
