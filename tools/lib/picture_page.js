// What the page of tools/picture does in the browser: it shows the lines of whatever is pointed at,
// hides rows and columns, and jumps from theft to theft. A layout gives what is hidden neither
// height nor width. The page holds its elements as text: a browser makes few of them a second, so
// only those near the window are made, and moved to their places.
const byId = it => document.getElementById(it), told = JSON.parse(byId('told').textContent);
const run = byId('run'), about = byId('about'), seek = byId('seek'), fold = byId('fold'), file = byId('file'), found = byId('found'), strip = byId('strip');
const header = document.querySelector('#lanes svg'), main = document.querySelector('main'), marks = run.querySelector('defs');
let fixed = false, layoutDone = null;

// The lines of what is pointed at.
function tell(place) {
  about.textContent = place.dataset.e.split(' ').map(Number).map(e => (e < told.lines.length ? 'line ' + (e + 1) + ':  ' + told.lines[e] : 'the end') +
    (told.report[e] || []).map(t => '\n        ' + t).join('')).join('\n');
}
document.addEventListener('mouseover', it => { const place = it.target.closest('[data-e]'); if (place && !fixed) tell(place); });
main.addEventListener('click', it => {
  const place = it.target.closest('[data-e]');
  if (place && place.classList.contains('more')) { toggle(+place.dataset.g); return; }
  fixed = !!place && !fixed;
  if (place) tell(place);
});

// The rows, with their places as drawn, and the texts of all other elements, with the heights that
// each reaches from and to.
const rows = told.tops.slice(0, -1).map((top, at) => ({e: told.from + at, top, high: told.tops[at + 1] - top, kind: told.loud[told.from + at], clocks: told.clocks[at], parts: null}));
const rowOf = e => rows[e - told.from];
const drawn = byId('drawn').textContent.split('\n').filter(Boolean), from = new Float64Array(drawn.length), to = new Float64Array(drawn.length);
const width = +run.getAttribute('width'), height = +run.getAttribute('height');
const valueIn = (text, name) => parseFloat(text.slice(text.indexOf(` ${name}="`) + name.length + 3));
const keysIn = text => (/ data-k="([^"]*)"/.exec(text) || ['', ''])[1].split(' ').filter(Boolean);
const pointsOf = d => [...d.matchAll(/[ML](-?[\d.]+) (-?[\d.]+)/g)].map(p => [+p[1], +p[2]]);
const isLane = text => text.startsWith('<line class="lane"');
drawn.forEach((text, n) => {
  if (text[1] == 'p') { const ys = pointsOf(/ d="([^"]*)"/.exec(text)[1]).map(p => p[1]); from[n] = Math.min(...ys); to[n] = Math.max(...ys); }
  else if (text[1] == 'l') { from[n] = valueIn(text, 'y1'); to[n] = valueIn(text, 'y2'); }
  else { from[n] = valueIn(text, text[1] == 'c' ? 'cy' : 'y'); to[n] = from[n] + (text[1] == 'r' ? valueIn(text, 'height') : 0); }
});

// Makes elements of their texts. Each has its keys, and its places as drawn.
const nursery = document.createElementNS('http://www.w3.org/2000/svg', 'svg');
const number = (it, name) => parseFloat(it.getAttribute(name));
function element(it) {
  const made = {it, tag: it.tagName, keys: (it.dataset.k || '').split(' ').filter(Boolean), version: 0};
  if (made.tag == 'rect') Object.assign(made, {x: number(it, 'x'), y: number(it, 'y'), w: number(it, 'width'), h: number(it, 'height')});
  else if (made.tag == 'line') Object.assign(made, {x: number(it, 'x1'), y: number(it, 'y1'), x2: number(it, 'x2'), y2: number(it, 'y2')});
  else if (made.tag == 'circle') Object.assign(made, {x: number(it, 'cx'), y: number(it, 'cy')});
  else if (made.tag == 'text') Object.assign(made, {x: number(it, 'x'), y: number(it, 'y')});
  else {
    made.d = it.getAttribute('d');
    made.points = pointsOf(made.d);
    [made.x, made.y] = made.points[0];
  }
  return made;
}
function make(texts) {
  nursery.innerHTML = texts.join('');
  return [...nursery.children].map(element);
}
const ready = [];  // the elements of `drawn` that are made
function ensure(wanted) {
  const lacking = wanted.filter(n => !ready[n]);
  make(lacking.map(n => drawn[n])).forEach((one, at) => { ready[lacking[at]] = one; });
}

// A row: its ground, and then its number, its line and the clocks that it changed.
const escaped = text => text.replace(/[&<>"]/g, c => `&#${c.charCodeAt(0)};`), short = text => text.length > told.most ? text.slice(0, told.most - 1) + '\u2026' : text;
function rowTexts({e, top, high, kind, clocks}) {
  const y = top + 15, bad = told.refused && e == told.lines.length - 1, line = e == 0 && !bad ? 'start' : e < told.lines.length ? short(told.lines[e]) : 'end';
  const text = (x, kind, words, end) => `<text x="${x}" y="${y}" class="${kind}" data-e="${e}"${end ? ' text-anchor="end"' : ''}>${escaped(words)}</text>`;
  const texts = [`<rect class="row ${kind || (e % 2 ? 'even' : '')}" x="0" y="${top}" width="${width}" height="${high}" data-e="${e}"/>`, text(told.places.line, bad ? 'line bad' : 'line', line)];
  if (e > 0 && e < told.lines.length) texts.push(text(told.places.number, 'no', String(e), true));
  for (let at = 0; at < clocks.length; at += 2) texts.push(text(told.places.clocks[clocks[at]], 'clock', String(clocks[at + 1]), true));
  return texts;
}
function ensureRows(wanted) {
  const lacking = wanted.filter(row => !row.parts), texts = lacking.map(rowTexts), made = make(texts.flat());
  let at = 0;
  lacking.forEach((row, n) => { row.parts = made.slice(at, at += texts[n].length); row.it = row.parts[0].it; });
}
let folded = [], nearTop = 0, nearBottom = -1, everything = false, version = 0;
const titles = [...header.children].map(element);

// What the rows are about: thefts, losses and refusals, and which are quiet.
const kinds = {t: [], l: [], r: []}, names = {t: 'theft', l: 'loss', r: 'refusal'}, busy = new Set([0, rows[rows.length - 1].e]);
for (const {e} of rows) {
  const texts = told.report[e] || [];
  if (texts.length) busy.add(e);
  if (texts.some(t => t.startsWith('steal '))) kinds.t.push(e);
  if (texts.some(t => /^(lost|drop) |^answer c\d+ \d+ lost/.test(t))) kinds.l.push(e);
  if (texts.some(t => /^send \d+ \w+ \w+ nack|^answer c\d+ \d+ refused|^line /.test(t))) kinds.r.push(e);
}
for (const text of drawn) if ((text[1] == 'p' || text[1] == 'c' || text[1] == 'l') && !text.startsWith('<circle class="step"')) {
  const events = / data-e="([^"]*)"/.exec(text);
  if (events && text.includes(' data-k="')) events[1].split(' ').forEach(e => busy.add(+e));
}
function quiet() {
  const stretches = [];
  let from = -1;
  rows.forEach((row, at) => {
    if (!busy.has(row.e) && /^(adv|tick) /.test(told.lines[row.e] || '')) { if (from < 0) from = at; }
    else { if (from >= 0 && at - from > 2) stretches.push([from, at]); from = -1; }
  });
  return stretches;
}

// A map that is made of pieces: if a piece is hidden, it has no length.
function pieces(cuts, end) {
  const starts = [0], goals = [0], sizes = [];
  let at = 0, goal = 0;
  const add = (until, shown) => { const size = Math.max(0, until - at); sizes[sizes.length - 1] = shown ? size : 0; goal += shown ? size : 0; at = until; starts.push(at); goals.push(goal); sizes.push(0); };
  sizes.push(0);
  for (const [from, to] of cuts) { if (from > at) add(from, true); if (to > at) add(to, false); }
  add(end, true);
  const place = v => { let low = 0, high = starts.length - 1; while (low < high) { const mid = (low + high + 1) >> 1; if (starts[mid] <= v) low = mid; else high = mid - 1; } return low; };
  const map = v => { const i = place(v); return goals[i] + Math.min(v - starts[i], i < starts.length - 1 ? sizes[i] : v - starts[i]); };
  map.hides = v => { const i = place(v); return i < starts.length - 1 && sizes[i] == 0; };
  map.back = v => { let low = 0, high = goals.length - 1; while (low < high) { const mid = (low + high + 1) >> 1; if (goals[mid] <= v) low = mid; else high = mid - 1; } return starts[low] + v - goals[low]; };
  return map;
}
const joined = cuts => cuts.sort((a, b) => a[0] - b[0]);

// Groups of similar notes at one event: one line stands for them. It opens and closes its group,
// which has no height while it is closed. `opened` has the numbers of the groups that are open.
const opened = new Set();
function toggle(group) {
  if (!opened.delete(group)) opened.add(group);
  layout();
}
function openAll() {
  if (opened.size) opened.clear();
  else told.groups.forEach((it, n) => opened.add(n));
  layout();
}

function wanted() {
  return seek.value.trim().split(/\s+/).filter(Boolean).map(w => /^\d+:\d+$/.test(w) ? 'f' + w : /^\d+$/.test(w) ? 'm' + w : w);
}

function layout() {
  const words = wanted(), files = told.columns.map(c => c[0]).filter(k => k[0] == 'f');
  const hits = new Set(words.length ? drawn.flatMap((text, n) => !isLane(text) && text.includes(' data-k="') && keysIn(text).some(k => words.includes(k)) ? [n] : []) : []);
  const filters = hits.size > 0, shownRows = new Set();
  // the nodes and files in view: those that the filter names, and those of what it finds
  const inView = new Set(words.length ? words : told.nodes);
  for (const n of hits) {
    ((/ data-e="([^"]*)"/.exec(drawn[n]) || [])[1] || '').split(' ').filter(Boolean).forEach(e => shownRows.add(+e));
    keysIn(drawn[n]).forEach(k => { if (/^[csd]\d/.test(k)) inView.add(k); });
  }
  const named = words.filter(w => w[0] == 'f');
  const shownFiles = new Set(named.length ? named : file.value == 'all' ? files : [file.value]);
  const stretches = fold.checked && !words.length ? quiet() : [];
  const hidden = new Set();
  rows.forEach((row, at) => { if (filters && !shownRows.has(row.e) && at > 0 && at < rows.length - 1) hidden.add(at); });
  stretches.forEach(([from, to]) => { for (let at = from + 1; at < to; at++) hidden.add(at); });
  const closed = told.groups.filter((it, n) => !opened.has(n)).map(([, from, to]) => [from, to]);
  const my = pieces(joined([...[...hidden].map(at => [rows[at].top, rows[at].top + rows[at].high]), ...closed]), height);
  const mx = pieces(joined(told.columns.filter(([k]) => k[0] == 'f' ? !shownFiles.has(k) : filters && !inView.has(k)).map(([, from, to]) => [from, to])), width);
  folded = [];
  for (const it of titles) place(it, mx, null, false);
  const first = titles.find(it => it.it.classList.contains('locks')), lane = titles.find(it => it.keys.some(k => shownFiles.has(k)));
  if (first && lane) { first.it.classList.remove('off'); first.it.setAttribute('x', mx(lane.x)); }
  stretches.forEach(([from, to]) => foldedText(rows[from], to - from, rows[to - 1].e, mx, my));
  const w = mx(width), h = my(height);
  run.setAttribute('width', w); run.setAttribute('height', h); run.setAttribute('viewBox', `0 0 ${w} ${h}`);
  header.setAttribute('width', w); header.setAttribute('viewBox', `0 0 ${w} 32`);
  found.textContent = words.length ? (filters ? rows.length - hidden.size + ' of ' + rows.length + ' rows' : 'no matches') : '';
  layoutDone = {mx, my, hidden, hits, filters, inView, notes: mx(told.notes), width: w};
  document.body.dataset.rows = rows.length - hidden.size;
  version++;
  nearBottom = -1;
  near();
  setTimeout(overview);
}

// Whether the filter hides an element. Leases, timers and nodes that aren't running stay beside
// what it finds.
function isOff(one, n) {
  const {filters, hits, inView} = layoutDone;
  if (!filters || !one.keys.length || hits.has(n) || isLane(drawn[n])) return false;
  return !(/\b(lease|timer|grace|cut|down|downdots)\b/.test(one.it.getAttribute('class')) && one.keys.every(k => inView.has(k)));
}

// Puts the elements near the window into the page, and takes the others out; all of them for paper.
// At first, only what is in the window is put there, so that the page opens at once.
const BEYOND = 800;
let beyond = 0;
function near() {
  const top = -main.getBoundingClientRect().top, bottom = top + innerHeight;
  if (nearBottom >= 0 && (everything || top >= nearTop && bottom <= nearBottom)) return;
  [nearTop, nearBottom] = everything ? [-Infinity, Infinity] : [top - beyond, bottom + beyond];
  beyond = BEYOND;
  const {mx, my, hidden} = layoutDone, first = my.back(nearTop - 20), last = my.back(nearBottom + 20);
  const wantedRows = rows.filter((row, at) => row.top + row.high >= first && row.top <= last && !hidden.has(at)), wanted = [];
  for (let n = 0; n < drawn.length; n++) {
    if (to[n] >= first && from[n] <= last && !(my.hides(from[n]) && my(from[n]) == my(to[n])) || n == behindAt) wanted.push(n);
  }
  ensureRows(wantedRows);
  ensure(wanted);
  const live = [], show = (one, off) => {
    if (one.version != version) { place(one, mx, my, off()); one.version = version; }
    if (!one.it.classList.contains('off') || one == behind) live.push(one.it);
  };
  wantedRows.forEach(row => show(row.parts[0], () => false));
  wantedRows.forEach(row => row.parts.slice(1).forEach(one => show(one, () => false)));
  wanted.forEach(n => show(ready[n], () => isOff(ready[n], n)));
  run.replaceChildren(marks, ...live, ...folded);
  moved = null;
  keepNotes();
}
addEventListener('beforeprint', () => { everything = true; nearBottom = -1; near(); });
addEventListener('afterprint', () => { everything = false; nearBottom = -1; near(); });

// The column that says what happened stays in sight: if the page is wider than the window, the
// column moves over the lanes, as far as the middle of the window.
const behindAt = drawn.findIndex(text => text.startsWith('<rect class="behind'));
ensure([behindAt]);
const behind = ready[behindAt];
let moved = 0;
function keepNotes() {
  const wide = document.documentElement.clientWidth, left = Math.max(wide * 0.55, wide - told.strip - (layoutDone.width - layoutDone.notes));
  const by = Math.min(0, Math.round(scrollX + left - layoutDone.notes));
  behind.it.classList.toggle('off', by == 0);
  document.body.dataset.notes = layoutDone.notes + by - scrollX;
  if (by == moved) return;
  moved = by;
  const said = [...run.querySelectorAll('text.note,text.folded,rect.behind'), header.querySelector('text.observed')].filter(Boolean);
  for (const it of said) it.style.transform = by ? `translateX(${by}px)` : '';
}

function place(one, mx, my, off) {
  const it = one.it, y = v => my ? my(v) : v, set = (name, v) => it.setAttribute(name, v), lane = it.classList.contains('lane');
  if (it.classList.contains('more')) it.textContent = (opened.has(+it.dataset.g) ? '\u25be' : '\u25b8') + it.textContent.slice(1);
  let gone = off || !it.classList.contains('row') && (one.tag == 'text' || one.tag == 'circle' || lane || one.tag == 'rect') && mx.hides(one.x);
  if (my && (one.tag == 'text' || one.tag == 'circle') && my.hides(one.y)) gone = true;
  if (one.tag == 'rect') {
    const h = y(one.y + one.h) - y(one.y);
    set('x', mx(one.x)); set('width', it.classList.contains('row') ? mx(one.x + one.w) - mx(one.x) : one.w); set('y', y(one.y)); set('height', h);
    gone = gone || h <= 0;
  } else if (one.tag == 'line') {
    set('x1', mx(one.x)); set('x2', mx(one.x2)); set('y1', y(one.y)); set('y2', y(one.y2));
    gone = gone || mx.hides(one.x) && mx.hides(one.x2) || my && !lane && one.y == one.y2 && my.hides(one.y);
  } else if (one.tag == 'circle') { set('cx', mx(one.x)); set('cy', y(one.y)); }
  else if (one.tag == 'text') { set('x', mx(one.x)); set('y', y(one.y)); }
  else {
    let at = 0;
    set('d', one.d.replace(/([ML])(-?[\d.]+) (-?[\d.]+)/g, (all, letter) => { const p = one.points[at++]; return `${letter}${mx(p[0])} ${y(p[1])}`; }));
    gone = gone || mx.hides(one.x) || mx.hides(one.points[one.points.length - 1][0]) || my && one.points.every(p => my.hides(p[1]));
  }
  it.classList.toggle('off', !!gone);
}

function foldedText(row, count, last, mx, my) {
  const text = document.createElementNS('http://www.w3.org/2000/svg', 'text');
  text.setAttribute('class', 'folded'); text.setAttribute('x', mx(told.notes)); text.setAttribute('y', my(row.top) + 15);
  text.textContent = `\u22ef ${count} quiet events, to ${last}`;
  folded.push(text);
}

// The overview strip: the whole run from top to bottom.
function overview() {
  const total = layoutDone.my(height), losses = new Set(kinds.l);
  strip.textContent = '';
  for (const row of rows) {
    const kind = ['steal', 'refused', 'lost', 'crash', 'start'].find(k => row.kind == k) || (losses.has(row.e) ? 'drop' : null);
    if (kind) { const mark = document.createElement('i'); mark.className = kind; mark.style.top = 100 * layoutDone.my(row.top) / total + '%'; strip.append(mark); }
  }
  strip.append(document.createElement('b'));
  viewport();
  keepNotes();
}
function viewport() {
  const box = strip.querySelector('b'), total = layoutDone.my(height), start = -main.getBoundingClientRect().top;
  if (box) { box.style.top = Math.max(0, 100 * start / total) + '%'; box.style.height = 100 * Math.min(1, innerHeight / total) + '%'; }
}
addEventListener('scroll', () => { viewport(); near(); keepNotes(); });
addEventListener('resize', () => { viewport(); near(); keepNotes(); });
strip.addEventListener('click', it => scrollTo(scrollX, main.offsetTop + layoutDone.my(height) * it.clientY / innerHeight - innerHeight / 2));

// Going to events.
let here = null, at = -1;
function go(e) {
  const row = rowOf(e);
  if (!row) return;
  ensureRows([row]);
  if (here) here.classList.remove('here');
  here = row.it; at = e;
  here.classList.add('here');
  scrollTo(scrollX, main.offsetTop + layoutDone.my(row.top) - innerHeight / 3);
  near();
  tell(row.it);
  document.body.dataset.here = Math.round(row.it.getBoundingClientRect().top);
}
function next(kind, back) {
  const shown = kinds[kind].filter(e => !layoutDone.my.hides(rowOf(e).top));
  const to = back ? shown.filter(e => e < at).pop() : shown.find(e => e > at);
  found.textContent = to === undefined ? `no ${back ? 'earlier' : 'later'} ${names[kind]} (${shown.length} in total)` : `${names[kind]} ${shown.indexOf(to) + 1} of ${shown.length}, event ${to}`;
  if (to !== undefined) go(to);
}
document.addEventListener('keydown', it => {
  if (it.target == seek || it.ctrlKey || it.metaKey || it.altKey) return;
  const key = it.key.toLowerCase();
  if (kinds[key]) next(key, it.shiftKey);
  else if (key == 'f') { fold.checked = !fold.checked; layout(); }
  else if (key == 'o') openAll();
  else if (key == '/') { seek.focus(); it.preventDefault(); }
});

// The state at first: what the tool's arguments say, and what the address says after #
// (only=1:2+c1&fold=1&file=1:2&at=714&open=1&key=t).
const state = {...told.first, ...Object.fromEntries(new URLSearchParams(location.hash.slice(1)))}, all = told.columns.filter(c => c[0][0] == 'f').map(c => c[0]);
for (const k of ['all', ...all]) file.append(new Option(k == 'all' ? 'all files' : k.slice(1), k));
const locks = {};
for (const text of drawn) if (text.startsWith('<rect class="lock ')) { const [k] = keysIn(text); locks[k] = (locks[k] || 0) + 1; }
const most = all.reduce((best, k) => (locks[k] || 0) > (locks[best] || 0) ? k : best, all[0]);
file.value = state.file ? 'f' + state.file : all.length > 3 ? most : 'all';
seek.value = state.only || '';
fold.checked = state.fold === true || state.fold == '1';
file.addEventListener('change', layout);
fold.addEventListener('change', layout);
seek.addEventListener('input', layout);
everything = state.all == '1';
if (state.open == '1') openAll();
else layout();
if (state.at) go(+state.at);
if (state.key) for (const key of state.key) next(key.toLowerCase(), key != key.toLowerCase());


// For tools/checks/browser: clicks on the first line that opens, labels of one event that overlap,
// notes that are cut off, and when the page could be seen.
for (let n = 0; n < (+state.click || 0); n++) run.querySelector('text.more').dispatchEvent(new MouseEvent('click', {bubbles: true}));
if (state.check) {
  const boxes = [...run.querySelectorAll('text.label,text.small,text.note')].filter(it => it.dataset.e).map(it => ({event: it.dataset.e.split(' ')[0], text: it.textContent, box: it.getBBox()}));
  const apart = (a, b) => a.x + a.width <= b.x + 1 || b.x + b.width <= a.x + 1 || a.y + a.height <= b.y + 3 || b.y + b.height <= a.y + 3;
  const events = new Map();
  boxes.forEach(it => events.set(it.event, [...events.get(it.event) || [], it]));
  const over = [...events.values()].flatMap(these => these.flatMap((one, at) => these.slice(at + 1).filter(other => !apart(one.box, other.box)).map(other => `${one.event}: ${one.text} | ${other.text}`)));
  document.body.dataset.overlaps = over.length;
  document.body.dataset.overlap = over[0] || '';
  document.body.dataset.cut = boxes.filter(it => it.box.x + it.box.width > layoutDone.width - told.strip).length;
}
run.getBoundingClientRect();
document.body.dataset.live = run.children.length;
document.body.dataset.opened = Math.round(performance.now());
