'use strict';
// The page is drawn from the data alone. All text gets into it as text, never as markup.
const data = JSON.parse(document.getElementById('data').textContent);
const SHAPES = {carries: '\u25cf', free: '\u25cb', parallel: '\u2225'};
const KINDS = {flow: '\u25b6', anti: '\u25b7', output: '\u25c6'};
const MARKS = {proven: '\u2501', pending: '\u2505', rejected: '\u2508'};
const MOST = 400;
const COLUMNS = [['source', 0], ['sink', 1], ['name', 2], ['kind', 3], ['level', 4], ['vectors', 6], ['distances', 7], ['mark', 8]];
const state = {loop: null, row: null, order: null, down: false, all: false};
const at = id => document.getElementById(id);
const loops = new Map(data.loops.map(loop => [loop.statement, loop]));
const lines = [];

/** An element with a class and children, which are elements or texts. */
function made(name, kind, ...children) {
  const element = document.createElement(name);
  if (kind) element.className = kind;
  element.append(...children);
  return element;
}

function drawn(name, attributes, ...children) {
  const element = document.createElementNS('http://www.w3.org/2000/svg', name);
  for (const [key, value] of Object.entries(attributes)) element.setAttribute(key, value);
  element.append(...children);
  return element;
}

const counted = (count, word) => `${count} ${word}${count === 1 ? '' : 's'}`;
const statementOf = key => Number(key.split('.')[0]);
const isWithin = (loop, statement) => statement > loop.statement && statement <= loop.last;

/** The rows that belong to the chosen loop: those that it carries; of the whole program all. */
function chosenRows() {
  const rows = data.rows.map((row, number) => ({row, number}));
  const mine = state.loop === null ? rows : rows.filter(one => one.row[5] === state.loop);
  if (state.order === null) return mine;
  const value = one => {
    const cell = one.row[state.order];
    if (state.order < 2) return cell.split('.').reduce((sum, part) => sum * 1e6 + Number(part), 0);
    return cell === null ? -1 : Array.isArray(cell) ? cell.join(' ') : cell;
  };
  const sign = state.down ? -1 : 1;
  return mine.sort((a, b) => {
    const [x, y] = [value(a), value(b)];
    return x < y ? -sign : x > y ? sign : a.number - b.number;
  });
}

function drawSource() {
  const byLine = new Map(data.loops.map(loop => [loop.line, loop]));
  data.source.forEach(([statement, text], place) => {
    const loop = byLine.get(place + 1);
    const shape = made('span', 'shape ' + (loop ? loop.state : ''), loop ? SHAPES[loop.state] : '');
    const line = made('div', 'line', made('span', 'number', statement === null ? '' : String(statement)), shape,
      made('span', 'text', text));
    if (loop) {
      line.classList.add('loop');
      line.tabIndex = 0;
      line.setAttribute('role', 'button');
      line.title = loop.verdict;
      line.addEventListener('click', () => chooseLoop(loop.statement));
      line.addEventListener('keydown', event => { if (event.key === 'Enter') chooseLoop(loop.statement); });
    }
    lines.push(line);
    at('source').append(line);
  });
}

/** The last line of the last statement of a loop. */
function lastLine(loop) {
  let last = loop.line;
  data.source.forEach(([statement], place) => { if (statement !== null && isWithin(loop, statement)) last = place + 1; });
  while (last < data.source.length && /^ {5}[^ 0]/.test(data.source[last][1])) last += 1;
  return last;
}

function drawLoop() {
  const loop = loops.get(state.loop);
  const last = loop ? lastLine(loop) : 0;
  lines.forEach((line, place) => line.classList.toggle('inside', !!loop && place + 1 >= loop.line && place + 1 <= last));
  const of = word => data.loops.filter(one => one.state === word).length;
  at('loop').textContent = loop ? `loop ${loop.statement}: ${loop.header}` : 'the whole program';
  at('verdict').textContent = loop ? `${SHAPES[loop.state]} ${loop.verdict}`
    : `${counted(data.loops.length, 'loop')}: \u25cf ${of('carries')} carry something, \u25cb ${of('free')} are free, \u2225 ${of('parallel')} are parallel`;
  at('verdict').className = loop ? loop.state : '';
  at('advice').replaceChildren(...(loop ? loop.advice : []).map(words => made('li', '', ...phrases(words))));
  drawVariables(loop ? loop.variables : []);
}

// The words as nodes: what stands between backquotes is code.
function phrases(words) {
  return words.split('`').map((part, place) => place % 2 ? made('code', '', part) : part);
}

function drawVariables(variables) {
  const head = made('tr', '', ...['variable', 'role', 'what it means', 'read after'].map(word => made('th', '', word)));
  const rows = variables.map(one => made('tr', '', ...[one.name, one.role, one.words, one.after].map(word => made('td', '', word))));
  at('variables').replaceChildren(...(rows.length ? [made('thead', '', head), made('tbody', '', ...rows)] : []));
}

function drawRows() {
  const rows = chosenRows();
  const shown = state.all ? rows : rows.slice(0, MOST);
  const head = made('tr', '', ...COLUMNS.map(([word, order]) => {
    const button = made('button', '', word + (state.order === order ? (state.down ? ' \u25bc' : ' \u25b2') : ''));
    button.addEventListener('click', () => {
      state.down = state.order === order && !state.down;
      state.order = order;
      drawRows();
    });
    return made('th', '', button);
  }));
  at('rows').replaceChildren(made('thead', '', head), made('tbody', '', ...shown.map(drawnRow)));
  at('count').textContent = counted(rows.length, 'dependence');
  at('more').hidden = shown.length === rows.length;
  at('more').textContent = `show all ${rows.length}`;
}

function drawnRow({row, number}) {
  const cells = COLUMNS.map(([word, place]) => {
    const cell = row[place];
    if (word === 'vectors') return made('td', '', cell.map(vector => `(${vector})`).join(' '));
    if (word === 'distances') return made('td', '', `(${cell})`);
    if (word === 'kind') return made('td', cell, `${KINDS[cell]} ${cell}`);
    if (word === 'mark') return made('td', 'mark', `${MARKS[cell]} ${cell}`);
    return made('td', '', cell === null ? '-' : String(cell));
  });
  const line = made('tr', row[8], ...cells);
  line.tabIndex = 0;
  line.dataset.number = String(number);
  line.setAttribute('aria-selected', String(state.row === number));
  line.addEventListener('click', () => chooseRow(number));
  line.addEventListener('keydown', event => { if (event.key === 'Enter') chooseRow(number); });
  return line;
}

function drawChosen() {
  for (const line of lines) if (line.querySelector('mark')) {
    const text = line.querySelector('.text');
    text.replaceChildren(text.textContent);
  }
  document.getElementById('arrow')?.remove();
  at('why').replaceChildren();
  for (const line of at('rows').querySelectorAll('tbody tr')) {
    line.setAttribute('aria-selected', String(Number(line.dataset.number) === state.row));
  }
  if (state.row === null) return;
  const row = data.rows[state.row];
  at('why').append(made('h3', '', 'why'), ...row[9].map(words => made('p', '', words)));
  const kinds = row[0] === row[1] ? [[row[0], 'source sink']] : [[row[0], 'source'], [row[1], 'sink']];
  markReferences(kinds);
  drawArrow(row);
}

/** Marks references in their lines. The pieces of one line are cut from its right end, so that columns stay true. */
function markReferences(kinds) {
  const pieces = kinds.flatMap(([key, kind]) => data.references[key].pieces.map(([line, first, last]) => ({line, first, last, kind})));
  for (const place of new Set(pieces.map(piece => piece.line))) {
    const text = lines[place - 1].querySelector('.text');
    const whole = text.textContent;
    let end = whole.length;
    const parts = [];
    for (const piece of pieces.filter(one => one.line === place).sort((a, b) => b.first - a.first)) {
      parts.unshift(made('mark', piece.kind, whole.slice(piece.first - 1, piece.last)), whole.slice(piece.last, end));
      end = piece.first - 1;
    }
    text.replaceChildren(whole.slice(0, end), ...parts);
  }
}

function drawArrow(row) {
  const pane = at('source');
  const box = kind => {
    const mark = pane.querySelector(`mark.${kind}`);
    const [mine, outer] = [mark.getBoundingClientRect(), pane.getBoundingClientRect()];
    return {x: mine.left - outer.left + pane.scrollLeft + mine.width / 2, y: mine.top - outer.top + pane.scrollTop, height: mine.height};
  };
  const [from, to] = [box('source'), box('sink')];
  const isSame = row[0] === row[1];
  const [x1, x2] = isSame ? [from.x - 7, to.x + 7] : [from.x, to.x];
  const [y1, y2] = from.y > to.y ? [from.y, to.y + to.height] : from.y < to.y ? [from.y + from.height, to.y] : [from.y, to.y];
  const bend = y1 === y2 ? y1 - 26 : (y1 + y2) / 2;
  const path = drawn('path', {d: `M ${x1} ${y1} C ${x1} ${bend}, ${x2} ${bend}, ${x2} ${y2}`, class: row[8]});
  pane.append(drawn('svg', {id: 'arrow', class: row[3], width: 1, height: 1}, path, head(row[3], x2, y2, 0, y1 <= y2 ? -1 : 1)));
  pane.querySelector('mark').scrollIntoView({block: 'nearest'});
}

/** The head of an arrow, which comes from the side (across, down): full for flow, hollow for anti, a diamond for output. */
function head(kind, x, y, across, down) {
  const at = (along, aside) => `${x + 8 * along * across + 4 * aside * down},${y + 8 * along * down + 4 * aside * across}`;
  const corners = kind === 'output' ? [at(0, 0), at(0.5, 1), at(1, 0), at(0.5, -1)] : [at(0, 0), at(1, 1), at(1, -1)];
  return drawn('polygon', {points: corners.join(' '), class: `${kind} head`});
}

/** The statements one below the other, with an arc for all rows between two of them; an arc to itself is a ring. */
function drawGraph() {
  if (!at('graph').open) { at('picture').replaceChildren(); return; }
  const arcs = new Map();
  for (const {row} of chosenRows()) {
    const key = [statementOf(row[0]), statementOf(row[1]), row[2], row[3], row[8]].join(' ');
    arcs.set(key, (arcs.get(key) || 0) + 1);
  }
  const ends = [...new Set([...arcs.keys()].flatMap(key => key.split(' ').slice(0, 2).map(Number)))].sort((a, b) => a - b);
  const shown = ends.slice(0, MOST);
  const place = new Map(shown.map((statement, index) => [statement, 40 + index * 56]));
  const text = new Map(data.source.filter(([statement]) => statement !== null).map(([statement, words]) => [statement, words.trim()]));
  const parts = shown.map(statement => drawn('text', {x: 8, y: place.get(statement) + 4}, `${statement}: ${text.get(statement).slice(0, 34)}`));
  const labels = [];
  const span = ([key]) => Math.abs(place.get(Number(key.split(' ')[0])) - place.get(Number(key.split(' ')[1])));
  let width = 420;
  [...arcs].sort((a, b) => span(a) - span(b)).forEach(([key, count], lane) => {
    const [source, sink, name, kind, mark] = key.split(' ');
    const [y1, y2] = [place.get(Number(source)), place.get(Number(sink))];
    if (y1 === undefined || y2 === undefined) return;
    const out = 350 + lane * 28;
    const d = y1 === y2 ? `M 290 ${y1 - 5} C ${out} ${y1 - 24}, ${out} ${y1 + 24}, 290 ${y1 + 5}` : `M 290 ${y1} C ${out} ${y1}, ${out} ${y2}, 290 ${y2}`;
    const end = y1 === y2 ? y1 + 5 : y2;
    const label = free(labels, 294 + 0.75 * (out - 290), (y1 + y2) / 2 + 4);
    width = Math.max(width, label.x + 150);
    parts.push(drawn('path', {d, class: `${kind} ${mark}`}), head(kind, 290, end, 1, 0),
      drawn('text', {...label, class: `${kind} ${mark}`}, `${name} ${kind}${count > 1 ? ' \u00d7' + count : ''}`));
  });
  at('picture').replaceChildren(drawn('svg', {width, height: 60 + shown.length * 56, role: 'img'}, ...parts));
}

/** The first place from here downwards where a label covers no earlier one. */
function free(labels, x, y) {
  while (labels.some(one => Math.abs(one.x - x) < 110 && Math.abs(one.y - y) < 13)) y += 13;
  labels.push({x, y});
  return {x, y};
}

function remember() {
  const words = [state.loop === null ? '' : `loop=${state.loop}`, state.row === null ? '' : `row=${state.row}`].filter(word => word);
  history.replaceState(null, '', '#' + words.join('&'));
}

function chooseLoop(statement) {
  Object.assign(state, {loop: statement, row: null, all: false});
  drawLoop();
  drawRows();
  drawChosen();
  drawGraph();
  if (statement !== null) lines[loops.get(statement).line - 1].scrollIntoView({block: 'nearest'});
  remember();
}

function chooseRow(number) {
  state.row = number;
  drawChosen();
  at('rows').querySelector(`tr[data-number="${number}"]`)?.scrollIntoView({block: 'nearest'});
  remember();
}

/** The next loop or the previous one in the text; the next row or the previous one of those that are shown. */
function step(list, present, by) {
  const place = list.indexOf(present) + by;
  return list[place < 0 ? (present === null && by < 0 ? list.length - 1 : 0) : Math.min(place, list.length - 1)];
}

function keyPressed(event) {
  if (event.ctrlKey || event.altKey || event.metaKey) return;
  const numbers = [...loops.keys()];
  if ((event.key === 'n' || event.key === 'p') && numbers.length) chooseLoop(step(numbers, state.loop, event.key === 'n' ? 1 : -1));
  else if (event.key === 'ArrowDown' || event.key === 'ArrowUp') {
    const rows = [...at('rows').querySelectorAll('tbody tr')].map(line => Number(line.dataset.number));
    if (!rows.length) return;
    chooseRow(step(rows, state.row, event.key === 'ArrowDown' ? 1 : -1));
  } else if (event.key === 'Escape') chooseLoop(null);
  else if (event.key === 'g') at('graph').open = !at('graph').open;
  else return;
  event.preventDefault();
}

function begin() {
  const words = new URLSearchParams(location.hash.slice(1));
  const [loop, row] = [Number(words.get('loop')), words.has('row') ? Number(words.get('row')) : null];
  drawSource();
  at('summary').textContent = [counted(data.source.length, 'line'), counted(data.loops.length, 'loop'),
    counted(data.rows.length, 'dependence')].join(', ');
  at('refused').replaceChildren(...data.refused.map(words => made('li', '', words)));
  chooseLoop(loops.has(loop) ? loop : null);
  if (row !== null && data.rows[row]) chooseRow(row);
  at('more').addEventListener('click', () => { state.all = true; drawRows(); });
  at('graph').addEventListener('toggle', drawGraph);
  document.addEventListener('keydown', keyPressed);
}
begin();
