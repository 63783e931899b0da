// ---- the editor: a text area, and below it the same text with colours, numbers and marks ----

// Beyond so many characters lines aren't wrapped, and what can be seen is painted alone.
const LONG = 60000;
const ROW = 20, ABOVE = 8;
const TYPES = new Set('Int Bool Text ThreadId SomeException Maybe Either MVar IO Async'.split(' '));
const KEYS = new Set('if then else case of let in'.split(' '));
const FORMS = new Set(data.words);
const TOKEN = /(--.*)|("(?:\\.|[^"\\])*"?)|([\p{L}_][\p{L}\p{N}_']*)|(\d+)/gu;
let lines = [], wrong = null, here = -1, isLong = false, isPrinting = false;

// The coloured stretches of a line: [from, to, class].
function coloursOf(line) {
  const found = [];
  for (const it of line.matchAll(TOKEN)) {
    const [all, comment, string, word] = it;
    const kind = comment ? 'comment' : string ? 'string' : !word || TYPES.has(word) ? 'type' : KEYS.has(word) ? 'key' : FORMS.has(word) ? 'form' : '';
    if (kind) found.push([it.index, it.index + all.length, kind]);
  }
  return found;
}

// The pieces of a part of a line. They end wherever a colour, the mark or an unseen character begins or ends.
function piecesOf(line, layers, begin, end) {
  const inside = layers.map(layer => layer.filter(([from, to]) => from < end && to > begin)), at = inside.map(() => 0), pieces = [];
  const ends = inside.flat().flatMap(([from, to]) => [Math.max(from, begin), Math.min(to, end)]);
  const cuts = [...new Set([begin, end, ...ends])].sort((one, other) => one - other);
  for (let i = 0; i + 1 < cuts.length; i++) {
    const [from, to] = [cuts[i], cuts[i + 1]], over = [];
    for (const [k, layer] of inside.entries()) {
      while (layer[at[k]]?.[1] <= from) at[k]++;
      if (layer[at[k]]?.[0] <= from) over.push(layer[at[k]]);
    }
    const code = over.find(it => it[3])?.[3], className = over.map(it => it[2]).join(' '), part = line.slice(from, to);
    // What turns the direction stands as nothing here, so that the line reads as it is run.
    pieces.push(className ? make('span', { className, ...(code ? { 'data-code': code } : {}) }, code && TURNS.test(part) ? '\u200b' : part) : part);
  }
  return pieces;
}

function paintLine(line, n, isWhole = !isLong) {
  const isWrong = wrong?.line === n + 1, div = make('div', { className: (n === here ? 'here ' : '') + (isWrong ? 'wrong' : '') });
  const isCut = !isWhole && line.length > WHOLE, { colours, unseen } = isCut ? layoutOf(line) : { colours: coloursOf(line), unseen: unseenIn(line) };
  const layers = [colours, unseen.map(([from, to, it]) => [from, to, 'unseen', codeOf(it)]), isWrong && wrong.range ? [[...wrong.range, 'mark']] : []];
  const [begin, end, width] = isCut ? partOf(line, text.scrollLeft, text.scrollLeft + text.clientWidth) : [0, line.length, 0];
  if (width) div.style.textIndent = `${width}px`;
  div.append(...piecesOf(line, layers, begin, end));
  if (isWrong && wrong.range?.[0] >= line.length && end === line.length) div.append(make('span', { className: 'mark' }, '\u00a0'));
  const claim = claimAt.get(n + 1);
  if (claim) {
    div.classList.add('claim');
    Object.assign(div.dataset, { verdict: claim.head, kind: claim.kind });
  }
  return div;
}

// All lines stand below the text, and only those that changed are painted.
function paintWhole(next, all) {
  let head = 0, tail = 0;
  if (!all) {
    while (head < lines.length && head < next.length && lines[head] === next[head]) head++;
    while (tail < lines.length - head && tail < next.length - head && lines.at(-1 - tail) === next.at(-1 - tail)) tail++;
  }
  const old = [...paper.children].slice(head, lines.length - tail), after = paper.children[lines.length - tail] ?? null;
  const fresh = document.createDocumentFragment();
  for (let i = head; i < next.length - tail; i++) fresh.append(paintLine(next[i], i));
  old.forEach(element => element.remove());
  paper.insertBefore(fresh, after);
}

// Of a long script the lines that can be seen.
function paintVisible() {
  if (!isLong || isPrinting) return;
  const first = Math.max(0, Math.floor(text.scrollTop / ROW) - 4), behind = first + Math.ceil(text.clientHeight / ROW) + 8;
  paper.style.counterReset = `row ${first}`;
  paper.style.transform = `translate(${-text.scrollLeft}px, ${first * ROW - text.scrollTop}px)`;
  paper.style.setProperty('--across', `${text.scrollLeft}px`);
  paper.style.setProperty('--wide', `${text.clientWidth}px`);
  paper.replaceChildren(...lines.slice(first, behind).map((line, i) => paintLine(line, first + i)));
}

function paint(all = false) {
  const next = text.value.split('\n'), was = isLong;
  isLong = text.value.length > LONG;
  if (isLong) takeFont();
  editor.classList.toggle('long', isLong);
  editor.style.setProperty('--gutter', `${Math.max(4, String(next.length).length + 2)}ch`);
  if (was !== isLong) {
    paper.replaceChildren();
    paper.removeAttribute('style');
    text.scrollTop = editor.scrollTop = 0;
    lines = [];
  }
  if (!isLong) paintWhole(next, all);
  lines = next;
  paintVisible();
}

function showCaret() {
  const before = text.value.slice(0, text.selectionStart), n = before.split('\n').length - 1, was = here;
  $('caret').textContent = `line ${n + 1}, column ${[...before.slice(before.lastIndexOf('\n') + 1)].length + 1}`;
  if (n === was) return;
  here = n;
  if (isLong) return paintVisible();
  paper.children[was]?.classList.remove('here');
  paper.children[n]?.classList.add('here');
}

// Selects a place, and brings it into view.
function goTo(place) {
  text.focus({ preventScroll: isLong });
  text.setSelectionRange(place.start, place.start + (place.length ?? 0));
  if (isLong) {
    text.scrollTop = Math.max(0, (place.line - 4) * ROW);
    text.scrollLeft = Math.max(0, widthBefore(lines[place.line - 1] ?? '', place.range?.[0] ?? 0) - text.clientWidth / 2);
    paintVisible();
  } else paper.children[place.line - 1]?.scrollIntoView({ block: 'nearest' });
  editor.scrollIntoView({ block: 'nearest' });
  showCaret();
}

// All of a long script is printed.
function listenToPrinter() {
  addEventListener('beforeprint', () => {
    if (!isLong) return;
    isPrinting = true;
    paper.style.counterReset = 'row 0';
    paper.replaceChildren(...lines.map((line, n) => paintLine(line, n, true)));
  });
  addEventListener('afterprint', () => {
    isPrinting = false;
    paintVisible();
  });
}

function listenToEditor() {
  text.addEventListener('scroll', paintVisible);
  new ResizeObserver(() => {
    if (!isLong) return;
    takeFont();
    paintVisible();
  }).observe(text);
  document.addEventListener('selectionchange', () => document.activeElement === text && showCaret());
  let leaving = false;
  text.addEventListener('keydown', event => {
    const plain = !event.shiftKey && !event.ctrlKey && !event.altKey && !event.metaKey;
    if (event.key === 'Tab' && plain && !leaving) {
      event.preventDefault();
      document.execCommand('insertText', false, '  ');
    }
    if (event.key !== 'Shift') leaving = event.key === 'Escape';
  });
  for (const it of ['blur', 'pointerdown', 'input']) text.addEventListener(it, () => { leaving = false; });
}
