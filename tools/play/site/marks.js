// ---- the verdict below the editor, which follows each change, and the place of a refusal ----

// The place of a line `refused: FAULT at L:C` in the text. A column counts characters; a string of JavaScript has two halves for some.
function placeOf(line) {
  const told = /^refused: (\w+)(?: at (\d+):(\d+))?/.exec(line);
  if (!told) return null;
  if (!told[2]) return { fault: told[1], line: 0 };
  const all = text.value.split('\n'), row = all[told[2] - 1] ?? '';
  let from = 0;
  for (let column = 1; column < told[3] && from < row.length; column++) from += row.codePointAt(from) > 0xffff ? 2 : 1;
  const token = /^(?:"(?:\\.|[^"\\])*"?|[\p{L}\p{N}_']+|::|->|<-|[=/<>]=|&&|\|\||\+\+|.)/su.exec(row.slice(from, from + 2000))?.[0] ?? '';
  const start = all.slice(0, told[2] - 1).reduce((sum, it) => sum + it.length + 1, 0) + from;
  return { fault: told[1], line: Number(told[2]), column: Number(told[3]), row, range: [from, from + (token.length || 1)], start,
    length: token.length };
}

// What a script that is none looks like where it is a module of Haskell: one of the first five says so, of the others two.
const HASKELL = [
  /^\s*import\s+(qualified\s+)?[A-Z]/m, /^\s*module\s+[A-Z][\w.']*(\s*\(|\s+where)/m, /\{-[\s\S]*?-\}/, /(=|->|\$|<-|\()\s*do\b/,
  /^\s*(data|newtype|class|instance)\s+[A-Z]/m, /^\s*[a-z_][\w']*\s*::\s*(\(?[A-Z]\w*|[a-z]\w*)[^={}]*$/m, /\bwhere\s*$/m,
];
function looksLikeHaskell(script) {
  const code = script.replace(/--.*/g, '').replace(/"(?:\\.|[^"\\\n])*"/g, '""');
  return HASKELL.slice(0, 5).some(it => it.test(code)) || HASKELL.filter(it => it.test(code)).length > 1;
}

function haskellCard() {
  return make('article', { className: 'card stuck haskell' }, make('h3', {}, 'This looks like Haskell, and this page takes scripts'),
    make('p', {}, 'A script is written as Concurrent Haskell with braces in place of layout, and without modules and functions as values. To get one, ' +
      'keep the few lines that the question is about, and write them so. ', ...sentence(data.translating)),
    make('div', { className: 'bar' }, button('How a script is written', showWriting, 'small')));
}

let asked = 0, timer = 0, foreign = false;

function showVerdict(head, kind, advice = []) {
  const verdict = $('verdict');
  if (verdict.textContent !== head) $('told').textContent = head;
  verdict.textContent = head;
  verdict.className = `plain ${kind}`;
  verdict.disabled = !wrong?.line;
  verdict.title = wrong?.line ? 'Shows the place' : '';
  $('advice').replaceChildren(...advice);
}

// Takes the answer of a check, of whatever command gave it.
function judged(result) {
  const line = lastLine(result.err), refused = result.status === 3, before = wrong?.line;
  wrong = refused ? placeOf(line) : null;
  if (before || wrong) paint(true);
  text.setAttribute('aria-invalid', String(refused));
  const cure = data.faults[wrong?.fault]?.cure;
  if (refused) {
    const advice = cure ? sentence(cure) : [];
    showVerdict(line, 'bad', looksLikeHaskell(text.value) ? ['This looks like Haskell; Check says how a script is written.'] : advice);
    return explainAtMark();
  }
  if (result.failure) return showVerdict('not checked', 'stuck', [endingOf(result).rest]);
  showVerdict([2, 6, 7, 8].includes(result.status) ? 'not checked' : 'accepted', [2, 6, 7, 8].includes(result.status) ? 'stuck' : 'good');
}

function askSoon(milliseconds) {
  clearTimeout(timer);
  const mine = ++asked;
  timer = setTimeout(async () => {
    if ([...running].some(handle => !handle.quiet)) return;
    const result = await call(['check'], encoded(text.value), { quiet: true }).catch(() => null);
    if (result && mine === asked) judged(result);
  }, milliseconds);
}

function changed({ loaded = false } = {}) {
  const before = wrong?.line, hadClaims = unmarkClaims();
  wrong = null;
  text.removeAttribute('aria-invalid');
  paint(Boolean(before) || hadClaims);
  showCaret();
  tellUnseen(lines);
  if (loaded && foreign) {
    clearTimeout(timer);
    asked++;
    return showVerdict('From a link: nothing of it has run', 'stuck', ['Look at it, and press Check, Run or Outcomes.']);
  }
  foreign = false;
  if (!loaded && $('shown').childElementCount) $('stale').hidden = false;
  showVerdict('', '');
  askSoon(loaded ? 0 : isLong ? 900 : 350);
  if (!loaded && location.hash) history.replaceState(null, '', location.href.split('#')[0]);
  keepSoon();
}

// Puts another script in place of this one, which Back brings again where somebody wrote in it.
let edited = false;
function load(script, name, { fromLink = false } = {}) {
  if (edited && text.value !== script) setAside(text.value, $('name').textContent);
  edited = false;
  foreign = fromLink;
  text.value = script;
  text.setSelectionRange(0, 0);
  editor.scrollTop = text.scrollTop = 0;
  $('name').textContent = name + (script.includes('\r') ? ' (its carriage returns became line feeds)' : '');
  $('cure').hidden = !Object.hasOwn(data.cures, name);
  here = -1;
  lines = [];
  paper.replaceChildren();
  changed({ loaded: true });
}
