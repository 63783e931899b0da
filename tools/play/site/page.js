// ---- the buttons, and how the page begins ----

let turn = 0, going = 0, ticks = 0;
const last = {};
const keepLast = more => { Object.assign(last, more); };

// While a work goes on Stop can be pressed, and the time is shown.
async function busy(work) {
  const start = performance.now();
  if (going++ === 0) {
    $('stop').disabled = false;
    ticks = setInterval(() => { $('time').textContent = duration(performance.now() - start); }, 100);
  }
  try { return await work(); } finally {
    if (--going === 0) {
      clearInterval(ticks);
      if (document.activeElement === $('stop')) $('results-title').focus({ preventScroll: true });
      $('stop').disabled = true;
      $('time').textContent = '';
    }
  }
}

function showResult(kind, result, words, input, isWanted) {
  const ending = endingOf(result), took = duration(result.milliseconds);
  $('shown').replaceChildren();
  if (result.status === 3) {
    say(ending);
    $('shown').append(...refusal(result));
  } else if (kind === 'check' && result.status === 0) say({ head: 'Accepted', kind: 'good' }, took);
  else if (kind === 'outcomes') showOutcomes(result, input, isWanted);
  else if (kind === 'claims') showClaims(result, input);
  else say(ending, took);
  const ran = kind === 'run' && ![2, 3].includes(result.status) && (result.status !== null || result.out.length || result.err.length);
  if (!ran) return;
  const draw = button('Draw a run', () => openHistory('A run', () => call(['trace', ...words.slice(1)], input), draw), 'small');
  $('shown').append(make('article', { className: `card ${ending.kind}` }, make('h3', { className: 'spoken' }, 'What it printed'),
    stream('Output', result.out), stream('Error output', result.err, 'errors'), make('div', { className: 'bar' }, draw)));
}

function clear() {
  addresses.splice(0).forEach(address => URL.revokeObjectURL(address));
  $('shown').replaceChildren();
  $('histories').replaceChildren();
  $('stale').hidden = true;
  if (unmarkClaims()) paint(true);
}

async function act(kind) {
  stop();
  const mine = ++turn, isWanted = () => mine === turn, input = encoded(text.value), words = wordsOf[kind](), start = performance.now();
  clearTimeout(timer);
  asked++;
  if (foreign) {
    foreign = false;
    showVerdict('', '');
  }
  clear();
  say({ head: { check: 'checking', run: 'running', outcomes: 'searching', claims: 'judging' }[kind] + '\u2026' });
  try {
    const result = await busy(() => call(words, input, { onPiece: liveOutput(() => isWanted() && kind === 'run') }));
    if (!isWanted()) return;
    keepLast({ result });
    if (decoded(input) !== text.value) changed({ loaded: true });
    else if ((result.status !== 2 && !result.failure) || !$('verdict').textContent) judged(result);
    showResult(kind, result, words, input, isWanted);
    if ($('results').getBoundingClientRect().top > innerHeight * 0.6) $('results').scrollIntoView({ behavior: moves() });
  } catch (problem) {
    if (!isWanted()) return;
    if (problem instanceof Stopped) say({ head: 'Stopped', kind: 'stuck', rest: `after ${duration(performance.now() - start)}` });
    else say({ head: 'This browser cannot run it', kind: 'bad', rest: cannotRun(problem) });
  }
}

function listenToButtons() {
  for (const it of document.querySelectorAll('[data-act]')) it.onclick = () => act(it.dataset.act);
  $('stop').onclick = () => stop();
  $('verdict').onclick = () => wrong?.line && goTo(wrong);
  $('link').onclick = () => makeLink().catch(problem => say({ head: 'No link', kind: 'bad', rest: String(problem) }));
  $('back').onclick = takeBack;
  $('cure').onclick = () => {
    const name = data.cures[$('name').textContent.replace(', changed', '')];
    loadFresh(data.examples[name].script, name);
    text.focus({ preventScroll: true });
  };
  $('examples').onclick = () => $('choose').showModal();
  $('write').onclick = showWriting;
  document.querySelector('.skip').onclick = event => { event.preventDefault(); text.focus(); };
  for (const dialog of document.querySelectorAll('dialog')) {
    dialog.querySelector('.close').onclick = () => dialog.close();
    dialog.onclick = event => { if (event.target === dialog) dialog.close(); };
  }
  $('large').onclose = () => document.querySelector('#large .scroll').replaceChildren();
  OPTIONS.forEach(name => { $(name).onchange = () => { option(name); keepSoon(); }; });
  text.addEventListener('input', () => {
    edited = true;
    if (!$('name').textContent.endsWith('changed')) $('name').textContent += ', changed';
    changed();
  });
  document.addEventListener('keydown', event => {
    if (event.key === 'Enter' && (event.ctrlKey || event.metaKey)) {
      event.preventDefault();
      act(event.shiftKey ? 'outcomes' : 'run');
    }
    if (event.key === 'Escape' && !document.querySelector('dialog[open]')) stop();
  });
  addEventListener('hashchange', async () => {
    const sent = await fromAddress();
    if (!sent) return;
    stop();
    clear();
    takeLink(sent);
  });
  addEventListener('pagehide', keepNow);
}

// A mistake of the page itself is told, so that nothing that is missing looks like an answer.
function listenToMistakes() {
  const tell = problem => say({ head: 'This page has made a mistake', kind: 'bad', rest: String(problem?.message ?? problem),
    cure: 'What is shown may not be whole. Load the page again, or take another browser.' });
  addEventListener('error', event => tell(event.error ?? event.message));
  addEventListener('unhandledrejection', event => tell(event.reason));
}

const HELLO = { head: 'What may this script come to?',
  rest: 'Outcomes lists all that it may print and how it may end, over all schedules; Run shows one of them' };
async function begin() {
  const kept = fromStore(KEPT), own = typeof kept?.script === 'string' ? kept : { script: data.examples.update.script, name: 'update' };
  takeAsides();
  const sent = location.hash.length > 1 ? await fromAddress() : null;
  if (kept) takeOptions(kept);
  if (!$('said').textContent) say(HELLO);
  if (sent) {
    if (kept?.edited && kept.script !== sent.script) setAside(kept.script, kept.name);
    takeLink(sent);
  } else {
    load(own.script, own.name);
    edited = Boolean(kept?.edited);
  }
  try {
    await compiled();
    spare ??= newWorker();
    $('ready').textContent = `Ready ${duration(performance.now())} after opening.`;
    judgesClaims().then(judges => { $('claims').hidden = !judges; });
  } catch (problem) {
    say({ head: 'This browser cannot run it', kind: 'bad', rest: cannotRun(problem) });
  }
  document.documentElement.dataset.ready = Math.round(performance.now());
}

// For the tests.
globalThis.playground = { last, load, act, stop, call, compiled, running };
listExamples();
explainWriting();
listenToEditor();
listenToPrinter();
listenToFiles();
listenToButtons();
listenToMistakes();
$('unstarted').remove();
begin().catch(problem => say({ head: 'This browser cannot run it', kind: 'bad', rest: cannotRun(problem) }));
