// ---- a list of outcomes, as cards ----

const AT_ONCE = 100;
const WAITS_FOR_EVER = /^uncaught exception in main: thread blocked indefinitely/m;

// The list as the program prints it, or null where a line isn't as it should be.
function readList(list) {
  const rows = list.split('\n'), items = [], head = /^\d+ outcomes?, and (there are no others|there may be others: (.+))$/.exec(rows[0]);
  if (!head || rows.pop() !== '') return null;
  let stream = null;
  for (const row of rows.slice(2)) {
    const first = /^(\d+)\. (done|uncaught|deadlock), after (\d+) entr(?:y|ies)$/.exec(row), item = items.at(-1);
    if (first) {
      items.push({ number: Number(first[1]), end: first[2], entries: Number(first[3]), output: '', errors: '' });
      stream = null;
    } else if (row === '' && !item) continue;
    else if (!item) return null;
    else if (row === '   output: none') stream = null;
    else if (row === '   output:') stream = 'output';
    else if (row === '   errors:') stream = 'errors';
    else if (stream && row.startsWith('     | ')) item[stream] += row.slice(7) + '\n';
    else if (stream && row.startsWith('     : ')) item[stream] += row.slice(7);
    else return null;
  }
  return { head: rows[0], extent: rows[1] ?? '', cause: head[2], items };
}

// What an ending means, where its name doesn't say it.
function remark(item) {
  if (item.end === 'deadlock') return 'Nothing more can be done, and nobody sleeps.';
  return item.end === 'uncaught' && WAITS_FOR_EVER.test(item.errors) ? 'main waits at a cell that nobody can serve any more, and is told so.' : '';
}

function outcomeCard(item, witnesses) {
  const { head, kind } = named(item.end), title = `Outcome ${item.number}: ${head.toLowerCase()}`;
  const open = button('Show its history', () => openHistory(title, () => witnesses.of(item.number), open), 'small');
  open.setAttribute('aria-label', `Show the history of outcome ${item.number}`);
  return make('article', { className: `card ${kind}` },
    make('h3', {}, `${item.number}. `, make('span', { className: kind }, head), make('small', {}, count(item.entries, 'entry', 'entries'))),
    remark(item) ? make('p', {}, remark(item)) : null,
    stream('Output', encoded(item.output)), item.errors ? stream('Error output', encoded(item.errors), 'errors') : null,
    make('div', { className: 'bar' }, open));
}

// The histories behind a list. Where the search took long they are made meanwhile, a few at a time, so that one opens at once.
const MEANWHILE = { least: 150, most: 20, bytes: 32 << 20, milliseconds: 600000, workers: 3, memory: 512 << 20 };
class Witnesses {
  constructor(words, input) { Object.assign(this, { words, input, made: new Map() }); }

  make(number, quiet) {
    const making = call([...this.words, '--witness', String(number)], this.input, { quiet });
    this.made.set(number, making);
    making.catch(() => this.made.delete(number));
    return making;
  }

  // The one that is made meanwhile is waited for, and another has a call of its own.
  of(number) { return this.made.get(number) ?? this.make(number, false); }

  // A search that took much memory has no other beside it.
  async makeMeanwhile(items, memory, isWanted) {
    const begun = performance.now(), left = items.slice(0, MEANWHILE.most);
    const workers = memory > MEANWHILE.memory ? 1 : Math.max(1, Math.min(MEANWHILE.workers, (navigator.hardwareConcurrency ?? 2) - 1));
    let bytes = 0;
    const one = async () => {
      while (left.length) {
        while (document.hidden && isWanted()) await new Promise(done => { setTimeout(done, 1000); });
        if (!isWanted() || bytes > MEANWHILE.bytes || performance.now() - begun > MEANWHILE.milliseconds) return;
        const { number } = left.shift(), made = this.made.has(number) ? { out: [] } : await this.make(number, true).catch(() => null);
        if (!made) return;
        bytes += made.out.length;
      }
    };
    await Promise.all(Array.from({ length: workers }, one));
  }
}

function causeCard(told) {
  return make('article', { className: 'card stuck' }, make('p', {}, make('b', {}, 'Met: '), ...sentence(told.met)),
    make('p', {}, make('b', {}, 'What to do: '), ...sentence(told.cure)));
}

function showOutcomes(result, input, isWanted) {
  const list = readList(decoded(result.out));
  if (!list) {
    say(endingOf(result), duration(result.milliseconds));
    if (result.out.length) $('shown').append(stream('What the program says', result.out));
    return;
  }
  say({ head: list.head, kind: result.status === 0 ? 'good' : 'stuck', rest: list.extent }, duration(result.milliseconds));
  const cause = data.causes[list.cause?.split(':')[0]], witnesses = new Witnesses(result.words, input), cards = make('div', { className: 'cards' });
  if (cause) $('shown').append(causeCard(cause));
  let at = 0;
  const more = button('', () => next());
  function next() {
    cards.append(...list.items.slice(at, at += AT_ONCE).map(item => outcomeCard(item, witnesses)));
    more.hidden = at >= list.items.length;
    more.textContent = `Show more (${number(list.items.length - at)})`;
  }
  $('shown').append(cards, more, make('p', {}, saving('Save the list', result.out, 'text/plain', 'outcomes.txt')));
  next();
  claimsBeside(result, input, isWanted, number => witnesses.of(number)).then(() => {
    if (isWanted() && result.milliseconds > MEANWHILE.least) witnesses.makeMeanwhile(list.items, result.memory, isWanted);
  });
}
