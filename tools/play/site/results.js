// ---- what a call has said, in words ----

const END_NAMES = {
  done: ['Done', 'good', 'main ended by a value'], uncaught: ['Uncaught', 'bad', 'main ended by an exception'],
  deadlock: ['Deadlock', 'stuck', 'nothing more can be done, and nobody sleeps'],
};
const named = (kind, more = {}) => ({ head: END_NAMES[kind][0], kind: END_NAMES[kind][1], rest: END_NAMES[kind][2], ...more });

const FAILURES = {
  stack: { head: "The browser's stack is too small", kind: 'stuck',
    rest: 'the script nests deeper than this browser can follow, which says nothing about the script',
    cure: 'Nest less, take another browser (Chrome has a larger stack), or the program itself.' },
  memory: { head: 'The browser gives no memory', kind: 'stuck', rest: 'nothing was checked or run',
    cure: 'Close other pages, take a smaller **Memory**, under Options, or the program itself.' },
  worker: { head: 'The browser starts no worker', kind: 'stuck', rest: 'so nothing was checked or run',
    cure: 'Allow them for this page, which a policy or an add-on may forbid, or take another browser, or the program itself.' },
};

// How a call ended: a head, its kind, the rest of the sentence, and what to do.
function endingOf(result) {
  const said = lastLine(result.err);
  switch (result.status) {
    case 0: return named('done');
    case 1: return named('uncaught');
    case 2: return { head: 'The options were not understood', kind: 'bad',
      rest: 'that is a mistake of this page', cure: 'Take the usual ones, under Options.' };
    case 3: return { head: 'Refused', kind: 'bad', rest: 'the grammar or the typing rules refuse it, so it was not run' };
    case 4: return named('deadlock');
    case 5: return { head: 'Out of fuel', kind: 'stuck', rest: `all ${number(option('fuel'))} steps are used up`,
      cure: '**Fuel**, under Options, allows up to 4,000,000 steps. A script that never ends has no number that is enough.' };
    case 6: return { head: 'Out of memory', kind: 'stuck', rest: `it wants more than ${number(option('memory'))} MB, or than this browser gives`,
      cure: '**Memory**, under Options, allows up to 4,000 MB. Else ask by a smaller script.' };
    case 9: return { head: 'Limit', kind: 'stuck',
      rest: `the next step would exceed a limit of runs (${said.replace('limit: ', '')})`, cure: 'No option allows more.' };
    case 10: return { head: 'Not a run', kind: 'bad', rest: said };
    case 12: return { head: 'No such outcome', kind: 'bad', rest: 'the options are not those of the list any more', cure: 'Press Outcomes again.' };
    case 13: return { head: 'Not drawn', kind: 'stuck', rest: said.replace('not drawn: ', '') };
  }
  if (FAILURES[result.failure]) return FAILURES[result.failure];
  return { head: 'The browser stopped it', kind: 'bad',
    rest: result.failure ?? `it ended with status ${result.status}`, cure: 'Nothing is known of the script by that.' };
}

function say({ head, kind = '', rest = '', cure = '' }, more = '') {
  const sentences = [rest && rest + (rest.endsWith('.') ? '' : '.'), more].filter(Boolean).join(' ');
  $('said').replaceChildren(make('p', { className: kind }, head), sentences ? make('p', { className: 'more' }, sentences) : '',
    cure ? make('p', { className: 'more' }, make('b', {}, 'What to do: '), ...sentence(cure)) : '');
}

// A text of a stream. Of a very long one the first part is shown, and all of it can be saved.
const SHOWN = 200000;
function stream(label, bytes, className = '') {
  if (!bytes.length) return make('p', { className: 'label none' }, `${label}: none`);
  const file = label.toLowerCase().replace(' ', '-') + '.txt', part = decoded(bytes.subarray(0, SHOWN)), nodes = visible(part), changes = nodes.some(node => typeof node !== 'string');
  const notes = [bytes.length > SHOWN ? `and ${number(bytes.length - SHOWN)} bytes more` : '', changes ? "what can't be seen stands as its code" : '']
    .filter(Boolean).join('; ');
  return make('div', {}, make('p', { className: 'label' }, label + (part.endsWith('\n') ? '' : ' (without a line feed at its end)')),
    make('pre', { className: `text ${className}`, tabIndex: 0, 'aria-label': label, role: 'region', translate: false }, ...nodes),
    notes ? make('p', { className: 'label' }, `${notes}. `, saving('Save it as it is', bytes, 'text/plain', file)) : null);
}

function refusal(result) {
  const line = lastLine(result.err), place = placeOf(line), told = data.faults[place?.fault], near = [];
  if (place?.line) {
    const from = Math.max(0, place.range[0] - 60), before = visible(place.row.slice(from, place.range[0])).map(it => it.textContent ?? it).join('');
    near.push(make('pre', { className: 'text', 'aria-label': `Line ${place.line}`, role: 'region', tabIndex: 0 },
      ...visible(place.row.slice(from, place.range[0] + 60)), '\n', make('span', { 'aria-hidden': 'true' }, before.replace(/[^\t]/g, ' ') + '^')));
  }
  const card = make('article', { className: 'card bad' }, make('h3', {}, line), ...near, told ? make('p', {}, ...sentence(told.where)) : null,
    told?.cure ? make('p', {}, make('b', {}, 'What to do: '), ...sentence(told.cure)) : null,
    place?.line ? make('div', { className: 'bar' }, button('Show the place', () => goTo(place), 'small')) : null);
  if (looksLikeHaskell(text.value)) return [haskellCard(), card];
  if (place?.fault === 'Unexpected') card.querySelector('.bar')?.append(button('How a script is written', showWriting, 'small'));
  return [card];
}

// Output that appears while a script runs.
function liveOutput(isWanted) {
  const live = { 1: { shown: 0, decoder: new TextDecoder(), pre: null }, 2: { shown: 0, decoder: new TextDecoder(), pre: null } };
  return (which, piece) => {
    const to = live[which];
    if (!isWanted() || to.shown > SHOWN) return;
    to.shown += piece.length;
    if (!to.pre) {
      to.pre = make('pre', { className: 'text' + (which === 2 ? ' errors' : '') });
      $('shown').append(make('p', { className: 'label' }, which === 1 ? 'Output' : 'Error output'), to.pre);
    }
    to.pre.append(...visible(to.decoder.decode(piece, { stream: true })));
  };
}
