// ---- claims: what a script says of itself, beside its lines and below the list ----

// A line whose first characters, but for blanks, are `--` and `!`; between them may stand blanks.
const CLAIM = /^[ \t\r]*--[ \t]*!/;
const FORMS_OF_CLAIMS = '`always ..`, `never ..`, `sometimes ..` or `terminates`, and behind the first three `done`, `uncaught`, `deadlock`, `stuck`, ' +
  '`output "TEXT"`, `errors "TEXT"`, `output has "TEXT"` or `errors has "TEXT"`, joined by `and`';
const WITHOUT_CLAIMS = 'main :: IO () = { return () };';
let claimAt = new Map(), knowing = null;

const claimsOf = script => script.split('\n').filter(line => CLAIM.test(line)).length;

// Whether the program judges claims: else it doesn't understand the word, and ends with status 2.
function judgesClaims() {
  knowing ??= call(['claims'], encoded(WITHOUT_CLAIMS), { quiet: true }).then(result => result.status !== null && result.status !== 2)
    .catch(() => { knowing = null; return false; });
  return knowing;
}

// A verdict as the program prints it, or null where a line isn't as it should be.
function readVerdict(row) {
  const told = /^line (\d+): (holds|fails|open)(?:: (.+))?$/.exec(row);
  if (!told) return null;
  const [, line, head, more = ''] = told, outcome = Number(/^outcome (\d+)$/.exec(more)?.[1] ?? 0);
  return { line: Number(line), head, more, outcome, kind: { holds: 'good', fails: 'bad', open: 'stuck' }[head] };
}
function readVerdicts(told) {
  const verdicts = told.split('\n').slice(0, -1).map(readVerdict);
  return told.endsWith('\n') && !verdicts.includes(null) ? verdicts : null;
}

function summaryOf(verdicts) {
  const many = head => verdicts.filter(it => it.head === head).length, [holds, fails, open] = ['holds', 'fails', 'open'].map(many);
  const parts = [holds && `${count(holds, 'claim holds', 'claims hold')}`, fails && `${count(fails, 'fails', 'fail')}`, open && `${count(open, 'is', 'are')} open`];
  return { head: parts.filter(Boolean).join(', '), kind: fails ? 'bad' : open ? 'stuck' : 'good' };
}

// What a verdict means, where its words don't say it.
function meaningOf(verdict) {
  if (verdict.head === 'fails' && !verdict.more) return 'no outcome is so';
  if (verdict.outcome) return `outcome ${verdict.outcome} shows it`;
  return verdict.more;
}

// Beside each claim its verdict. The paper below the text isn't read aloud; the list of verdicts is.
function markClaims(verdicts) {
  claimAt = new Map(verdicts.map(it => [it.line, it]));
  paint(true);
}
function unmarkClaims() {
  if (!claimAt.size) return false;
  claimAt = new Map();
  return true;
}

function verdictRow(verdict, rows, historyOf) {
  const row = rows[verdict.line - 1] ?? '', start = rows.slice(0, verdict.line - 1).reduce((sum, it) => sum + it.length + 1, 0);
  const to = button(`Line ${verdict.line}`, () => goTo({ line: verdict.line, column: 1, start, length: row.length }), 'small');
  const open = verdict.outcome ? button(`Show the history of outcome ${verdict.outcome}`,
    () => openHistory(`Outcome ${verdict.outcome}, against line ${verdict.line}`, () => historyOf(verdict.outcome), open), 'small') : null;
  return make('li', {}, to, ' ', make('code', {}, ...visible(row.trim())), ' ', make('b', { className: verdict.kind }, verdict.head),
    meaningOf(verdict) ? `: ${meaningOf(verdict)}` : '', open ? ' ' : '', open);
}

// The answer of `claims` as a card, or what it says instead.
function claimsCard(result, input, historyOf) {
  const verdicts = [0, 11, 14].includes(result.status) ? readVerdicts(decoded(result.out)) : null;
  if (!verdicts) {
    const { head, rest, cure } = endingOf(result);
    return make('article', { className: 'card stuck claims' }, make('p', {}, `The claims are not judged. ${head}: ${rest}. `, ...sentence(cure ?? '')),
      result.out.length ? stream('What the program says', result.out) : null);
  }
  const { head, kind } = summaryOf(verdicts), rows = decoded(input).split('\n'), cause = verdicts.find(it => it.head === 'open')?.more;
  if (decoded(input) === text.value) markClaims(verdicts);
  const told = data.causes[cause?.split(':')[0]];
  return make('article', { className: `card claims ${kind}` }, make('h3', { className: kind }, head),
    make('ol', {}, ...verdicts.map(it => verdictRow(it, rows, historyOf))), told ? make('p', {}, make('b', {}, 'What to do: '), ...sentence(told.cure)) : null);
}

// Below a list: the claims of its script, which the program judges by another search with the same options.
async function claimsBeside(result, input, isWanted, historyOf) {
  const claims = claimsOf(decoded(input)), place = make('div', { role: 'status' });
  if (!claims) return;
  $('shown').prepend(place);
  if (!await judgesClaims()) {
    place.append(make('p', { className: 'label' }, `${count(claims, 'claim')} (--!) of this script ${claims === 1 ? 'is' : 'are'} not judged: for this version ${claims === 1 ? 'it is a comment' : 'they are comments'}.`));
    return;
  }
  place.append(make('p', { className: 'label' }, 'The claims of this script are judged\u2026'));
  try {
    const told = await busy(() => call(['claims', ...result.words.slice(1)], input));
    if (!isWanted()) return;
    keepLast({ claims: told });
    if (told.status === 3 && decoded(input) === text.value) judged(told);
    place.replaceChildren(...(told.status === 3 ? refusal(told) : [claimsCard(told, input, historyOf)]));
  } catch (problem) {
    place.replaceChildren(make('p', { className: 'label' }, problem instanceof Stopped ? 'The claims are not judged: stopped.' : String(problem)));
  }
}

// The answer of the button.
function showClaims(result, input) {
  if (result.status === 12) {
    say({ head: 'No claim', kind: 'stuck', rest: 'a claim is a line of the script that says what is always, never or sometimes so', cure: `Write a line such as \`--! never deadlock\`: ${FORMS_OF_CLAIMS}` });
    return;
  }
  const verdicts = readVerdicts(decoded(result.out));
  say(verdicts?.length ? summaryOf(verdicts) : endingOf(result), duration(result.milliseconds));
  const historyOf = number => call(['outcomes', ...result.words.slice(1), '--witness', String(number)], input);
  $('shown').append(claimsCard(result, input, historyOf));
}
