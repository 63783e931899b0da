// ---- a history: its picture, what happened in words, and the report ----

// An image runs no script and loads nothing, whatever stands in it. Large it stands in a frame without any right, where marks have words.
function pictureOf(picture, title, bar) {
  const src = addressOf(picture.out, 'image/svg+xml'), size = /width='(\d+)' height='(\d+)'/.exec(decoded(picture.out.subarray(0, 200)));
  const width = Number(size?.[1] ?? 1200), height = Number(size?.[2] ?? 600);
  const alt = `${title}, drawn: a lane for each thread and each cell, from left to right. What happened stands below it in words.`;
  bar.append(button('Large, with words at each mark', () => {
    document.querySelector('#large .scroll').replaceChildren(make('iframe', { src, title: alt, sandbox: '', width, height }));
    $('large').showModal();
  }, 'small'), saving('Save the picture', picture.out, 'image/svg+xml', 'history.svg'));
  return make('div', { className: 'scroll', tabIndex: 0, role: 'region', 'aria-label': 'Picture' }, make('img', { src, alt, width, height }));
}

const TOLD = 500;
function storyList(picture) {
  const story = storyOf(picture.out);
  if (!story.length) return null;
  const list = make('ol', { className: 'story' }, ...story.slice(0, TOLD).map(it => make('li', { value: it.entry }, ...visible(it.said))));
  return make('details', { open: story.length <= 40 }, make('summary', {}, 'What happened, in words'), list,
    story.length > TOLD ? make('p', {}, `and ${number(story.length - TOLD)} more, which stand at the marks of the picture`) : null);
}

async function showHistory(place, title, history) {
  if (!history.out.length) {
    const { head, rest, cure } = endingOf(history);
    place.append(make('p', {}, `${head}: ${rest}. `, ...sentence(cure ?? '')));
    return;
  }
  const [picture, report] = await Promise.all([call(['picture'], history.out), call(['report'], history.out)]);
  const bar = make('div', { className: 'bar' });
  keepLast({ history, picture, report });
  if (picture.status === 0) place.append(pictureOf(picture, title, bar), storyList(picture) ?? '');
  else {
    const { head, rest } = endingOf(picture);
    place.append(make('p', {}, `${head}: ${rest}.`));
  }
  bar.append(saving('Save the history', history.out, 'text/plain', 'history.txt'));
  const told = report.status === 0 ? decoded(report.out) : `${endingOf(report).head}: ${endingOf(report).rest}`;
  place.append(make('pre', { className: 'text', 'aria-label': 'Report', role: 'region', tabIndex: 0 }, ...visible(told)), bar);
}

async function openHistory(title, making, opener) {
  const close = button('Close', () => { place.remove(); opener?.focus(); }, 'small'), name = `history-${++openHistory.count}`;
  const place = make('section', { className: 'history', tabIndex: -1, 'aria-labelledby': name }, make('h2', { id: name }, title), close);
  const waiting = make('p', { role: 'status' }, 'is made\u2026');
  place.append(waiting);
  $('histories').append(place);
  place.scrollIntoView({ block: 'nearest', behavior: moves() });
  place.focus({ preventScroll: true });
  try {
    await busy(async () => showHistory(place, title, await making()));
  } catch (problem) {
    place.append(make('p', {}, problem instanceof Stopped ? 'Stopped.' : String(problem)));
  }
  waiting.remove();
  place.scrollIntoView({ block: 'nearest', behavior: moves() });
}
openHistory.count = 0;
