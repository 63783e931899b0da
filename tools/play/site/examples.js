// ---- the examples, files, and what is kept in the browser ----

function listExamples() {
  for (const group of data.groups) {
    $('list').append(make('h3', {}, group.title), make('div', {}, ...group.names.map(name => {
      const { script, about } = data.examples[name];
      return make('button', { type: 'button', onclick: () => {
        $('choose').close();
        loadFresh(script, name);
        text.focus({ preventScroll: true });
      } }, make('b', {}, name.split('/').at(-1)), make('span', {}, ...sentence(about)));
    })));
  }
}

// Of a script that was in its place nothing is left to be seen.
function loadFresh(script, name) {
  stop();
  clear();
  load(script, name);
  say(HELLO);
}

async function openFile(file) {
  if (!file) return;
  if (file.size > 4 << 20) return say({ head: 'Not opened', kind: 'bad', rest: 'a script has at most 1,048,576 bytes' });
  try {
    loadFresh(new TextDecoder('utf-8', { fatal: true, ignoreBOM: true }).decode(await file.arrayBuffer()), file.name);
  } catch {
    say({ head: 'Not opened', kind: 'bad', rest: 'the file is not UTF-8, as a script has to be', cure: 'Save it as UTF-8, and open it again.' });
  }
}
function saveFile() {
  const name = $('name').textContent.split(/[ ,]/)[0].split('/').at(-1).replace(/[^\w.-]/g, '') || 'script';
  download(encoded(text.value), name.includes('.') ? name : `${name}.conc`);
}
function listenToFiles() {
  $('open').onclick = () => $('file').click();
  $('file').onchange = () => { openFile($('file').files[0]).finally(() => { $('file').value = ''; }); };
  $('save').onclick = saveFile;
  editor.addEventListener('dragover', event => { if (event.dataTransfer.types.includes('Files')) event.preventDefault(); });
  editor.addEventListener('drop', event => {
    if (!event.dataTransfer.files.length) return;
    event.preventDefault();
    openFile(event.dataTransfer.files[0]);
  });
}

// A browser that keeps nothing, or has no room, is no fault.
const KEPT = 'conc-run-script', ASIDE = 'conc-run-before';
function fromStore(name) {
  try { return JSON.parse(localStorage.getItem(name)); } catch { return null; }
}
function toStore(name, what) {
  try { localStorage.setItem(name, JSON.stringify(what)); } catch { /* not kept */ }
}
let keeping = 0;
function keepNow() {
  clearTimeout(keeping);
  if (!foreign) toStore(KEPT, { script: text.value.slice(0, 1 << 20), name: $('name').textContent, edited, ...optionsNow() });
}
function keepSoon() {
  clearTimeout(keeping);
  keeping = setTimeout(keepNow, 300);
}

// The scripts that somebody wrote, and that others took the place of; the last one comes back first.
const ASIDES = 10, ASIDE_SIZE = 2 << 20;
let asides = [];
function keepAsides() {
  let size = 0;
  asides = asides.slice(-ASIDES);
  toStore(ASIDE, asides.filter(it => (size += it.script.length) < ASIDE_SIZE));
  const name = asides.at(-1)?.name.replace(', changed', '') || 'your script';
  $('back').hidden = !asides.length;
  $('back').textContent = asides.length ? `Back to ${name}` : '';
}
function takeAsides() {
  const kept = fromStore(ASIDE);
  asides = Array.isArray(kept) ? kept.filter(it => typeof it?.script === 'string' && typeof it.name === 'string') : [];
  keepAsides();
}
function setAside(script, name) {
  asides.push({ script, name: String(name ?? '') });
  keepAsides();
}
function takeBack() {
  const { script, name } = asides.pop();
  loadFresh(script, name);
  edited = true;
  keepAsides();
  text.focus({ preventScroll: true });
}
