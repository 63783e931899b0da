// ---- links: the script and the options behind the number sign of the address, with the version ----

// Longer ones are cut by what they are sent by.
const LONGEST = 8000;
const VERSION = document.querySelector('meta[name="conc-run"]').content.split(' ')[1];

function inAlphabet(bytes) {
  let binary = '';
  for (let i = 0; i < bytes.length; i += 8192) binary += String.fromCharCode(...bytes.subarray(i, i + 8192));
  return btoa(binary).replace(/\+/g, '-').replace(/\//g, '_').replace(/=+$/, '');
}
const outOfAlphabet = code => Uint8Array.from(atob(code.replace(/-/g, '+').replace(/_/g, '/')), it => it.charCodeAt(0));

async function fragmentOf(script, options) {
  const packed = new Blob([JSON.stringify({ script, ...options })]).stream().pipeThrough(new CompressionStream('deflate-raw'));
  return `1.${VERSION.replace(/\./g, '-')}.${inAlphabet(new Uint8Array(await new Response(packed).arrayBuffer()))}`;
}

// The script of an address; null where it names none. One that can't be read is told.
async function fromAddress() {
  const code = location.hash.slice(1);
  if (Object.hasOwn(data.examples, code)) return { script: data.examples[code].script, name: code, isOurs: true };
  const link = /^1\.([0-9]+(?:-[0-9]+)*)\.([\w-]+)$/.exec(code);
  try {
    if (!link) throw new Error(code);
    const kept = JSON.parse(decoded(await unpacked(outOfAlphabet(link[2]), 'deflate-raw', 8 << 20)));
    if (typeof kept.script !== 'string') throw new Error(code);
    return { ...kept, name: 'from a link', version: link[1].replace(/-/g, '.') };
  } catch {
    if (!/^\d+\./.test(code)) return null;
    say({ head: 'The link is broken', kind: 'bad', rest: 'so the script that was here is shown', cure: 'Ask for it again, or for a file.' });
    return null;
  }
}

function takeLink(sent) {
  takeOptions(Object.fromEntries(['clock', 'fuel', 'states'].filter(name => name in sent).map(name => [name, sent[name]])));
  load(sent.script, sent.name, { fromLink: !sent.isOurs });
  if (sent.isOurs) return;
  say({ head: 'A script from a link', kind: 'stuck', rest: sent.version === VERSION ? 'it is shown, and nothing of it has run'
    : `it is shown, and nothing of it has run. It was sent from version ${sent.version}, and this is ${VERSION}, which may answer otherwise` });
}

function offerFile(why) {
  say({ head: 'No link, but a file', kind: 'stuck', rest: why });
  const send = button('Save the script as a file', saveFile);
  $('shown').replaceChildren(make('p', {}, send, ' to send it; whoever has this page opens it by Open file.'));
}
async function makeLink() {
  if (!/^https?:$/.test(location.protocol)) return offerFile('this page was opened from a file, so it has no address to send');
  const { clock, fuel, states } = optionsNow(), address = `${location.href.split('#')[0]}#${await fragmentOf(text.value, { clock, fuel, states })}`;
  if (address.length > LONGEST) return offerFile(`a link would have ${number(address.length)} characters, and many programs cut one off`);
  history.replaceState(null, '', address);
  const copied = await navigator.clipboard?.writeText(address).then(() => true, () => false);
  say({ head: copied ? 'The link is copied' : 'The link stands in the address',
    rest: `it has ${number(address.length)} characters and holds the script and the options` });
  if (copied) return;
  const field = make('input', { className: 'address', readOnly: true, value: address, onfocus: event => event.target.select() });
  $('shown').replaceChildren(make('label', {}, 'Link ', field));
}
