// ---- what every part uses ----

const $ = id => document.getElementById(id);
const data = JSON.parse($('data').textContent);
const text = $('text'), paper = $('paper'), editor = $('editor');

// An element with properties and children; texts are texts, never markup.
function make(tag, properties = {}, ...children) {
  const element = document.createElement(tag);
  for (const [name, value] of Object.entries(properties)) {
    if (name in element) element[name] = value;
    else element.setAttribute(name, value);
  }
  element.append(...children.filter(child => child != null && child !== ''));
  return element;
}
const button = (label, onclick, className = '') => make('button', { type: 'button', textContent: label, onclick, className });
// A sentence of the documents: `x` is code, **x** stands out.
const sentence = said => said.split(/(`[^`]*`|\*\*[^*]*\*\*)/).map(part => part.startsWith('`') ? make('code', {}, part.slice(1, -1))
  : part.startsWith('**') ? make('b', {}, part.slice(2, -2)) : part);

const number = n => n.toLocaleString('en');
const count = (n, one, more = one + 's') => `${number(n)} ${n === 1 ? one : more}`;
const duration = ms => ms < 1000 ? `${Math.round(ms)} ms` : `${(ms / 1000).toFixed(ms < 10000 ? 2 : 1)} s`;
const decoded = bytes => new TextDecoder('utf-8', { ignoreBOM: true }).decode(bytes);
const encoded = string => new TextEncoder().encode(string);
const lastLine = bytes => decoded(bytes).trimEnd().split('\n').at(-1);

async function joined(parts) {
  return new Uint8Array(await new Blob(parts).arrayBuffer());
}
async function unpacked(bytes, format, most) {
  const reader = new Blob([bytes]).stream().pipeThrough(new DecompressionStream(format)).getReader(), parts = [];
  for (let size = 0; ;) {
    const { done, value } = await reader.read();
    if (done) return joined(parts);
    parts.push(value);
    if ((size += value.length) > most) throw new Error('too long');
  }
}

// The addresses of what can be saved or drawn, until the next act.
const addresses = [];
function addressOf(bytes, type) {
  const address = URL.createObjectURL(new Blob([bytes], { type }));
  addresses.push(address);
  return address;
}
const saving = (label, bytes, type, name) => make('a', { href: addressOf(bytes, type), download: name, textContent: label });
function download(bytes, name) {
  const link = saving('', bytes, 'text/plain', name);
  document.body.append(link);
  link.click();
  link.remove();
}

// Nobody who prefers stillness sees the page move.
const moves = () => matchMedia('(prefers-reduced-motion: reduce)').matches ? 'auto' : 'smooth';
