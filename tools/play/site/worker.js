'use strict';
// One call of the program: {module, words, input, limit} comes, pieces of its streams go, and at last how it ended.
let memory, pieces = [], held = 0, posts = 0, last = 0;

class Ended extends Error {
  constructor(status) { super(); this.status = status; }
}
// A view is stale once the memory has grown, so each call makes its own.
const bytes = (place, size) => new Uint8Array(memory.buffer, Number(place), Number(size));

function flush() {
  if (!pieces.length) return;
  postMessage({ pieces }, pieces.map(([, piece]) => piece.buffer));
  pieces = [];
  held = 0;
  posts++;
  last = performance.now();
}

// Waits without work. From a file there is no SharedArrayBuffer by name, but a shared memory holds one.
let waiting;
function pause(milliseconds) {
  flush();
  const until = performance.now() + milliseconds;
  try { waiting ??= new Int32Array(new WebAssembly.Memory({ initial: 1, maximum: 1, shared: true }).buffer); } catch { waiting = null; }
  if (waiting) Atomics.wait(waiting, 0, 0, milliseconds);
  while (performance.now() < until);
}

function imports(argv, input, limit) {
  let at = 0;
  return {
    // The first pieces go at once; of a script that prints a lot they go in bundles.
    write_piece(stream, place, size) {
      pieces.push([stream, bytes(place, size).slice()]);
      held += Number(size);
      if (posts < 500 || held > 65536 || performance.now() - last > 50) flush();
      return size;
    },
    read_piece(stream, place, size) {
      const part = input.subarray(at, at + Number(size));
      bytes(place, size).set(part);
      at += part.length;
      return BigInt(part.length);
    },
    argument(which, place, size) {
      if (which >= argv.length) return -1n;
      const word = argv[Number(which)];
      if (word.length > size) return -2n;
      bytes(place, size).set(word);
      return BigInt(word.length);
    },
    milliseconds: () => performance.now(),
    pause,
    most_memory: () => limit,
    end(status) { throw new Ended(status); },
  };
}

// Why the engine stopped: its stack, its memory, or its own words.
function reason(error) {
  const said = String(error);
  if (/call stack|recursion/i.test(said)) return 'stack';
  return /out of memory|could not allocate|cannot allocate|allocation failed/i.test(said) ? 'memory' : said;
}

onmessage = async ({ data: { module, words, input, limit } }) => {
  const argv = ['conc_run', ...words].map(word => new TextEncoder().encode(word)), start = performance.now();
  let status = null, failure = null;
  try {
    const instance = new WebAssembly.Instance(module, { page: imports(argv, input, limit) });
    memory = instance.exports.memory;
    // On a stack of its own where the engine has such, since a worker's is too small for the highest expressions.
    status = await (WebAssembly.promising ? WebAssembly.promising(instance.exports.go)() : instance.exports.go());
  } catch (error) {
    if (error instanceof Ended) status = error.status;
    else failure = reason(error);
  }
  flush();
  postMessage({ status, failure, milliseconds: performance.now() - start, memory: memory ? memory.buffer.byteLength : 0 });
};
