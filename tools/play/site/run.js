// Runs the program's WebAssembly under node as if it were the program:
//
//   node run.js conc.wasm WORDS < SCRIPT     writes what the program writes, and ends with its status
//   node run.js conc.wasm --lines            for each line {"words", "script"} of its input a line {"status", "out", "err"}; texts in base64
//
// Where the engine stops it, a line `engine: ..` stands on the error output and the status is 70. MEMORY_MB in the environment says how
// much memory a call may take (2048).
'use strict';
const fs = require('fs'), readline = require('readline');

class Ended extends Error {
  constructor(status) { super(); this.status = status; }
}

function imports(argv, input, outputs, memoryOf) {
  const bytes = (place, size) => new Uint8Array(memoryOf().buffer, Number(place), Number(size));
  let at = 0;
  return {
    write_piece(stream, place, size) {
      outputs[stream].push(Buffer.from(bytes(place, size)));
      return size;
    },
    read_piece(stream, place, size) {
      const part = input.subarray(at, at + Number(size));
      bytes(place, size).set(part);
      at += part.length;
      return BigInt(part.length);
    },
    argument(which, place, size) {
      if (which >= argv.length) return -1n;
      const word = Buffer.from(argv[Number(which)]);
      if (word.length > size) return -2n;
      bytes(place, size).set(word);
      return BigInt(word.length);
    },
    milliseconds: () => performance.now(),
    pause(milliseconds) { Atomics.wait(new Int32Array(new SharedArrayBuffer(4)), 0, 0, milliseconds); },
    most_memory: () => Number(process.env.MEMORY_MB || 2048) * 1048576,
    end(status) { throw new Ended(status); },
  };
}

function call(module, words, input) {
  const outputs = { 1: [], 2: [] };
  let instance, status;
  try {
    instance = new WebAssembly.Instance(module, { page: imports(['conc_run', ...words], input, outputs, () => instance.exports.memory) });
    status = instance.exports.go();
  } catch (error) {
    status = error instanceof Ended ? error.status : 70;
    if (!(error instanceof Ended)) outputs[2].push(Buffer.from(`engine: ${error}\n`));
  }
  return { status, out: Buffer.concat(outputs[1]), err: Buffer.concat(outputs[2]) };
}

function writeAll(stream, bytes) {
  for (let done = 0; done < bytes.length;) done += fs.writeSync(stream, bytes, done);
}

const [file, ...words] = process.argv.slice(2), module_ = new WebAssembly.Module(fs.readFileSync(file));
if (words[0] === '--lines') {
  readline.createInterface({ input: process.stdin }).on('line', line => {
    const asked = JSON.parse(line), { status, out, err } = call(module_, asked.words, Buffer.from(asked.script, 'base64'));
    writeAll(1, Buffer.from(JSON.stringify({ status, out: out.toString('base64'), err: err.toString('base64') }) + '\n'));
  });
} else {
  const { status, out, err } = call(module_, words, fs.readFileSync(0));
  writeAll(1, out);
  writeAll(2, err);
  process.exitCode = status;
}
