// ---- the program: each call has a worker and an instance of its own ----

// So Stop ends it at any moment, and its memory is given back.
const policy = globalThis.trustedTypes?.createPolicy('conc-run', { createScriptURL: address => address });
const workerAddress = URL.createObjectURL(new Blob([$('worker').textContent], { type: 'text/javascript' }));
function newWorker() {
  const worker = new Worker(policy ? policy.createScriptURL(workerAddress) : workerAddress);
  // One that isn't allowed says so soon, maybe before it is called.
  worker.onerror = problem => {
    problem.preventDefault();
    worker.isBroken = true;
  };
  return worker;
}
let compiling = null, spare = null;
const running = new Set();

class Stopped extends Error {}

async function compile() {
  const packed = Uint8Array.from(atob($('program').textContent), it => it.charCodeAt(0));
  return WebAssembly.compile(await unpacked(packed, 'gzip', 1e8));
}
const compiled = () => compiling ??= compile();

// The answer: status, or the engine's failure; the words, the streams, how long it took and how much memory it had.
function answerOf(worker, words, onPiece, end) {
  const streams = { 1: [], 2: [] };
  worker.onmessage = async ({ data: answer }) => {
    for (const [stream, piece] of answer.pieces ?? []) {
      streams[stream].push(piece);
      onPiece(stream, piece);
    }
    if (!('status' in answer)) return;
    const [out, err] = await Promise.all([joined(streams[1]), joined(streams[2])]);
    end({ ...answer, words, out, err });
  };
  worker.onerror = problem => {
    problem.preventDefault();
    const failure = /memory/i.test(problem.message ?? '') ? 'memory' : problem.message || 'worker';
    end({ words, status: null, failure, milliseconds: 0, memory: 0, out: new Uint8Array(), err: new Uint8Array() });
  };
}

// It can be stopped from the first moment on, also before the program is compiled.
function call(words, input, { onPiece = () => {}, quiet = false } = {}) {
  return new Promise((resolve, reject) => {
    let worker = null, isOver = false;
    const handle = { quiet, stop: () => end(() => reject(new Stopped())) };
    function end(act) {
      if (isOver) return;
      isOver = true;
      running.delete(handle);
      worker?.terminate();
      if (worker) spare ??= newWorker();
      act();
    }
    running.add(handle);
    compiled().then(module => {
      if (isOver) return;
      worker = spare && !spare.isBroken ? spare : newWorker();
      spare = null;
      answerOf(worker, words, onPiece, answer => end(() => resolve(answer)));
      worker.postMessage({ module, words, input, limit: option('memory') * 1048576 });
    }).catch(problem => end(() => reject(problem)));
  });
}
function stop({ quietOnly = false } = {}) {
  for (const handle of [...running]) if (handle.quiet || !quietOnly) handle.stop();
}

// What a browser that can't run the program is told.
function cannotRun(problem) {
  const said = String(problem?.message ?? problem), refused = /Content Security Policy|unsafe-eval|disallowed/i.test(said);
  return refused || typeof WebAssembly === 'undefined'
    ? 'WebAssembly is not allowed here, so nothing can be checked or run. Allow it for this page, or take another browser, or the program itself.'
    : `It needs Chrome or Edge 103, Firefox 113, Safari 16.4 or newer, with scripts and WebAssembly allowed. It says: ${said}`;
}
