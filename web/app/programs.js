// The proved programs: each call runs one of them in the Worker, one after another.

// How much memory a program has, in pages of 65,536 bytes. The build links programs with the same numbers.
const PAGES = { initial: 256, maximum: 65536 };

// The text of a block of the page, by its id.
function blockText(id) {
  return document.getElementById(id).textContent;
}

// The bytes of a block that tools/page packed.
async function unpackedBytes(id) {
  const packed = Uint8Array.from(atob(blockText(id)), (letter) => letter.charCodeAt(0));
  const stream = new Blob([packed]).stream().pipeThrough(new DecompressionStream("gzip"));
  return new Uint8Array(await new Response(stream).arrayBuffer());
}

const modules = new Map();

// The compiled program, which is compiled when it is first asked for.
function moduleOf(program) {
  if (!modules.has(program)) modules.set(program, unpackedBytes(`program-${program}`).then((bytes) => WebAssembly.compile(bytes)));
  return modules.get(program);
}

let worker = null;
let numbered = 0;
// The call that the Worker works on: its number, and what to do with its answer.
let running = null;
let last = Promise.resolve();
let cancelled = 0;

function fault(name, text) {
  const error = new Error(text);
  error.name = name;
  return error;
}

function endWorker() {
  if (worker !== null) worker.terminate();
  worker = null;
}

// Takes a message of the Worker to the call that it belongs to.
function receive({ data }) {
  if (running === null || data.id !== running.id) return;
  if (data.text !== undefined) {
    running.onMessages(data.text);
    return;
  }
  const { resolve, reject } = running;
  running = null;
  if (data.failed !== undefined) {
    endWorker();
    reject(fault("Failed", data.failed));
  } else {
    resolve(data);
  }
}

function startWorker() {
  const url = URL.createObjectURL(new Blob([blockText("worker")], { type: "text/javascript" }));
  worker = new Worker(url);
  URL.revokeObjectURL(url);
  worker.onmessage = receive;
  worker.onerror = (event) => {
    if (running !== null) receive({ data: { id: running.id, failed: event.message ?? "the Worker ended" } });
  };
}

function refuseCancelled(born) {
  if (born !== cancelled) throw fault("Cancelled", "cancelled");
}

async function runAlone({ program, words, files, input, onMessages, pages }, born) {
  refuseCancelled(born);
  const module = await moduleOf(program);
  refuseCancelled(born);
  if (worker === null) startWorker();
  const id = (numbered += 1);
  return new Promise((resolve, reject) => {
    running = { id, resolve, reject, onMessages: onMessages ?? (() => {}) };
    worker.postMessage({
      id, module, files: files ?? {}, input: input ?? new Uint8Array(), words: [program, ...words],
      pages: pages ?? PAGES, watched: onMessages !== undefined,
    });
  });
}

/**
 * Runs "iptsim" or "iptaudit" (`program`) with these words, files (by the names that words give them) and standard input.
 *
 * The answer is { status, output, messages, milliseconds, memory }, with the bytes of standard output and standard error. Where
 * `onMessages` is given, standard error is a terminal, so it shows progress, and each text goes there at once. `pages` are for tests of
 * small memories. A call that is cancelled fails with an Error of the name "Cancelled", and one that doesn't end by itself with "Failed".
 */
export function runProgram(call) {
  const born = cancelled;
  const answer = last.then(() => runAlone(call, born));
  last = answer.catch(() => {});
  return answer;
}

/** Ends the call that runs, and those that wait. */
export function cancelPrograms() {
  cancelled += 1;
  endWorker();
  if (running === null) return;
  const { reject } = running;
  running = null;
  reject(fault("Cancelled", "cancelled"));
}

/** Whether this browser has memory and tables of 64 bits, without which the programs don't run. */
export async function areProgramsSupported() {
  try {
    await moduleOf("iptsim");
    return new WebAssembly.Memory({ address: "i64", initial: 1n, maximum: 1n }).grow(0n) === 1n;
  } catch {
    return false;
  }
}
