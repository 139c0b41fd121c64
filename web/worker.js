// Runs the programs, in a Worker of the page: their files, words, input and output. Not proved, and with web/machine all that stands
// between a program and the page.
//
// A message { id, module, pages, words, files, input, watched } runs a program: `module` is its WebAssembly, `pages` its memory
// ({ initial, maximum }, in pages of 65,536 bytes), `words` are its words with its name first, `files` maps the names of its files to
// their bytes, and `input` is its standard input. The answer is { id, status, output, messages, milliseconds, memory }, or { id, failed }
// with the reason why the program didn't end by itself. Where it is `watched`, standard error is a terminal, and what the program
// writes there also comes at once, as { id, text }.
"use strict";

// The numbers of errno on Linux.
const ENOENT = -2n, EBADF = -9n, EROFS = -30n, ERANGE = -34n;
// The lowest two bits of the flags of open(2): 0 is for reading alone.
const ACCESS = 3;

// The bytes of all parts, one after the other.
function joined(parts) {
  const whole = new Uint8Array(parts.reduce((length, part) => length + part.length, 0));
  let at = 0;
  for (const part of parts) {
    whole.set(part, at);
    at += part.length;
  }
  return whole;
}

// The files of one run of a program, by their numbers: 0 to 2 are those of every program, and others are opened by name.
class OpenFiles {
  constructor(files, input, watch) {
    this.named = new Map(Object.entries(files));
    this.reading = new Map([[0, { bytes: input, at: 0 }]]);
    this.written = new Map([[1, []], [2, []]]);
    this.watch = watch;
  }

  open(name, flags) {
    if ((flags & ACCESS) !== 0) return EROFS;
    const bytes = this.named.get(name);
    if (bytes === undefined) return ENOENT;
    let number = 3;
    while (this.reading.has(number)) number += 1;
    this.reading.set(number, { bytes, at: 0 });
    return BigInt(number);
  }

  close(number) {
    return this.reading.delete(number) || this.written.has(number) ? 0n : EBADF;
  }

  // The next bytes of a file, at most `length`.
  read(number, length) {
    const file = this.reading.get(number);
    if (file === undefined) return undefined;
    const bytes = file.bytes.subarray(file.at, file.at + length);
    file.at += bytes.length;
    return bytes;
  }

  write(number, bytes) {
    const parts = this.written.get(number);
    if (parts === undefined) return EBADF;
    parts.push(bytes);
    if (number === 2) this.watch(bytes);
    return BigInt(bytes.length);
  }
}

// What web/machine/system.c calls. Addresses and lengths are those of the program's memory.
function callsOf(memory, words, open, isWatched) {
  const begun = performance.now();
  const bytesAt = (at, length) => new Uint8Array(memory.buffer, Number(at), Number(length));
  const nameAt = (at) => {
    const all = new Uint8Array(memory.buffer, Number(at));
    return new TextDecoder().decode(all.slice(0, all.indexOf(0)));
  };
  return {
    open: (name, flags) => open.open(nameAt(name), flags),
    close: (number) => open.close(number),
    read: (number, at, length) => {
      const bytes = open.read(number, Number(length));
      if (bytes === undefined) return EBADF;
      bytesAt(at, bytes.length).set(bytes);
      return BigInt(bytes.length);
    },
    write: (number, at, length) => open.write(number, bytesAt(at, length).slice()),
    word: (number, at, length) => {
      const word = words[Number(number)];
      if (word === undefined) return -1n;
      if (BigInt(word.length) > length) return ERANGE;
      bytesAt(at, word.length).set(word);
      return BigInt(word.length);
    },
    is_terminal: (number) => (isWatched && number === 2 ? 1 : 0),
    nanoseconds: () => BigInt(Math.round((performance.now() - begun) * 1e6)),
  };
}

function run({ id, module, pages, words, files, input, watched }) {
  const begun = performance.now();
  const decoder = new TextDecoder();
  const watch = (bytes) => {
    if (watched) self.postMessage({ id, text: decoder.decode(bytes, { stream: true }) });
  };
  try {
    const memory = new WebAssembly.Memory({ address: "i64", initial: BigInt(pages.initial), maximum: BigInt(pages.maximum) });
    const open = new OpenFiles(files, input, watch);
    const encoded = words.map((word) => new TextEncoder().encode(word));
    const page = callsOf(memory, encoded, open, watched);
    const program = new WebAssembly.Instance(module, { page, env: { memory } });
    // The compiler gives main the two parameters of C, which the programs don't read.
    const status = program.exports.main(0, 0n);
    const output = joined(open.written.get(1)), messages = joined(open.written.get(2));
    const milliseconds = performance.now() - begun;
    self.postMessage({ id, status, output, messages, milliseconds, memory: memory.buffer.byteLength });
  } catch (fault) {
    self.postMessage({ id, failed: String(fault) });
  }
}

self.onmessage = (message) => run(message.data);
