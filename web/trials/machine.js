// Trials of web/machine in a browser: the heap beside a model that knows which bytes are taken, and the numbers of 128 bits beside
// BigInt. `tryMachine(module, steps)` gives a text for each fault, and none where there is no fault.
"use strict";

// A row of numbers that looks random and is the same each time.
function drawing(seed) {
  let state = seed;
  return (below) => {
    state = (Math.imul(state, 1664525) + 1013904223) >>> 0;
    return Math.floor((state / 2 ** 32) * below);
  };
}

const PAGE = 65536;
const WIDE = (1n << 128n) - 1n, HALF = (1n << 64n) - 1n;

// The blocks that are taken: where each lies, and how many bytes it has.
class Model {
  constructor(memory) {
    this.memory = memory;
    this.blocks = [];
    this.faults = [];
  }

  bytes(at, length) {
    return new Uint8Array(this.memory.buffer, at, length);
  }

  // A byte that tells blocks apart.
  mark(at, length) {
    return (at * 31 + length * 7) & 255;
  }

  add(at, length) {
    const end = at + length;
    if (at % 16 !== 0) this.faults.push(`a block at ${at}, not aligned`);
    if (end > this.memory.buffer.byteLength) this.faults.push(`a block at ${at} ends beyond the memory`);
    const met = this.blocks.find((block) => at < block.at + block.length && block.at < end);
    if (met !== undefined) this.faults.push(`a block at ${at} of ${length} bytes, where one of ${met.length} is taken`);
    this.bytes(at, length).fill(this.mark(at, length));
    this.blocks.push({ at, length });
  }

  // Whether the first bytes of a block, which may have moved, are those that were put there.
  check(block, at, length) {
    const mark = this.mark(block.at, block.length), bytes = this.bytes(at, length);
    for (let each = 0; each < length; each += 1) {
      if (bytes[each] !== mark) {
        this.faults.push(`byte ${each} of a block of ${block.length} has changed`);
        return;
      }
    }
  }
}

// A length that is often small, often beside a power of two, and now and then large.
function drawnLength(draw) {
  const kind = draw(10);
  if (kind < 5) return draw(200);
  if (kind < 8) return Math.max(0, 2 ** draw(16) - 2 + draw(5));
  return draw(kind === 8 ? 5000 : 3000000);
}

// Takes, moves and gives blocks at random: the faults, and how often there was no memory.
function tryHeap(module, steps, maximum, seed) {
  const memory = new WebAssembly.Memory({ address: "i64", initial: 256n, maximum: BigInt(maximum) });
  const { take, move, give } = new WebAssembly.Instance(module, { env: { memory } }).exports;
  const model = new Model(memory), draw = drawing(seed);
  let refused = 0;
  for (let step = 0; step < steps; step += 1) {
    const length = drawnLength(draw), known = model.blocks.length, action = known === 0 ? 0 : draw(known > 300 ? 4 : 3);
    if (action === 0) {
      const at = Number(take(BigInt(length), 8n));
      if (at === 0) refused += 1;
      else model.add(at, length);
      continue;
    }
    const [block] = model.blocks.splice(draw(known), 1);
    model.check(block, block.at, block.length);
    if (action !== 1) {
      give(BigInt(block.at));
      continue;
    }
    const at = Number(move(BigInt(block.at), BigInt(block.length), BigInt(length), 8n));
    if (at === 0) {
      refused += 1;
      model.check(block, block.at, block.length);
      model.blocks.push(block);
    } else {
      model.check(block, at, Math.min(block.length, length));
      model.add(at, length);
    }
  }
  return { faults: model.faults, refused, size: memory.buffer.byteLength };
}

// The product and the shifts of numbers that are drawn, beside BigInt.
function tryNumbers(module, steps) {
  const memory = new WebAssembly.Memory({ address: "i64", initial: 256n, maximum: 256n });
  const { product, right, left } = new WebAssembly.Instance(module, { env: { memory } }).exports;
  const draw = drawing(5), faults = [];
  const halves = (number) => [number & HALF, number >> 64n];
  const at = (place) => {
    const view = new DataView(memory.buffer);
    return view.getBigUint64(Number(place), true) | (view.getBigUint64(Number(place) + 8, true) << 64n);
  };
  const drawn = () => {
    let number = 0n;
    for (let part = 0; part < 4; part += 1) number = (number << 32n) | [0n, 0xffffffffn, 1n, BigInt(draw(2 ** 32))][draw(4)];
    return number;
  };
  const same = (what, came, due) => {
    if (came !== (due & WIDE)) faults.push(`${what}: ${came}, and not ${due & WIDE}`);
  };
  for (let step = 0; step < steps; step += 1) {
    const one = drawn(), other = drawn(), count = draw(128);
    same(`${one} * ${other}`, at(product(...halves(one), ...halves(other))), one * other);
    same(`${one} >> ${count}`, at(right(...halves(one), count)), one >> BigInt(count));
    same(`${one} << ${count}`, at(left(...halves(one), count)), one << BigInt(count));
  }
  return faults;
}

// What is wrong: nothing where the list is empty. Small memories end, and large ones have room for all that is asked.
function tryMachine(module, steps) {
  const faults = tryNumbers(module, steps);
  for (const [maximum, mayRefuse] of [[257, true], [300, true], [65536, false]]) {
    for (const seed of [1, 2, 3]) {
      const came = tryHeap(module, steps, maximum, seed);
      faults.push(...came.faults);
      if ((came.refused > 0) !== mayRefuse) faults.push(`${came.refused} blocks are refused with ${maximum} pages`);
      if (came.size > maximum * PAGE) faults.push("there is more memory than there may be");
      if (faults.length > 0) return faults;
    }
  }
  return faults;
}
