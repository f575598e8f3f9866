// An instance of the module: allocates in its memory, and calls its functions.
import { NO_LIMIT } from './arguments.js';
import {
  AT_MOST, COST, KEY_TOO_SHORT, LENGTHS, MISMATCH, NEEDED, NEEDS_REHASH, OK, TOO_COSTLY, WORK,
} from './declared.js';
import { errorOf, outOfMemory } from './errors.js';

const PAGE = 65536;
// The bytes of the module's stack, which is at the bottom of its memory, below its data.
const STACK = 2 ** 20;
const AT_ONCE = 2; // interleaved chunks

/** An instance with an empty memory. Memory that is taken is zeros, and lasts until it is wiped. */
export class Instance {
  #calls;
  #memory;
  #base;
  #top;
  #isInside = false;

  constructor(exports) {
    this.#calls = exports;
    this.#memory = exports.memory;
    this.#base = Number(exports.__heap_base.value);
    this.#top = this.#base;
  }

  /** The number of bytes of its memory, which never shrinks. */
  get size() {
    return this.#memory.buffer.byteLength;
  }

  /** Whether a call has not returned. Then the module must not be called again. */
  get isInside() {
    return this.#isInside;
  }

  /** Wipes the memory that was taken, and the stack. */
  wipe() {
    this.#clear(0, STACK);
    this.#clear(this.#base, this.#top);
    this.#top = this.#base;
  }

  // For the module a slice is a pointer and a length.
  #status(name, args) {
    const isSlice = (arg) => typeof arg === 'object';
    const numbers = args.flatMap((arg) => (isSlice(arg) ? [arg.at, BigInt(arg.length)] : arg));
    this.#isInside = true;
    const status = this.#calls[name](...numbers);
    this.#isInside = false;
    return status;
  }

  /** Calls the module, with numbers and with memory that was taken. */
  call(name, ...args) {
    const status = this.#status(name, args);
    if (status !== OK) throw errorOf(status);
  }

  /** The same for a call that can also return no. */
  isOk(name, ...args) {
    const status = this.#status(name, args);
    if (![OK, MISMATCH, NEEDS_REHASH].includes(status)) throw errorOf(status);
    return status === OK;
  }

  /** Takes zeros above the memory that is taken. */
  take(length, size = 1) {
    // The module, of 32 bits, takes no longer slice.
    if (length * size >= 2 ** 31) throw outOfMemory(new RangeError('2 GiB or more in one buffer'));
    const at = Math.ceil(this.#top / 64) * 64;
    const top = at + length * size;
    const missing = Math.ceil((top - this.#memory.buffer.byteLength) / PAGE);
    if (missing > 0) {
      try {
        this.#memory.grow(missing);
      } catch (cause) {
        throw outOfMemory(cause);
      }
    }
    this.#top = top;
    return { at: BigInt(at), length, size };
  }

  /** Words that the module writes to: to the low bytes, by the size of the type. */
  words(count) {
    return Array.from({ length: count }, () => this.take(8));
  }

  /** Takes memory for these bytes, and copies them there. */
  put(bytes) {
    const taken = this.take(bytes.length);
    this.view(taken).set(bytes);
    return taken;
  }

  /** The bytes of memory that was taken. */
  view({ at, length }) {
    return new Uint8Array(this.#memory.buffer, Number(at), length);
  }

  big({ at }) {
    return new DataView(this.#memory.buffer).getBigUint64(Number(at), true);
  }

  number(taken) {
    return Number(this.big(taken));
  }

  /** Takes memory for a structure. Returns its address, and the places of its fields. */
  structure({ size, fields }) {
    const { at } = this.take(size);
    const placed = Object.entries(fields).map(([name, offset]) => [name, { at: at + BigInt(offset) }]);
    return { at, ...Object.fromEntries(placed) };
  }

  /** The buffers of a derivation, within limits on memory and work. */
  buffersFor(params, ...limits) {
    return this.#within('scrypt_params_cost', params, limits);
  }

  /** The buffers for verifying a hash, within these limits and one on the length of its key. */
  buffersOf(text, limits) {
    return this.#within('scrypt_hash_cost', [text], limits);
  }

  #within(name, args, limits) {
    const cost = this.structure(COST);
    const status = this.#status(name, [...args, ...limits, cost.at]);
    if (status === OK) return this.#buffers(cost);
    const read = ([name, place]) => [name, this.big(place)];
    const numbers = Object.fromEntries(Object.entries(cost).slice(1).map(read));
    throw errorOf(status, undefined, explained(status, numbers, limits));
  }

  // The chunks, the table and the scratch, for the number of interleaved chunks that the memory
  // allows.
  #buffers(cost) {
    const sizes = [cost.tables, cost.chunks_len, cost.table_len, cost.scratch_len];
    const [tables, chunks, table, scratch] = sizes.map((size) => this.number(size));
    const top = this.#top;
    for (let atOnce = Math.min(tables, AT_ONCE); ; atOnce -= 1) {
      try {
        const [first, last] = [this.take(chunks), this.take(atOnce * scratch, 4)];
        return [first, this.take(atOnce * table, 4), last];
      } catch (error) {
        if (atOnce <= 1) throw error;
        this.#top = top;
      }
    }
  }

  #clear(from, to) {
    // In some engines a view has no more than 2^32 bytes.
    for (let at = from; at < to; at += 2 ** 30) {
      new Uint8Array(this.#memory.buffer, at, Math.min(2 ** 30, to - at)).fill(0);
    }
  }
}

// Words with a number for each %.
const filled = (words, ...numbers) => words.replace(/%/g, () => numbers.shift());
const atMost = (limit) => (limit === NO_LIMIT ? '' : filled(AT_MOST, limit));

// The numbers of a rejected hash, as the C library's scrypt_explain writes them.
function explained(status, { log_n: logN, r, p, bytes, work, key_len: keyLen }, limits) {
  const [maxMem, maxWork, minKeyLen] = limits;
  if (status === KEY_TOO_SHORT) return `: ${filled(LENGTHS, keyLen, minKeyLen)}`;
  if (status !== TOO_COSTLY) return '';
  const needed = filled(NEEDED, ...[logN, r, p].map((it) => BigInt.asUintN(32, it)), bytes);
  return `: ${needed}${atMost(maxMem)}${filled(WORK, work)}${atMost(maxWork)}`;
}

/** The addresses of words. */
export const places = (words) => words.map((word) => word.at);
