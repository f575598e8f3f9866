// Shared by the checks.
import { Scrypt } from '../core.js';
import { ScryptError } from '../errors.js';

/** Parameters of minimum cost. */
export const OF = { N: 2, r: 1, p: 1 };

export const hex = (bytes) => Array.from(bytes, (it) => it.toString(16).padStart(2, '0')).join('');
export const bytes = (text) => Uint8Array.from(text.match(/../g) ?? [], (it) => parseInt(it, 16));
export const utf8 = (text) => new TextEncoder().encode(text);

export function equal(found, wanted, what = '') {
  if (found !== wanted) throw new Error(`${what}: ${found}, and not ${wanted}`);
}

/** Tests that work fails with this code, or with an error of this name. No message has a secret. */
export async function refused(code, work, reason = '', what = `${work}`) {
  const [found, message] = await Promise.resolve().then(work).then(
    (value) => [`the answer ${value}`, reason],
    (error) => [error instanceof ScryptError ? error.code : error.name, error.message],
  );
  equal(found, code, what);
  equal(message.includes(reason) && !message.includes('secret'), true, `${what}: ${message}`);
}

/** Runs work while a property of an object has another value. */
export async function instead(object, name, value, work) {
  const own = Object.getOwnPropertyDescriptor(object, name);
  Object.defineProperty(object, name, { value, configurable: true, writable: true });
  try {
    return await work();
  } finally {
    if (own) Object.defineProperty(object, name, own);
    else delete object[name];
  }
}

/** The calls on a module, whose memory can be read, and can be kept from growing above `most`
 * bytes; the first instance has other exports too. */
export async function opened(module, others = {}) {
  const it = { most: Infinity };
  const limited = ({ exports }) => {
    const { memory } = exports;
    const initial = new Uint32Array(memory.buffer.slice(0, Number(exports.__heap_base.value)));
    Object.assign(it, { memory, initial });
    const grow = (pages) => {
      if (memory.buffer.byteLength + pages * 65536 > it.most) throw new RangeError('no memory');
      return memory.grow(pages);
    };
    return { ...exports, memory: { get buffer() { return memory.buffer; }, grow } };
  };
  const first = { ...limited(await WebAssembly.instantiate(module)), ...others };
  it.own = new Scrypt(first, () => limited(new WebAssembly.Instance(module)));
  // Tests that the memory is as it was: zeros, except for the module's data.
  it.isWiped = () => {
    const [words, { initial }] = [new Uint32Array(it.memory.buffer), it];
    for (let at = 0; at < words.length; at++) {
      if (words[at] !== (at < initial.length ? initial[at] : 0)) throw new Error(`not wiped at ${4 * at}`);
    }
  };
  return it;
}

/** The calls on a module, or those in steps; after each it tests that the memory is wiped. A fake
 * clock gives each step a different time, so that the sizes of steps vary. */
export async function wiping(module, isInSteps) {
  const { own, isWiped } = await opened(module);
  let ms = 0;
  const now = () => { ms += 2 ** (10 * Math.random() - 3); return ms; };
  const call = (name) => (...given) => instead(performance, 'now', now, async () => {
    try {
      return await own[isInSteps && own[`${name}Async`] ? `${name}Async` : name](...given);
    } finally {
      isWiped();
    }
  });
  const names = ['scrypt', 'hash', 'verify', 'verifyAndUpdate', 'needsRehash', 'params'];
  return Object.fromEntries(names.map((name) => [name, call(name)]));
}
