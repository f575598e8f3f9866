// scrypt (RFC 7914) and its password hashes. The module is proved, then changed; this is tested.
import { attempt, copiesOf, isNone, optionsOf } from './arguments.js';
import { Scrypt } from './core.js';
import { RejectedHashError, ScryptError } from './errors.js';
import { compile, isSupported, load } from './load.js';
import { call, configure } from './workers.js';

export { RejectedHashError, ScryptError, configure, isSupported, load };

// Separates the options for this thread from the options for the worker.
const parted = ({ onProgress, signal, timeout, ...options }) =>
  [{ onProgress, signal, timeout }, options];

/** Derives a key, in a worker. */
export async function scrypt(password, salt, options) {
  const [how, others] = parted(optionsOf(options, 'scrypt', 'steps', 'worker'));
  return call('scrypt', [...copiesOf({ password, salt }), others], how);
}

/** Makes the text of a hash with a random salt, in a worker. */
export async function hash(password, options) {
  const [how, { salt, ...others }] = parted(optionsOf(options, 'hash', 'worker'));
  const [copy, saltCopy] = copiesOf(salt === undefined ? { password } : { password, salt });
  return call('hash', [copy, { ...others, salt: saltCopy }], how);
}

async function withHash(name, kind, { password, text, options }) {
  const [how, others] = parted(optionsOf(options, kind, 'steps', 'worker'));
  const [copy, textCopy] = copiesOf(isNone(text) ? { password } : { password, text });
  return call(name, [copy, textCopy, others], how);
}

/** Verifies a password against the text of a hash, in a worker. Without a text the result is false,
 * after the work of a new hash. */
export async function verify(...args) {
  const given = attempt(args);
  return await withHash('verify', 'verify', given) && given.canMatch;
}

/** The same, and the text of a new hash, if the password is right and the hash is weaker. */
export async function verifyAndUpdate(...args) {
  const given = attempt(args);
  if (given.canMatch) return withHash('verifyAndUpdate', 'update', given);
  await withHash('verify', 'verify', given);
  return { verified: false, newHash: undefined };
}

// Calls that only read a text take microseconds. The memory for a long text is not kept.
const MAX_KEPT = 2 ** 22;
let reader = {};

async function read() {
  const module = await compile();
  if (reader.module !== module) reader = { module, scrypt: await Scrypt.of(module) };
  return reader.scrypt;
}

// The bytes are copied before the module is loaded, because the caller may change them until then.
async function reading(name, values, options) {
  const copies = copiesOf(values);
  try {
    return (await read())[name](...copies, options);
  } finally {
    for (const copy of copies) copy.fill(0);
    if (reader.scrypt?.memory > MAX_KEPT) reader = {};
  }
}

/** Makes a hash for `verify` from a salt and a key of another program. */
export async function storedText(salt, key, given) {
  return reading('storedText', { salt, key }, optionsOf(given, 'stored'));
}

/** Whether a hash is weaker than a new hash with these options. */
export async function needsRehash(text, options) {
  return reading('needsRehash', { text }, optionsOf(options, 'needsRehash'));
}

/** The parameters of a hash, and the length of its key. */
export async function params(text) {
  return reading('params', { text });
}
