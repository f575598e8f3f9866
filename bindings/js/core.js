// The proved calls, in memory that is wiped after each of them.
import {
  NO_LIMIT, attempt, bytesOf, copiesOf, copyOf, isNone, lengthOf, limit, optionsOf, parameters,
  withDefaults, wrong,
} from './arguments.js';
import { MAX_KEY_LEN, PHC_CAPACITY, SALT_LEN } from './declared.js';
import { ScryptError, errorFor, errorOfHash } from './errors.js';
import { host } from './host.js';
import { Instance, places } from './instance.js';
import { MEMORY } from './machine.js';
import { keyInSteps, turn, verdictInSteps } from './steps.js';

// Default limits on memory do not exceed the memory there is.
const ofMachine = (bytes) => (bytes < MEMORY ? bytes : BigInt(MEMORY));
const MAX_MEMORY = ofMachine(2n ** 30n + 2n ** 20n); // N = 2^20 with r = 8

/** The calls, which block the thread. In a page's thread use them for small N. */
export class Scrypt {
  #instance; // undefined while a call runs in it
  #another;

  /** Creates it from a compiled module. */
  static async of(module) {
    try {
      const { exports } = await WebAssembly.instantiate(module);
      return new Scrypt(exports, () => new WebAssembly.Instance(module).exports);
    } catch (cause) {
      const message = `this is not the module of this package: ${cause.message}`;
      throw errorFor(cause, 'LOAD_FAILED', message);
    }
  }

  // Takes an instance's exports, and a function that makes a new instance.
  constructor(exports, another) {
    this.#instance = new Instance(exports);
    this.#another = another;
  }

  /** The number of bytes of memory of the module. */
  get memory() {
    return this.#instance?.size ?? 0;
  }

  scrypt(password, salt, given) {
    const wanted = keyOptions(optionsOf(given, 'scrypt'));
    return this.#run({ password, salt }, (instance, ...slices) => {
      const [params, key, buffers] = keyPlaces(instance, wanted);
      instance.call('scrypt_kdf_with_buffers', ...slices, ...params, key, ...buffers);
      return copyOf(instance.view(key));
    });
  }

  /** The same in steps; the event loop runs between them. */
  async scryptAsync(password, salt, given) {
    const { onProgress, signal, ...options } = optionsOf(given, 'scrypt', 'steps');
    const wanted = keyOptions(options);
    return this.#runInSteps({ password, salt }, function* work(instance, ...slices) {
      const [params, key, buffers] = keyPlaces(instance, wanted);
      yield* keyInSteps(instance, ...slices, params, key, buffers);
      return copyOf(instance.view(key));
    }, onProgress, signal);
  }

  hash(password, given) {
    const options = optionsOf(given, 'hash');
    const { salt = (host.crypto ?? crypto).getRandomValues(new Uint8Array(SALT_LEN)), format = 'phc' } = options;
    const params = withDefaults(options);
    const keyLen = BigInt(lengthOf(options.dkLen));
    const maxMem = limit(options.maxmem, 'maxmem', MAX_MEMORY);
    return this.#run({ password, salt }, (instance, ...slices) => {
      const text = instance.take(PHC_CAPACITY + 2 * slices[1].length);
      const [textLen] = instance.words(1);
      const buffers = instance.buffersFor(params, maxMem, NO_LIMIT);
      const places = [text, textLen.at, ...buffers];
      instance.call(`scrypt_hash_${format}_with_buffers`, ...slices, ...params, keyLen, ...places);
      return new TextDecoder().decode(instance.view(text).subarray(0, instance.number(textLen)));
    });
  }

  verify(...args) {
    const { password, text, options, canMatch } = attempt(args);
    const wanted = verifyOptions(optionsOf(options, 'verify'));
    if (isNone(text)) {
      return this.#run({ password }, (instance, slice) => ofNobody(instance, slice, wanted));
    }
    return this.#run({ password, text }, (instance, ...slices) => {
      const limits = limitsOf(instance, wanted);
      const buffers = instance.buffersOf(slices[1], limits);
      return instance.isOk('scrypt_verify_limited_with_buffers', ...slices, ...limits, ...buffers);
    }) && canMatch;
  }

  /** The same in steps; the event loop runs between them. */
  async verifyAsync(...args) {
    const { password, text, options, canMatch } = attempt(args);
    const { onProgress, signal, ...others } = optionsOf(options, 'verify', 'steps');
    const wanted = verifyOptions(others);
    const values = isNone(text) ? { password } : { password, text };
    return await this.#runInSteps(values, function* work(instance, passwordSlice, textSlice) {
      if (textSlice === undefined) return yield* ofNobodyInSteps(instance, passwordSlice, wanted);
      const limits = limitsOf(instance, wanted);
      const buffers = instance.buffersOf(textSlice, limits);
      return yield* verdictInSteps(instance, passwordSlice, textSlice, limits, buffers);
    }, onProgress, signal) && canMatch;
  }

  verifyAndUpdate(...args) {
    const { copies, options, canMatch } = updating(args);
    try {
      return this.#updated(this.verify(...copies, options) && canMatch, copies, options);
    } finally {
      for (const copy of copies) copy?.fill(0);
    }
  }

  /** The same, with the verification in steps. */
  async verifyAndUpdateAsync(...args) {
    const { copies, options, canMatch } = updating(args);
    try {
      const verified = await this.verifyAsync(...copies, options) && canMatch;
      return this.#updated(verified, copies, options);
    } finally {
      for (const copy of copies) copy?.fill(0);
    }
  }

  #updated(verified, [password, text], options) {
    const isWeak = verified && this.needsRehash(text, options);
    return { verified, newHash: isWeak ? this.hash(password, options) : undefined };
  }

  needsRehash(text, given) {
    const options = optionsOf(given, 'needsRehash');
    const wanted = [...withDefaults(options), BigInt(lengthOf(options.dkLen))];
    const call = 'scrypt_needs_rehash';
    return this.#run({ text }, (instance, slice) => !instance.isOk(call, slice, ...wanted));
  }

  params(text) {
    return this.#run({ text }, (instance, slice) => {
      const read = instance.words(4);
      instance.call('scrypt_hash_params', slice, ...places(read));
      const [logN, r, p, dkLen] = read.map((word) => instance.number(word));
      return { N: 2 ** logN, r, p, dkLen };
    });
  }

  storedText(salt, key, given) {
    const options = optionsOf(given, 'stored');
    const { N } = options;
    const hint = `N is at least 64, and ${N} may be its logarithm: ${2 ** N} is N = 2 ** ${N}`;
    if (N >= 1 && N < 64) wrong(hint, 'INVALID_PARAMS');
    const params = parameters(options);
    return this.#run({ salt, key }, (it, ...slices) => {
      const text = it.take(PHC_CAPACITY + 2 * (slices[0].length + slices[1].length));
      const [textLen] = it.words(1);
      const places = [...params, text, textLen.at];
      const [saltSlice, { at, length }] = slices;
      try {
        const prefix = { at, length: Math.min(length, MAX_KEY_LEN) };
        it.call('scrypt_stored_phc', saltSlice, prefix, ...places);
      } catch (error) {
        if (!['SALT_INVALID', 'INVALID_OUTPUT_LEN'].includes(error.code)) throw error;
        it.call('scrypt_stored_mcf', ...slices, ...places);
      }
      return new TextDecoder().decode(it.view(text).subarray(0, it.number(textLen)));
    });
  }

  #run(values, work) {
    return this.#steps(values, function* inOne(...placed) { return work(...placed); }).next().value;
  }

  async #runInSteps(values, work, onProgress, signal) {
    signal?.throwIfAborted();
    const steps = this.#steps(values, work);
    try {
      for (;;) {
        const { done, value } = steps.next();
        if (done) return value;
        onProgress?.(value);
        await turn();
        signal?.throwIfAborted();
      }
    } finally {
      steps.return(); // an abandoned derivation's memory is wiped
    }
  }

  // Calls the module in an empty memory. All values are converted to bytes before one is placed. No
  // other call uses the instance until it returns; and if the engine ended the call inside of the
  // module, by a stack overflow or a timeout, the instance is dropped with its memory.
  *#steps(values, work) {
    const slices = Object.entries(values).map(([name, value]) => bytesOf(value, name));
    const instance = this.#instance ?? new Instance(this.#another());
    this.#instance = undefined;
    try {
      return yield* work(instance, ...slices.map((bytes) => instance.put(bytes)));
    } catch (cause) {
      const message = `the module was ended: ${cause.message}`;
      const error = cause instanceof ScryptError ? cause : errorFor(cause, 'INTERNAL', message);
      if (values.text === undefined) throw error;
      throw errorOfHash(error, values.password === undefined ? undefined : slices[0]);
    } finally {
      instance.wipe();
      if (!instance.isInside) this.#instance = instance;
    }
  }
}

// As in node:crypto, the N of a key is above 1. That of a hash may be 1.
function keyOptions(options) {
  if (options.N === 1) wrong('N must be a power of two above 1: 1', 'INVALID_PARAMS');
  const maxMem = limit(options.maxmem, 'maxmem', MAX_MEMORY);
  const limits = [maxMem, limit(options.maxwork, 'maxwork', NO_LIMIT)];
  return { params: parameters(options), length: lengthOf(options.dkLen), limits };
}

// The buffers come first, because the limits do not cover the key.
function keyPlaces(instance, { params, length, limits }) {
  const buffers = instance.buffersFor(params, ...limits);
  return [params, instance.take(length), buffers];
}

const verifyOptions = (options) =>
  ({ options, params: withDefaults(options), length: lengthOf(options.dkLen) });

// The limits, with defaults for those that are left out. The defaults admit hashes that are made
// with the same options.
function limitsOf(instance, { options, params, length }) {
  const usual = instance.words(3);
  instance.call('scrypt_default_limits', ...params, BigInt(length), ...places(usual));
  const [bytes, work, keyLen] = usual.map((word) => instance.big(word));
  const { maxmem, maxwork, minKeyLength } = options;
  return [
    limit(maxmem, 'maxmem', ofMachine(bytes)), limit(maxwork, 'maxwork', work),
    limit(minKeyLength, 'minKeyLength', keyLen),
  ];
}

// The bytes are copied, because the caller may change them before the new hash is made.
function updating(args) {
  const { password, text, options: given, canMatch } = attempt(args);
  const options = optionsOf(given, 'update', 'steps');
  const [copy, textCopy] = copiesOf(isNone(text) ? { password } : { password, text });
  return { copies: [copy, textCopy], options, canMatch };
}

// Without a hash: does the work of a wrong password for a new hash.
function nobodyPlaces(instance, wanted) {
  const limits = limitsOf(instance, wanted).slice(0, 2);
  return [instance.take(SALT_LEN), ...keyPlaces(instance, { ...wanted, limits })];
}

function ofNobody(instance, password, wanted) {
  const [salt, params, key, buffers] = nobodyPlaces(instance, wanted);
  instance.call('scrypt_kdf_with_buffers', password, salt, ...params, key, ...buffers);
  return false;
}

function* ofNobodyInSteps(instance, password, wanted) {
  yield* keyInSteps(instance, password, ...nobodyPlaces(instance, wanted));
  return false;
}
