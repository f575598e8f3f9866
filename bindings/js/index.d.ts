/**
 * A string is encoded as UTF-8. One with a lone surrogate is rejected, except by `verify`, for which
 * it is a wrong password, or a text that is not a hash.
 */
export type Bytes = string | ArrayBuffer | ArrayBufferView;

export interface Params {
  /**
   * The cost, a power of two; for `scrypt` above 1, as in node:crypto. A derivation takes 128 * N *
   * r bytes of memory.
   */
  N: number;
  /** The block size. */
  r: number;
  /**
   * The parallelization. Two chunks are interleaved, in twice the memory, if `maxmem` and the
   * engine allow it.
   */
  p: number;
  /** The length of the key in bytes, 10 to 64 in a new hash. Default: 32. */
  dkLen?: number | undefined;
}

/** Parameters as options. If left out or undefined: the recommended ones, and `dkLen` of 32. */
export type PartialParams = { [K in keyof Params]?: Params[K] | undefined };

/** Parameters that are read from a hash. */
export type ReadParams = Params & { dkLen: number };

export interface KeyOptions extends Params {
  /**
   * The maximum bytes of memory. Default: 2 ** 30 + 2 ** 20, or 7/8 of the memory of the machine or
   * the container if that is less.
   */
  maxmem?: number | undefined;
  /** The maximum work, 4 * (N + 32) * r * p. Default: no limit. */
  maxwork?: number | undefined;
}

export interface HashOptions extends PartialParams, Pick<KeyOptions, 'maxmem'> {
  /** 1 to 64 bytes, or any number for `'mcf'`. Default: 16 random bytes. */
  salt?: Bytes | undefined;
  /** `'phc'`, the default: `$scrypt$..`; or `'mcf'`, the format of crypt(5): `$7$..`. */
  format?: 'phc' | 'mcf' | undefined;
}

/**
 * An untrusted hash chooses its own cost. The limits that are left out admit hashes that are made
 * with these parameters, and 4 times the work of the defaults. `Infinity` is no limit on memory or
 * work.
 */
export interface VerifyOptions extends PartialParams {
  /**
   * The maximum bytes of memory. Default: enough for a table of 2 ** 28 bytes, or more if the
   * parameters need more, but no more than 7/8 of the memory of the machine or the container.
   */
  maxmem?: number | undefined;
  /**
   * The maximum work, 4 * (N + 32) * r * p. Default: 4 times the work of the default parameters, or
   * the work of the parameters if that is more.
   */
  maxwork?: number | undefined;
  /**
   * The minimum length of the key in bytes. Default: the default of the hashers in other languages,
   * or dkLen if that is less.
   */
  minKeyLength?: number | undefined;
}

/** `format` is that of a new hash. */
export type UpdateOptions = VerifyOptions & Pick<HashOptions, 'format'>;

export interface Verification {
  /** Whether the password is that of the hash. */
  verified: boolean;
  /** The string of a new hash, or `undefined` if the stored one is kept. */
  newHash: string | undefined;
}

export interface CallOptions {
  /**
   * Ends the call while it waits, and a key or a verification between two steps: the promise is
   * rejected with the signal's reason.
   */
  signal?: AbortSignal | undefined;
  /**
   * The maximum milliseconds that the call waits for a worker, which may have to start. Default: the
   * `timeout` of `configure`. `Infinity` is no limit.
   */
  timeout?: number | undefined;
}

export interface StepOptions extends Pick<CallOptions, 'signal'> {
  /**
   * Called about a hundred times a second with the fraction that is done, from 0 to 1. An exception
   * from it ends the call and rejects the promise.
   */
  onProgress?: ((fraction: number) => void) | undefined;
}

export type ErrorCode =
  /** N, r, p or dkLen is not accepted. */
  | 'INVALID_PARAMS'
  /** The dkLen of `scrypt` is 0. */
  | 'INVALID_OUTPUT_LEN'
  /** A limit is negative, not a whole number, or above 2 ** 53 - 1, but is not `Infinity`. */
  | 'INVALID_LIMIT'
  /** An argument has a wrong type, or is missing, or an option is unknown. */
  | 'INVALID_TYPE'
  | 'LONE_SURROGATE'
  /** Also on a stack overflow: `cause` is the engine's exception. */
  | 'OUT_OF_MEMORY'
  /**
   * The parameters exceed the limit on memory or on work: the message has their cost and the
   * limits.
   */
  | 'TOO_COSTLY'
  /** The key in the hash is shorter than the limit allows. */
  | 'KEY_TOO_SHORT'
  /**
   * The salt of a hash in PHC form does not have 1 to 64 bytes, or that of a `$7$` hash is not UTF-8
   * without a `$`.
   */
  | 'SALT_INVALID'
  /**
   * The text is neither a hash in PHC form nor a `$7$` hash, such as a hash of bcrypt; or, in PHC
   * form, the salt does not have 1 to 64 bytes, or the key does not have 10 to 64 bytes.
   */
  | 'ENCODING_INVALID'
  /** The text has PHC form, but is of another algorithm, such as argon2id. */
  | 'ALGORITHM'
  /** The hash in PHC form has a version field. */
  | 'VERSION'
  /** The hash has no key. */
  | 'OUTPUT_SIZE'
  /**
   * ln, r or p in PHC form is not a decimal number without leading zeros, or is above 255 (ln) or 2
   * ** 32 - 1 (r, p).
   */
  | 'HASH_PARAM_INVALID'
  /** The parameters in the hash are not accepted, or one in PHC form is not ln, r or p. */
  | 'HASH_PARAMS_INVALID'
  /** No worker was free within `timeout`. */
  | 'TIMEOUT'
  /** `maxWaiting` calls already wait for a worker. */
  | 'BUSY'
  /** The engine has no WebAssembly with SIMD. */
  | 'UNSUPPORTED'
  /** The module was not found, or the engine may not compile it. The next call tries again. */
  | 'LOAD_FAILED'
  /**
   * The worker at the address in the message ended, or did not start and there is no other worker.
   * The next call starts one. If this thread cannot start workers, use `load()`.
   */
  | 'WORKER_FAILED'
  /** A fault of this package. */
  | 'INTERNAL';

export class ScryptError extends Error {
  protected constructor();
  readonly code: ErrorCode;
}

/**
 * A stored hash is rejected: the text is not a scrypt hash, it costs more than the limits allow, or
 * its key is too short.
 */
export class RejectedHashError extends ScryptError {
  private constructor();
}

/** Derives a key, in a worker. */
export function scrypt(
  password: Bytes, salt: Bytes, options: KeyOptions & StepOptions & CallOptions,
): Promise<Uint8Array>;
/** Makes a hash string with a random salt, in a worker. */
export function hash(password: Bytes, options?: HashOptions & CallOptions): Promise<string>;
/**
 * Verifies a password against a hash string, in a worker. A string that is not a scrypt hash is a
 * `RejectedHashError`. Without one, for an unknown user, the result is `false` after the work of a
 * new hash. While hashes of older parameters are stored, their time tells who exists: see
 * docs/HASHER.md of the repository.
 */
export function verify(
  password: Bytes, text: Bytes | null | undefined,
  options?: VerifyOptions & StepOptions & CallOptions,
): Promise<boolean>;
/**
 * The same; and if the password is right, and the hash is weaker than a new hash with these options,
 * a new hash string to store in its place. That is made in the same worker.
 */
export function verifyAndUpdate(
  password: Bytes, text: Bytes | null | undefined,
  options?: UpdateOptions & StepOptions & CallOptions,
): Promise<Verification>;
/** Whether a hash is weaker than a new hash with these options. */
export function needsRehash(text: Bytes, options?: PartialParams): Promise<boolean>;
/** The parameters of a hash, and the length of its key: 0 if it has none. */
export function params(text: Bytes): Promise<ReadParams>;
/**
 * Makes a hash for `verify` from a salt and a key of another program: in PHC form if the lengths
 * allow it, with the first 64 bytes of the key, which are the key of that length; otherwise `$7$`.
 * An N below 64 is rejected, because it may be the logarithm of N.
 */
export function storedText(
  salt: Bytes, key: Bytes, options: { N: number; r: number; p: number },
): Promise<string>;
/**
 * Sets the maximum number of workers, and of calls that wait for one, and the `timeout` of calls
 * without their own. Defaults: one worker for each CPU, up to four and, in Node, up to the number
 * that fits into 7/8 of the memory of the machine or the container; 1000 calls; and no limit.
 */
export function configure(
  options: {
    maxWorkers?: number | undefined; maxWaiting?: number | undefined; timeout?: number | undefined;
  },
): void;
/** Whether this engine has WebAssembly with SIMD. */
export function isSupported(): boolean;

/** The same calls in the caller's thread, which they block. */
export interface Scrypt {
  scrypt(password: Bytes, salt: Bytes, options: KeyOptions): Uint8Array;
  /**
   * The same in steps of about 10 ms; a page paints between them. The memory is wiped after an
   * abort too, which takes 0.1 seconds for 1 GiB.
   */
  scryptAsync(password: Bytes, salt: Bytes, options: KeyOptions & StepOptions): Promise<Uint8Array>;
  hash(password: Bytes, options?: HashOptions): string;
  verify(password: Bytes, text: Bytes | null | undefined, options?: VerifyOptions): boolean;
  /** The same in steps. */
  verifyAsync(
    password: Bytes, text: Bytes | null | undefined, options?: VerifyOptions & StepOptions,
  ): Promise<boolean>;
  verifyAndUpdate(
    password: Bytes, text: Bytes | null | undefined, options?: UpdateOptions,
  ): Verification;
  /** The same, with the verification in steps. */
  verifyAndUpdateAsync(
    password: Bytes, text: Bytes | null | undefined, options?: UpdateOptions & StepOptions,
  ): Promise<Verification>;
  needsRehash(text: Bytes, options?: PartialParams): boolean;
  storedText(salt: Bytes, key: Bytes, options: { N: number; r: number; p: number }): string;
  params(text: Bytes): ReadParams;
  /**
   * The number of bytes of memory of the module, all zero between calls, except for less than 1 KiB
   * of constants. They are freed with this object, and after a call that the engine ended.
   */
  readonly memory: number;
}

/**
 * Loads the module for calls in the caller's thread. `source` says where it is, if it is not with
 * this package's files: a URL, its bytes, or a compiled module. All later calls use this source
 * too, in workers and here; if it cannot be loaded, nothing changes.
 */
export function load(
  source?: URL | string | ArrayBuffer | ArrayBufferView | WebAssembly.Module,
): Promise<Scrypt>;
