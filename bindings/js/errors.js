// The errors.
import {
  ALGORITHM, BUFFER_SIZE, KEY_TOO_SHORT, OUT_OF_MEMORY, TOO_COSTLY, VERSION, WORDS,
} from './declared.js';

/** An error of a call: `code` for programs, `message` for people. Neither holds a secret. */
export class ScryptError extends Error {
  constructor(code, message, options) {
    super(message, options);
    this.name = 'ScryptError';
    this.code = code;
  }
}

/** A stored hash was rejected: it is not a scrypt hash, costs more than the limits allow, or has
 * too short a key. */
export class RejectedHashError extends ScryptError {
  constructor(code, message) {
    super(code, message);
    this.name = 'RejectedHashError';
  }
}

const codesFrom = (first, last) =>
  [...WORDS].filter(([status]) => status >= first && status <= last).map(([, [code]]) => code);
const NO_HASH = codesFrom(ALGORITHM, VERSION); // as scrypt_status_is_invalid_hash of the C library
const OUTSIDE_LIMITS = codesFrom(TOO_COSTLY, KEY_TOO_SHORT);

/** The error of a call that reads the text of a hash, and perhaps a password, as bytes. */
export function errorOfHash(error, password = new Uint8Array()) {
  const isNoHash = NO_HASH.includes(error.code);
  if (!isNoHash && !OUTSIDE_LIMITS.includes(error.code)) return error;
  const isHash = /^\$(scrypt|7)\$/.test(new TextDecoder().decode(password.subarray(0, 8)));
  const hint = isNoHash && isHash ? ': the password comes first, and then the hash' : '';
  return new RejectedHashError(error.code, error.message + hint);
}

/** The error that a worker reported. */
export const errorNamed = ({ name, code = 'INTERNAL', message }) =>
  new (name === 'RejectedHashError' ? RejectedHashError : ScryptError)(code, message);

/**
 * The error for the status of a proved call, with a longer message. A buffer that is too short is a
 * fault of this package.
 */
export const errorOf = (status, options, more = '') => {
  const [code, message] = WORDS.get(status) ?? [];
  const isFault = code === undefined || status === BUFFER_SIZE;
  if (isFault) return new ScryptError('INTERNAL', `the module returned ${status}`, options);
  return new ScryptError(code, message + more, options);
};

/** No memory for a copy or a table, or a stack overflow; `cause` is the engine's exception. */
export const outOfMemory = (cause) => errorOf(OUT_OF_MEMORY, { cause });

// Firefox throws an InternalError on a stack overflow.
const isExhausted = (cause) => cause instanceof RangeError || cause?.name === 'InternalError';

/** The error for an exception: out of memory if the engine had too little memory or stack. */
export const errorFor = (cause, code, message) =>
  (isExhausted(cause) ? outOfMemory(cause) : new ScryptError(code, message, { cause }));
