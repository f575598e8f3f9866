// The files of Tarsnap's `scrypt enc`, with the ciphers and hashes of WebCrypto.
//
//   0 "scrypt\0"   7 log2(N)   8 r   12 p   16 salt   48 the first 16 bytes of SHA-256(0 to 47)
//   64 HMAC-SHA-256(0 to 63)   96 AES-256-CTR(content)   and at the end HMAC-SHA-256(all before)
import { scrypt } from '../../bindings/js/index.js';

const { subtle } = crypto;
const MAGIC = [...new TextEncoder().encode('scrypt\0')];
const CTR = { name: 'AES-CTR', counter: new Uint8Array(16), length: 64 };
const DAMAGED = 'This file is damaged.';

const concat = async (...parts) => new Uint8Array(await new Blob(parts).arrayBuffer());
const digest = async (bytes) => new Uint8Array(await subtle.digest('SHA-256', bytes));
const checksum = async (file) => (await digest(file.subarray(0, 48))).subarray(0, 16);

/** The parameters of a file, or null if it is not one of `scrypt enc`. */
export async function paramsOf(file) {
  if (MAGIC.some((byte, i) => byte !== file[i])) return null;
  const sum = await checksum(file);
  if (file.length < 128 || sum.some((byte, i) => byte !== file[48 + i])) throw new Error(DAMAGED);
  const view = new DataView(file.buffer);
  return { N: 2 ** file[7], r: view.getUint32(8), p: view.getUint32(12) };
}

const TIMES = 4;
// An untrusted file chooses its own cost: the limits are the memory, and N * r * p of memory / 32,
// which is four times the value for (N, r, p) = (memory / 1024, 8, 1).
async function deriveKeys(password, salt, params, { memory, signal, onProgress }) {
  const limits = { maxmem: memory + 2 ** 20, maxwork: TIMES * 4 * (memory / 1024 + 32) * 8 };
  const options = { ...params, ...limits, dkLen: 64, signal, onProgress };
  const key = await scrypt(password, salt, options);
  const hmac = { name: 'HMAC', hash: 'SHA-256' };
  const keys = await Promise.all([
    subtle.importKey('raw', key.subarray(0, 32), 'AES-CTR', false, ['encrypt', 'decrypt']),
    subtle.importKey('raw', key.subarray(32), hmac, false, ['sign', 'verify']),
  ]);
  key.fill(0);
  return keys;
}

/** The content of a file. The options are memory in bytes, signal and onProgress. */
export async function decrypt(file, password, options) {
  const params = await paramsOf(file);
  const [aes, hmac] = await deriveKeys(password, file.slice(16, 48), params, options);
  const verify = (end) =>
    subtle.verify('HMAC', hmac, file.subarray(end, end + 32), file.subarray(0, end));
  if (!(await verify(64))) throw new Error('Wrong password.');
  if (!(await verify(file.length - 32))) throw new Error(DAMAGED);
  return new Uint8Array(await subtle.decrypt(CTR, aes, file.subarray(96, -32)));
}

/** A file with this content, whose key takes as much memory as the options allow. */
export async function encrypt(content, password, options) {
  const params = { N: options.memory / 1024, r: 8, p: 1 };
  const salt = crypto.getRandomValues(new Uint8Array(32));
  const numbers = Uint8Array.of(Math.log2(params.N), 0, 0, 0, params.r, 0, 0, 0, params.p);
  const [aes, hmac] = await deriveKeys(password, salt, params, options);
  const signed = async (bytes) => concat(bytes, await subtle.sign('HMAC', hmac, bytes));
  const start = await concat(Uint8Array.from(MAGIC), numbers, salt);
  const header = await signed(await concat(start, await checksum(start)));
  return signed(await concat(header, await subtle.encrypt(CTR, aes, content)));
}
