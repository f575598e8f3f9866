// Compiled and not run: the types accept correct calls, and reject wrong ones.
import { Bytes, ErrorCode, RejectedHashError, Scrypt, ScryptError, configure, hash, isSupported, Verification, load, needsRehash, params, scrypt, storedText, verify, verifyAndUpdate } from 'scrypt-proved';

const signal = new AbortController().signal;
// An undefined option is left out.
const none = { N: undefined, dkLen: undefined, maxmem: undefined, signal: undefined };

export async function calls(password: Bytes): Promise<unknown> {
  const key: Uint8Array = await scrypt(password, new Uint8Array(16), { ...none, N: 2, r: 8, p: 1, maxwork: Infinity, signal });
  const text: string = await hash(new DataView(key.buffer), { ...none, p: 2, salt: 'salt', format: 'mcf' });
  const isRight: boolean = await verify(password, text, { ...none, maxwork: 2 ** 30, minKeyLength: 10, timeout: 1000 });
  const isOfNobody: boolean = await verify(password, null) || await verify(password, undefined);
  const { verified, newHash }: Verification = await verifyAndUpdate(password, text, { N: 2 ** 18, format: 'mcf', timeout: 1000 });
  const stored: string | undefined = verified ? newHash : undefined;
  configure({ maxWorkers: 1, maxWaiting: Infinity });
  const own: Scrypt = await load(new URL('./scrypt.wasm', 'https://example.org/'));
  await own.scryptAsync('', '', { N: 2, r: 8, p: 1, signal, onProgress: (fraction) => fraction.toFixed() });
  const { N, r, p, dkLen } = own.params(await storedText('salt', key, { N: 64, r: 8, p: 1 }));
  const same: typeof own.params extends (text: Bytes) => infer R ? R : never = await params(text);
  const needs: boolean = own.needsRehash(text) && (await needsRehash(text, { N, r, p, dkLen }));
  try {
    return own.verifyAndUpdate(password, stored ?? own.hash(password)).verified && own.scrypt(password, key, same);
  } catch (error) {
    const code: ErrorCode | null = error instanceof RejectedHashError || error instanceof ScryptError ? error.code : null;
    return code === 'TOO_COSTLY' || isRight || isOfNobody || needs && isSupported() ? own.memory : undefined;
  }
}

export const refused = [
  // @ts-expect-error: parameters of a key are not left out
  () => scrypt('', '', { N: 2, r: 8 }),
  // @ts-expect-error: a hash has no steps
  () => hash('', { onProgress: () => {} }),
  // @ts-expect-error: a misspelt name
  () => verify('', '', { maxMem: 5 }),
];
