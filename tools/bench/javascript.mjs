// Measures keys by this package, by plain JavaScript and, in Node, by its crypto. Node prints the rows of a table, and a page
// posts them. The first word of each is the engine's: the argument, or the query of the page's address.
import { roMix } from './plain_scrypt.mjs';

const PARAMS = [[14, 8, 1], [17, 8, 1], [14, 8, 4]];
const ROUNDS = 6;
const [PASSWORD, SALT] = ['pleaseletmein', 'SodiumChloride'].map((text) => new TextEncoder().encode(text));

// PBKDF2 with one iteration. Firefox's own makes at most 256 bytes.
async function pbkdf2(key, salt, length) {
  const blocks = Array.from({ length: length / 32 }, (_, i) => {
    const data = new Uint8Array(salt.length + 4);
    data.set(salt);
    new DataView(data.buffer).setUint32(salt.length, i + 1);
    return crypto.subtle.sign('HMAC', key, data);
  });
  return new Blob(await Promise.all(blocks)).arrayBuffer();
}

async function plainKey(N, r, p) {
  const key = await crypto.subtle.importKey('raw', PASSWORD, { name: 'HMAC', hash: 'SHA-256' }, false, ['sign']);
  const chunks = new Int32Array(await pbkdf2(key, SALT, 128 * r * p));
  for (let i = 0; i < p; i++) roMix(chunks.subarray(32 * r * i, 32 * r * (i + 1)), N, r);
  return pbkdf2(key, new Uint8Array(chunks.buffer), 32);
}

/** The least milliseconds of each. They alternate, so that all have the same load. */
async function measured(derivations, N, r, p) {
  const best = derivations.map(() => Infinity);
  const keys = new Set();
  for (let round = 0; round < ROUNDS; round++) {
    for (const [i, derive] of derivations.entries()) {
      const begun = performance.now();
      keys.add(String(new Uint8Array(await derive(N, r, p))));
      best[i] = Math.min(best[i], performance.now() - begun);
    }
  }
  if (keys.size !== 1) throw new Error(`the keys of ${[N, r, p]} differ`);
  return best;
}

async function rows(engine, { load }, others) {
  const own = await load();
  const key = (N, r, p) => own.scrypt(PASSWORD, SALT, { N, r, p, dkLen: 32, maxmem: Infinity });
  let text = '';
  for (const [logN, r, p] of PARAMS) {
    const [first, ...times] = await measured([key, plainKey, ...others], 2 ** logN, r, p);
    const ofCore = (first * 1e6) / (4 * 2 ** logN * r * p);
    const cells = [engine, `(${logN}, ${r}, ${p})`, ofCore.toFixed(0), ...times.map((it) => (first / it).toFixed(2))];
    text += `| ${cells.join(' | ')} |\n`;
  }
  return text;
}

if (globalThis.document) {
  const made = rows(location.search.slice(1), await import('../../bindings/js/index.js'), []);
  await fetch('/said', { method: 'POST', body: await made.catch((error) => error.message) });
} else {
  const { scryptSync } = await import('node:crypto');
  const ofNode = (N, r, p) => scryptSync(PASSWORD, SALT, 32, { N, r, p, maxmem: 2 ** 33 });
  process.stdout.write(await rows(process.argv[2], await import('../../bindings/js/node.js'), [ofNode]));
}
