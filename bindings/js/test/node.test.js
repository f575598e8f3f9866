// Runs the checks with KEYS random keys of node:crypto, which is OpenSSL's, and writes these for
// in_browser.py.
import { deepStrictEqual, rejects } from 'node:assert';
import { spawnSync } from 'node:child_process';
import { randomBytes, randomInt, scryptSync } from 'node:crypto';
import { mkdirSync, mkdtempSync, readFileSync, rmSync, symlinkSync, writeFileSync } from 'node:fs';
import { tmpdir } from 'node:os';
import { test } from 'node:test';
import { fileURLToPath } from 'node:url';
import { WORDS } from '../declared.js';
import { ScryptError, scrypt, storedText, verify } from '../node.js';
import { checks } from './checks.js';
import { bytes, hex } from './support.js';

const at = (path) => new URL(`../../../${path}`, import.meta.url);
const read = (path) => readFileSync(at(path), 'utf8');
const randomOf = (list) => list[randomInt(list.length)];

// A key of random secrets; its costs are random, unless they are given.
function randomKey(costs) {
  const some = () => randomBytes(randomOf([0, 1, 7, 8, 16, 63, 64, 65, 200]));
  const [password, salt, dkLen] = [some(), some(), randomOf([1, 16, 31, 32, 33, 64, 100])];
  const of = { N: 2 ** randomInt(1, 11), r: randomInt(1, 13), p: randomInt(1, 7), dkLen, ...costs };
  const key = scryptSync(password, salt, dkLen, { ...of, maxmem: 2 ** 30 });
  return { password: hex(password), salt: hex(salt), of, key: hex(key) };
}

const manyChunks = [{ N: 1024, r: 1, p: 500 }, { N: 512, r: 1, p: 4096 }];
const keys = [...manyChunks, ...Array(Number(process.env.KEYS ?? 100)).fill({})].map(randomKey);
const cases = { keys, lines: read('bindings/cases.tsv') };
writeFileSync(at('build/wasm/cases.json'), JSON.stringify(cases));
for (const [name, check] of Object.entries(checks(cases))) test(name, check);

test('the texts of bindings/stored.tsv', async () => {
  for (const line of read('bindings/stored.tsv').trimEnd().split('\n').slice(1)) {
    const [salt, key, N, r, p, wanted] = line.split('\t');
    const bytes = [salt, key].map((it) => Buffer.from(it, 'hex'));
    const stored = () => storedText(...bytes, { N: Number(N), r: Number(r), p: Number(p) });
    if (wanted) deepStrictEqual(await stored(), wanted);
    else await rejects(stored, ScryptError, line);
    if (N >= 1 && N < 64) await rejects(stored, /may be its logarithm/, line);
  }
});

test('the vectors of vectors/, but for what needs 1 GiB', async () => {
  const data = (it) => bytes(it.map?.(([one, times]) => one.repeat(times)).join('') ?? it);
  const calls = {
    kdf: async ({ password, salt, N, r, p, dkLen, dk }) => hex(await scrypt(data(password), data(salt), { N, r, p, dkLen })) === dk,
    phc: async ({ password, hash }) => await verify(data(password), data(hash)) || null,
  };
  for (const name of ['kdf', 'phc', 'mcf']) {
    for (const { tests } of JSON.parse(read(`vectors/scrypt_${name}_test.json`)).testGroups) {
      for (const it of tests.filter(({ flags }) => !flags.includes('LargeMemory'))) {
        const answer = await (calls[name] ?? calls.phc)(it).catch(() => null);
        const wanted = { valid: [true], invalid: [null], acceptable: [true, null] }[it.result];
        deepStrictEqual(wanted.includes(answer), true, `${name} ${it.tcId}: ${it.comment}`);
      }
    }
  }
});

test('the type of codes has those of all statuses that a call can return', () => {
  const codes = [...WORDS.values()].map(([code]) => code);
  const never = ['OK', 'MISMATCH', 'NEEDS_REHASH', 'BUFFER_SIZE', 'UNFINISHED', 'INVALID_PROGRESS'];
  const typed = [...read('bindings/js/index.d.ts').matchAll(/^  \| '(\w+)'/gm)].map(([, it]) => it);
  deepStrictEqual(codes.filter((it) => !typed.includes(it)), never);
  const ofC = [...WORDS.values()].filter(([, message]) => message.includes('log_n'));
  deepStrictEqual(ofC, [], 'messages speak of N');
});

// Programs on the command line, with a flag that a file must not have. They exit by themselves.
function prints(program) {
  const text = program.replaceAll("'scrypt-proved'", `'${at('bindings/js/node.js')}'`);
  const { stdout, status } = spawnSync(process.execPath, ['--input-type=module', '-e', text]);
  return `${stdout}${status || ''}`;
}

// The same for a file beside the installed package. Node 18 has no global `crypto` in a file.
function printsOfFile(program) {
  const room = mkdtempSync(`${tmpdir()}/scrypt-`);
  try {
    mkdirSync(`${room}/node_modules`);
    symlinkSync(fileURLToPath(at('bindings/js')), `${room}/node_modules/scrypt-proved`, 'dir');
    writeFileSync(`${room}/as18.cjs`, 'delete globalThis.crypto;');
    writeFileSync(`${room}/login.mjs`, program);
    const files = ['as18.cjs', 'login.mjs'].map((name) => `${room}/${name}`);
    const { stdout, status } = spawnSync(process.execPath, ['--require', ...files]);
    return `${stdout}${status || ''}`;
  } finally {
    rmSync(room, { recursive: true });
  }
}

test('the examples of README print what they say', () => {
  for (const [, program] of read('bindings/js/README.md').matchAll(/^```js$(.*?)^```$/gms)) {
    const said = [...program.matchAll(/^console\.log\(.*\); \/\/ (\w+)/gm)];
    deepStrictEqual(printsOfFile(program), said.map(([, it]) => `${it}\n`).join(''));
  }
});

test('the quick start for Express answers', () => {
  const [, program] = read('examples/README.md').match(/^```js$(.*?)^```$/ms);
  deepStrictEqual(printsOfFile(`${program}
    const answer = (name, password) =>
      logIn({ body: { name, password } }, { sendStatus: console.log }, ({ code }) => console.log(code));
    await answer('ann', 'correct horse');
    await answer('ann', 'another');
    await answer('eve', 'another');
    await answer('ann');`), '204\n401\n401\nINVALID_TYPE\n');
});

// Makes Node look like this version, without what Node lacks before 18.14.
const asBefore = (version) => `import { createRequire, syncBuiltinESMExports } from 'node:module';
  delete createRequire('/')('node:os').availableParallelism;
  delete process.constrainedMemory;
  syncBuiltinESMExports();
  Object.defineProperty(process, 'versions', { value: { ...process.versions, node: '${version}' } });
  const { hash, load, verify } = await import('scrypt-proved');`;

test('a signal of many calls causes no warning, and ends them all', () => {
  deepStrictEqual(prints(`import { scrypt } from 'scrypt-proved';
    process.on('warning', ({ name }) => console.log(name));
    const controller = new AbortController();
    const call = (N) => scrypt('', '', { N, r: 8, p: 1, signal: controller.signal }).catch(({ name }) => name);
    const calls = (N) => Promise.all(Array.from({ length: 12 }, () => call(N)));
    await calls(2);
    const ended = calls(2 ** 20);
    controller.abort();
    console.log(new Set(await ended));`), "Set(1) { 'AbortError' }\n");
});

test('the oldest Node computes', () => {
  deepStrictEqual(prints(`${asBefore('18.0.0')}
    console.log(await verify('a', await hash('a', { N: 2 })));`), 'true\n');
});

test('an older Node is named', () => {
  deepStrictEqual(prints(`${asBefore('16.20.2')}
    await load().catch(({ code, message }) => console.log(code, message));`),
  'LOAD_FAILED scrypt-proved needs Node 18 or later, this is 16.20.2\n');
});

test('the default limits are within the memory of a container', () => {
  deepStrictEqual(prints(`process.constrainedMemory = () => 160 * 2 ** 20;
    const { load } = await import('scrypt-proved');
    const [own, text] = [await load(), '$scrypt$ln=18,r=8,p=1$AAAAAAAA$' + 'A'.repeat(43)];
    try { own.verify('', text); } catch ({ code }) { console.log(code); }
    console.log(own.verify('', text.replace('18', '17')));`), 'TOO_COSTLY\nfalse\n');
});
