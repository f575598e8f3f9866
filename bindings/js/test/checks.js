// The checks for each engine. Each is a name and a function, which throws on failure.
import * as workers from '../index.js';
import { compile } from '../load.js';
import { OF, bytes, equal, hex, instead, opened, refused, utf8, wiping } from './support.js';
import { workerChecks } from './worker_checks.js';

const { RejectedHashError } = workers;

// A view of a buffer that has shrunk, or was detached: its password would be empty.
function gone(isShrunk) {
  const buffer = new ArrayBuffer(8, { maxByteLength: 8 });
  const it = new Uint8Array(buffer, 0, 8);
  if (isShrunk && buffer.resizable) buffer.resize(4);
  else structuredClone(buffer, { transfer: [buffer] });
  return it;
}

// Wrong values of an option; of a password, a salt or a text; and of all options.
const VALUES = [
  ['INVALID_PARAMS', 'N', 3, 0, -2, 1.5, NaN, Infinity, 2 ** 64],
  ['INVALID_PARAMS', 'r', 0, 2 ** 32 + 8, 2 ** 30], ['INVALID_PARAMS', 'p', 0, 2 ** 32 + 1, 2 ** 30],
  ['INVALID_PARAMS', 'dkLen', 2 ** 32, -1, 0.5], ['INVALID_LIMIT', 'maxmem', -1, 0.5, NaN, 2 ** 60],
  ['INVALID_TYPE', 'N', '16384', 16384n, null], ['INVALID_TYPE', 'r', '8', true],
  ['INVALID_TYPE', 'dkLen', '32'], ['INVALID_TYPE', 'maxmem', '1'],
];
const BYTES = [
  ['INVALID_TYPE', 1], ['INVALID_TYPE', {}], ['INVALID_TYPE', [1]], ['INVALID_TYPE', Symbol('x')],
  ['TypeError', gone(false)], ['TypeError', gone(false).buffer], ['TypeError', gone(true)],
];
const LONE_SURROGATES = [['LONE_SURROGATE', 'secret\ud800'], ['LONE_SURROGATE', '\udc00secret']];
const NO_OPTIONS = [
  5, 'maxmem', true, [], new Uint8Array(16), new Map([['maxmem', 1]]),
  { maxMem: 1 }, { n: 16 }, { cost: 16 }, // misspelt, and a name of node:crypto
];

// The error, the call and its arguments.
const REFUSED = [
  ...VALUES.flatMap(([code, name, ...values]) => values.flatMap((it) => [
    [code, 'scrypt', '', '', { ...OF, [name]: it }], [code, 'hash', '', { ...OF, [name]: it }],
  ])),
  ...BYTES.map(([code, it]) => [code, 'verify', it, '$7$']),
  ...BYTES.flatMap(([code, it]) => [[code, 'verify', 'secret', it], [code, 'params', it]]),
  ...[...BYTES, ...LONE_SURROGATES].flatMap(([code, it]) => [
    [code, 'scrypt', it, '', OF], [code, 'scrypt', 'secret', it, OF], [code, 'hash', it, OF],
  ]),
  ...NO_OPTIONS.flatMap((it) => [
    ['INVALID_TYPE', 'scrypt', '', '', it], ['INVALID_TYPE', 'verify', '', '$7$', it],
  ]),
  ['INVALID_TYPE', 'scrypt', 'secret', ''], ['INVALID_TYPE', 'scrypt', undefined, '', OF],
  ['INVALID_TYPE', 'hash', null], ['INVALID_TYPE', 'hash', 'secret', { format: 'bcrypt' }],
  ['INVALID_TYPE', 'hash', 'secret', { ...OF, salt: 5 }],
  ['INVALID_PARAMS', 'verify', '', '$7$', { N: 3 }], ['INVALID_PARAMS', 'needsRehash', '', { N: 3 }],
  ['INVALID_PARAMS', 'scrypt', '', '', { ...OF, N: 1 }], // as in node:crypto; a hash may have it
  ['INVALID_PARAMS', 'hash', '', { dkLen: 9 }], ['INVALID_OUTPUT_LEN', 'scrypt', '', '', { ...OF, dkLen: 0 }],
  ['SALT_INVALID', 'hash', '', { salt: new Uint8Array(65) }], ['SALT_INVALID', 'hash', '', { salt: '' }],
  ['ENCODING_INVALID', 'verify', 'secret', Uint8Array.of(0xff, 0xfe)],
  ['TOO_COSTLY', 'scrypt', '', '', { N: 2 ** 21, r: 8, p: 1 }],
  ['TOO_COSTLY', 'scrypt', '', '', { ...OF, maxwork: 1 }],
  ['OUT_OF_MEMORY', 'scrypt', 'secret', '', { N: 2 ** 30, r: 8, p: 1, maxmem: 2 ** 45 }],
  ['OUT_OF_MEMORY', 'scrypt', 'secret', '', { N: 2 ** 21, r: 8, p: 1, maxmem: 2 ** 45 }], // 2 GiB
];

// Above the default limits, but fast.
const COSTLY = `$scrypt$ln=4,r=8,p=11000$AAAAAAAA$${'A'.repeat(43)}`;

// The code of a RejectedHashError, or the result.
const outcome = (call) => call.catch((error) => error instanceof RejectedHashError && error.code);

/** The checks of each kind of calls: in workers, on a module, and in steps. */
const OF_EACH = {
  'keys of node:crypto': async (api, { keys }) => {
    for (const { password, salt, of, key } of keys) {
      const found = await api.scrypt(bytes(password), bytes(salt), of);
      equal(hex(found), key, JSON.stringify({ password, salt, of }));
    }
  },
  hashes: async (api) => {
    const of = { N: 32, r: 3, p: 5, dkLen: 20 };
    for (const [format, text] of [ // by node:crypto
      ['phc', '$scrypt$ln=5,r=3,p=5$c2FsdHNhbHQ$8K5X034OoVRtpY/RqyQEOcDGVeo'],
      ['mcf', '$7$31....3....n34PoBLMgF5$QnpiCV/N/YkuXdK2DpZJBKMqgxB'],
    ]) {
      equal(await api.hash('pässword', { ...of, salt: 'saltsalt', format }), text);
      equal(await api.verify('pässword', text), true, text);
      equal(await api.verify('password', text), false, text);
      equal(JSON.stringify(await api.params(text)), JSON.stringify(of));
      equal(await api.needsRehash(text, of), false, text);
      for (const name of Object.keys(of)) {
        equal(await api.needsRehash(text, { ...of, [name]: 2 * of[name] }), true, name);
      }
    }
    const long = await api.hash('', { ...of, salt: new Uint8Array(1000), format: 'mcf' });
    equal(await api.verify('', long), true, 'a long salt');
    const least = await api.hash('', { ...of, N: 1 });
    equal(await api.verify('', least, { ...of, N: 1 }), true, 'N of 1');
  },
  'a verification with a new hash': async (api) => {
    const [of, weak] = [{ N: 32, r: 3, p: 5, dkLen: 20 }, await api.hash('pw', OF)];
    for (const [password, text, options, starts] of [
      ['pw', weak, OF, ''], ['pw', weak, { ...OF, dkLen: 31 }, ''], // not weaker
      ['pw', weak, of, '$scrypt$ln=5,r=3,p=5$'], ['pw', weak, { ...of, format: 'mcf' }, '$7$31....3....'],
      ['pw', weak, {}, '$scrypt$ln=17,r=8,p=1$'], ['pw', utf8(weak), undefined, '$scrypt$ln=17,r=8,p=1$'],
    ]) {
      const { verified, newHash = '' } = await api.verifyAndUpdate(password, text, options);
      equal(`${verified} ${newHash.slice(0, starts.length || undefined)}`, `true ${starts}`, 'right');
      if (newHash) equal(await api.verify(password, newHash), true, newHash);
    }
    const replaced = await api.hash('\ufffd', OF);
    for (const [password, text] of [['Pw', weak], ['pw', null], ['\ud800', replaced]]) {
      const { verified, newHash } = await api.verifyAndUpdate(password, text, of);
      equal(`${verified} ${newHash}`, 'false undefined', 'wrong');
    }
    const [secret, given] = [utf8('pw'), utf8(weak)];
    const answer = api.verifyAndUpdate(secret, given, of);
    for (const it of [secret, given]) it.fill(0); // the caller's bytes change later
    const { newHash } = await answer;
    equal(await api.verify('pw', newHash), true, 'of the same password');
    await refused('ENCODING_INVALID', () => api.verifyAndUpdate('$7$', 'pw'), 'the password comes first');
    await refused('TOO_COSTLY', () => api.verifyAndUpdate('', COSTLY));
    await refused('INVALID_TYPE', () => api.verifyAndUpdate('pw'), 'a password and a hash');
  },
  'the verifications of bindings/cases.tsv': async (api, { lines }) => {
    for (const line of lines.trimEnd().split('\n').slice(1)) {
      const [status, password, it, numbers] = line.split('\t');
      const text = it.replace('\\0', '\0');
      const wanted = { OK: true, MISMATCH: false }[status] ?? status;
      equal(await outcome(api.verify(password, text)), wanted, text.slice(0, 60));
      if (numbers) await refused(status, () => api.verify(password, text), `: ${numbers}`);
      if (/OK|MISMATCH|TOO_/.test(status)) continue; // it can be read
      equal(await outcome(api.params(text)), status, text.slice(0, 60));
      equal(await outcome(api.needsRehash(text)), status, text.slice(0, 60));
    }
  },
  'a new hash, and no hash': async (api) => {
    const text = await api.hash('pässword 🔑');
    equal(/^\$scrypt\$ln=17,r=8,p=1\$[A-Za-z0-9+/]{22}\$[A-Za-z0-9+/]{43}$/.test(text), true, text);
    equal(await api.verify(utf8('pässword 🔑'), utf8(text)), true);
    equal(await api.needsRehash(text), false);
    const composed = await api.hash('\u00e9', OF);
    equal(await api.verify('e\u0301', composed), false, 'a string is not normalized');
    equal(await api.hash('\u00e9', OF) === composed, false, 'two salts');
    for (const none of [null, undefined]) equal(await api.verify('', none, OF), false, `${none}`);
    // A stranger can send it. It has the work and the errors of a wrong password, and no match.
    for (const lone of ['\ud800', '\udc00']) {
      equal(await outcome(api.verify('', `$7$2/..../....${lone}$AAAA`)), 'ENCODING_INVALID', 'a text');
      const replaced = await api.hash('\ufffd', OF);
      equal(await api.verify('\ufffd', replaced), true);
      equal(await api.verify(lone, replaced), false, 'a lone surrogate is no U+FFFD');
      equal(await api.verify(lone, null, OF), false, 'a lone surrogate, and no hash');
      await refused('TOO_COSTLY', () => api.verify(lone, COSTLY));
    }
    await refused('TOO_COSTLY', () => api.verify('', null, { maxmem: 1 }));
  },
  limits: async (api) => {
    equal(await api.verify('', COSTLY, { N: 16, p: 11000, dkLen: 32 }), false, 'as for new hashes');
    // 128 * r * p bytes of chunks, 128 * r * N of a table, and 256 * r of scratch.
    const [maxmem, maxwork] = [128 + 2048 + 256, 4 * (16 + 32)];
    const text = await api.hash('', { N: 16, r: 1 });
    for (const it of [{ maxmem, maxwork }, { maxmem: Infinity, maxwork: Infinity }]) {
      equal(await api.verify('', text, it), true, 'as much as it needs');
    }
    const inherited = Object.create({ get maxmem() { return 1; } });
    for (const it of [{ maxmem: maxmem - 1 }, { maxwork: maxwork - 1 }, inherited]) {
      await refused('TOO_COSTLY', () => api.verify('', text, it));
    }
    const numbers = ': N=2^4, r=1, p=1 need 2432 bytes and a work of 192 (at most 1)';
    await refused('TOO_COSTLY', () => api.verify('', text, { maxmem: Infinity, maxwork: 1 }), numbers);
    const short = await api.hash('', { N: 2, dkLen: 10 });
    await refused('KEY_TOO_SHORT', () => api.verify('', short));
    for (const damaged of ['$scrypt$ln=4,r=8,p=1', '$scrypt$ln=4,r=8,p=1$c2FsdHNhbHQ']) { // no key
      equal(await outcome(api.verify('', damaged)), 'OUTPUT_SIZE', damaged);
      equal(await api.needsRehash(damaged), true, damaged);
      equal((await api.params(damaged)).dkLen, 0, damaged);
    }
    equal(await api.verify('', short, { dkLen: 10 }), true, 'as short as new ones');
    equal(await api.verify('', short, { minKeyLength: 10 }), true, 'long enough');
  },
  // Properties that an attacker added there must not lift a limit.
  'properties of Object.prototype': async (api) => {
    const [text, short] = [await api.hash('', OF), await api.hash('', { ...OF, dkLen: 10 })];
    const lifted = { maxmem: Infinity, maxwork: Infinity, minKeyLength: 0, format: 'mcf', N: 4, p: 11000 };
    for (const [name, value] of [['maxwork', 0], ...Object.entries(lifted)]) {
      await instead(Object.prototype, name, value, async () => {
        equal(await api.verify('', text), true, `verify with ${name}`);
        equal((await api.hash('', { N: 2 })).slice(0, 21), '$scrypt$ln=1,r=8,p=1$', name);
        await refused('KEY_TOO_SHORT', () => api.verify('', short, {}));
        await refused('TOO_COSTLY', () => api.verify('', COSTLY));
      });
    }
  },
  'rejected calls': async (api) => {
    for (const [code, name, ...given] of REFUSED) {
      const words = given.map((it) => String(Object(it) === it ? Object.entries(it) : it));
      await refused(code, () => api[name](...given), '', `${name}(${words.join('; ')})`);
    }
    await refused('ENCODING_INVALID', () => api.verify('$7$', 'secret'), 'the password comes first');
    await refused('ALGORITHM', () => api.verify('$7$', '$money'), 'the password comes first');
    await refused('INVALID_TYPE', () => api.verify('secret'), 'a password and a hash');
    equal(hex(await api.scrypt('', '', { N: 16, r: 1, p: 1, dkLen: 4 })), '77d65762', 'the next');
  },
};

/** The checks of calls that have steps. */
const OF_STEPS = {
  'progress and abort': async (api) => {
    const text = `$scrypt$ln=15,r=8,p=1$AAAAAAAA$${'A'.repeat(43)}`;
    const costs = { N: 2 ** 15, r: 8, p: 1 };
    for (const call of [
      (it) => api.scrypt('', '', { ...costs, ...it }), (it) => api.verify('', text, it),
      (it) => api.verify('', null, { ...costs, ...it }),
    ]) {
      const [controller, seen] = [new AbortController(), []];
      const { signal } = controller;
      await call({ signal, onProgress: (fraction) => seen.push(fraction) });
      equal(seen.at(-1), 1, 'progress');
      equal(seen.every((it, i) => it > (seen[i - 1] ?? 0)), true, 'progress grows');
      const onProgress = (fraction) => fraction > 0.1 && controller.abort();
      await refused('AbortError', () => call({ signal, onProgress }));
      await refused('AbortError', () => call({ signal }));
      const fails = () => { throw new TypeError('its own'); };
      await refused('TypeError', () => call({ onProgress: fails }));
      await refused('INVALID_TYPE', () => call({ onProgress: 5 }));
    }
  },
};

/** The checks of a module's memory. */
const OF_MODULE = {
  'memory that cannot grow': async (module) => {
    const given = ['password', 'salt', { N: 1024, r: 8, p: 2 }];
    const [{ own }, it] = [await opened(module), await opened(module)];
    const key = hex(own.scrypt(...given));
    it.most = 0;
    for (const how of ['', 'Async']) {
      await refused('OUT_OF_MEMORY', () => it.own[`scrypt${how}`](...given));
      // No hash takes a table, as a wrong password does.
      await refused('OUT_OF_MEMORY', () => it.own[`verify${how}`]('', null));
    }
    // The limits are checked before a key takes memory.
    await refused('TOO_COSTLY', () => it.own.scrypt('', '', { ...OF, maxmem: 1, dkLen: 2 ** 31 }));
    for (const most of [own.memory - 2 ** 20 + 65536, Infinity]) { // one chunk at a time, and two
      it.most = most;
      equal(hex(it.own.scrypt(...given)), key, `${most}`);
      it.isWiped();
    }
  },
  // Its time must not tell that there is no hash. In steps its progress is tested.
  'no hash takes the work of a new one': async (module) => {
    const calls = [];
    const { own } = await opened(module, { scrypt_kdf_with_buffers: (...args) => calls.push(args) - 1 });
    equal(own.verify('pw', null, { N: 1024, r: 8, p: 1, dkLen: 20 }), false);
    const places = [1, 4, 5, 6, 8]; // the password's length, the parameters, and the key's length
    equal(calls.map((args) => places.map((at) => args[at])).join(';'), '2,10,8,1,20', 'derivations');
  },
  // A page is not blocked before the first step, nor while its clock stands still.
  'the first steps': async (module) => {
    const text = `$scrypt$ln=16,r=8,p=1$AAAAAAAA$${'A'.repeat(43)}`;
    const costs = { N: 2 ** 16, r: 8, p: 1 };
    for (const call of [
      (own, it) => own.scryptAsync('', '', { ...costs, ...it }),
      (own, it) => own.verifyAsync('', text, it),
      (own, it) => own.verifyAsync('', null, { ...costs, ...it }),
    ]) {
      const { own } = await opened(module);
      const at = [];
      const onProgress = () => at.push(performance.now());
      // On a loaded machine the first step can be late by chance, but not each time.
      let isEarly = false;
      for (let tries = 0; !isEarly && tries < 20; tries += 1) {
        const begun = performance.now();
        at.length = 0;
        await call(own, { onProgress });
        isEarly = at[0] - begun < (at.at(-1) - begun) / 4;
      }
      equal(isEarly, true, `progress at ${at.slice(0, 5)} .. ${at.at(-1)}`);
      at.length = 0;
      await instead(performance, 'now', () => 0, () => call(own, { onProgress }));
      equal(at.length >= 5, true, `${at.length} steps without a clock`);
    }
  },
  'a call that the engine aborts drops its instance': async (module) => {
    const ends = () => { throw new RangeError('the end of the stack'); };
    const { own } = await opened(module, { scrypt_hash_params: ends });
    await refused('OUT_OF_MEMORY', () => own.params('$7$'));
    equal(own.memory, 0, 'memory');
    await refused('ENCODING_INVALID', () => own.params('$7$'));
  },
};

/** The checks, with the cases of node.test.js. */
export function checks(given) {
  const list = { ...workerChecks };
  const add = (kind, named, open) => {
    for (const [name, check] of Object.entries(named)) {
      list[`${kind}: ${name}`] = async () => check(await open(), given);
    }
  };
  add('in workers', { ...OF_EACH, ...OF_STEPS }, () => workers);
  add('in this thread', OF_EACH, async () => wiping(await compile(), false));
  add('in steps', { ...OF_EACH, ...OF_STEPS }, async () => wiping(await compile(), true));
  add('in this thread', OF_MODULE, compile);
  return list;
}
