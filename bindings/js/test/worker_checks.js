// The checks of calls in workers, of their errors and aborts, and of loading.
import { hash, isSupported, load, needsRehash, params, scrypt, verify } from '../index.js';
import { host } from '../host.js';
import { compile } from '../load.js';
import { OF, equal, hex, instead, refused, utf8 } from './support.js';

const later = (ms) => new Promise((resolve) => { setTimeout(resolve, ms); });
const fails = async () => { throw new Error('not here'); };
const [KEY, OTHER] = [Uint8Array.of(1), Uint8Array.of(2)];
let copies = 0; // of workers.js, each without workers

/** A check with fake workers, which start if `starts` returns true. It gets a call, the workers, a
 * function that waits until a worker has a call, one that also answers that call, and configure. */
const withWorkers = (check, starts = () => true) => async () => {
  const made = [];
  class Acting {
    sent = [];

    constructor() {
      const does = starts(made.push(this));
      const message = 'no memory';
      setTimeout(() => (does ? this.says({ isReady: true }) : this.onerror({ message })));
    }
    postMessage(message) { this.isBusy = this.sent.push(message); }
    says(data) { this.isBusy = false; this.onmessage({ data }); }
    terminate() { this.isEnded = true; }
  }
  const busy = async (at = 0) => {
    for (let i = 0; i < 60000 && !made[at]?.isBusy; i++) await later(1);
    return made[at];
  };
  const answer = async (value, at) => (await busy(at)).says({ value });
  await instead(globalThis, 'Worker', Acting, async () => {
    const { call, configure } = await import(`../workers.js?${copies++}`);
    configure({ maxWorkers: 1 });
    const calls = (options = {}, secret = Uint8Array.of(1)) =>
      call('scrypt', [secret, Uint8Array.of(1), {}], options);
    await check(calls, made, busy, answer, configure);
  });
};

const endings = {
  'an abort ends no other call': withWorkers(async (call, made, busy, answer) => {
    const [abort, reports] = [new AbortController(), []];
    const options = { signal: abort.signal, onProgress: (fraction) => reports.push(fraction) };
    const aborted = refused('AbortError', () => call(options));
    const [worker, next] = [await busy(), call()];
    worker.says({ progress: 0.1 });
    abort.abort();
    worker.says({ progress: 0.2 });
    equal(reports.join(), '0.1', 'no progress after the abort');
    await aborted;
    equal(worker.sent[1].isAborted, true, 'the message to the worker');
    worker.says({ value: KEY }); // its answer was in transit
    await busy();
    abort.abort();
    await answer(OTHER);
    equal(await next, OTHER, 'the next call');
    equal(`${made.length} ${worker.sent.length} ${worker.isEnded}`, '1 3 undefined', 'workers');
  }),
  'an abort after an answer': withWorkers(async (call, _, busy, answer) => {
    const abort = new AbortController();
    const calls = [call({ signal: abort.signal }), call()];
    const worker = await busy();
    // The worker gets the next call immediately; that call is not aborted.
    worker.says({ value: KEY });
    abort.abort();
    equal(worker.sent.filter((it) => it.isAborted).length, 0, 'aborts');
    await answer(OTHER);
    equal((await Promise.all(calls)).join(), '1,2', 'both answers');
  }),
  'a worker that fails during a call': withWorkers(async (call, made, busy, answer) => {
    const refusal = refused('WORKER_FAILED', () => call(), 'no more');
    const [worker, next] = [await busy(), call()];
    worker.onerror({ message: 'no more' });
    await refusal;
    worker.says({ value: KEY }); // what it had posted before: an ended worker is not idle
    await answer(OTHER, 1);
    equal(await next, OTHER, 'the next call');
    made[1].onmessageerror({ message: 'no more, while it is idle' });
    const last = call();
    await answer(KEY, 2);
    equal(await last, KEY, 'the last call');
    equal(made.map((it) => it.isEnded).join(), 'true,true,', 'ended');
  }),
  'calls wait for the one worker that starts': withWorkers(async (call, made, busy, answer, configure) => {
    configure({ maxWorkers: 3 });
    const calls = [call(), call(), call()];
    for (let i = 0; i < 3; i++) await answer(KEY);
    equal((await Promise.all(calls)).join(), '1,1,1');
  }, (count) => count === 1),
  'no worker starts': withWorkers(async (call) => {
    await Promise.all(Array.from({ length: 9 }, () => refused('WORKER_FAILED', call, 'no memory')));
  }, () => false),
  'more calls than workers': withWorkers(async (call, made, busy, answer, configure) => {
    configure({ maxWaiting: 3 });
    const answers = [];
    const add = (i, options) =>
      call(options).then(() => answers.push(i), ({ code }) => answers.push(code));
    const first = add(0, { timeout: 500 });
    await busy();
    await later(600); // the timeout does not count while it computes
    const others = [1, 2, 3].map((i) => add(i));
    await refused('BUSY', () => call());
    for (let i = 0; i < 3; i++) await answer(KEY);
    await add('late', { timeout: 1 });
    await answer(KEY);
    await Promise.all([first, ...others]);
    equal(answers.join(), '0,1,2,TIMEOUT,3', 'FIFO');
    for (const timeout of [-1, NaN]) {
      await refused('INVALID_LIMIT', () => call({ timeout }));
      await refused('INVALID_LIMIT', () => configure({ timeout, maxWorkers: 3 }));
    }
    for (const maxWorkers of [0, 2.5]) await refused('INVALID_LIMIT', () => configure({ maxWorkers }));
    for (const maxWaiting of [NaN, 0.5]) await refused('INVALID_LIMIT', () => configure({ maxWaiting }));
    configure({ maxWaiting: Infinity });
  }),
  'a timeout that is configured, and the one of a call, which wins': withWorkers(async (call, made, busy, answer, configure) => {
    configure({ timeout: 20 });
    const [first, soon] = [call({ timeout: Infinity }), refused('TIMEOUT', () => call(), '20 ms')];
    await busy();
    const late = [call({ timeout: 60000 }), call({ timeout: Infinity })];
    await soon;
    await refused('TIMEOUT', () => call({ timeout: 1 }), '1 ms');
    for (let i = 0; i < 3; i++) await answer(KEY);
    equal((await Promise.all([first, ...late])).join(), '1,1,1', 'answers');
  }),
  'bytes that no worker got are wiped': withWorkers(async (call, made, busy, answer, configure) => {
    configure({ maxWaiting: 2 });
    const first = call();
    await busy();
    const [abort, secrets] = [new AbortController(), [1, 2, 3, 4].map((it) => Uint8Array.of(it))];
    await Promise.all([
      refused('AbortError', () => call({ signal: AbortSignal.abort() }, secrets[0])),
      refused('AbortError', () => call({ signal: abort.signal }, secrets[1])),
      refused('TIMEOUT', () => call({ timeout: 1 }, secrets[2])),
      refused('BUSY', () => call({}, secrets[3])).then(() => abort.abort()),
    ]);
    equal(secrets.join(), '0,0,0,0');
    await answer(KEY);
    await first;
  }),
  'an idle worker ends': withWorkers(async (call, made, busy, answer) => {
    const [own, idle] = [setTimeout, []];
    const timer = (work, ms, ...args) => (ms > 1000 ? idle.push(() => work(...args)) : own(work, ms, ...args));
    const answered = async (at) => {
      const called = call();
      await answer(KEY, at);
      await called;
    };
    await instead(globalThis, 'setTimeout', timer, async () => {
      await answered(0);
      await answered(0);
      equal(made.map((it) => it.isEnded).join(), '', 'it is kept');
      idle.at(-1)();
      equal(made.map((it) => it.isEnded).join(), 'true', 'it ended');
      await answered(1);
    });
  }),
  // The calls that wait behind the first one, and the order in which they start.
  ...Object.fromEntries(Object.entries({
    'FIFO in an overload with timeouts': [['timeout', 'timeout', 'timeout'], '1,2,3'],
    'FIFO in an overload with signals and timeouts': [['both', 'both', 'both'], '1,2,3'],
    'LIFO in an overload that only signals end': [['signal', 'signal', 'signal'], '3,1,2'],
    'FIFO for two calls that only signals end': [['signal', 'signal'], '1,2'],
    'in an overload of both kinds, turns': [
      ['signal', 'timeout', 'signal', 'none', 'signal', 'signal'], '2,6,4,5,1,3',
    ],
    'turns if the newest calls have a timeout': [['signal', 'signal', 'timeout', 'timeout'], '3,2,1,4'],
  }).map(([name, [kinds, wanted]]) => [name, withWorkers(async (call, made, busy, answer) => {
    const { signal } = new AbortController();
    const options = { timeout: { timeout: 9000 }, signal: { signal }, both: { signal, timeout: 9000 }, none: {} };
    const [order, first] = [[], call()];
    await busy();
    const calls = kinds.map((kind, i) => call(options[kind]).then(() => order.push(i + 1)));
    await later(20); // they wait
    for (let i = 0; i <= kinds.length; i++) await answer(KEY);
    await Promise.all([first, ...calls]);
    equal(order.join(), wanted, 'the order');
  })])),
  'the default number of workers': async () => {
    const os = { availableParallelism: () => 8, totalmem: () => 2 ** 40 };
    for (const [mib, wanted] of [[0, 4], [187, 1], [512, 1], [700, 2], [1024, 3], [2048, 4]]) {
      const process = { constrainedMemory: () => mib * 2 ** 20 };
      await instead(globalThis, 'process', process, () => instead(host, 'os', os, async () => {
        equal((await import(`../machine.js?${mib}`)).MAX_WORKERS, wanted, `${mib} MiB`);
      }));
    }
  },
};

const calls = {
  'a table of 1 GiB, of RFC 7914': async () => {
    const of = { N: 2 ** 20, r: 8, p: 1, dkLen: 8 };
    equal(hex(await scrypt('pleaseletmein', 'SodiumChloride', of)), '2101cb9b6a511aae');
  },
  'concurrent calls, whose bytes change later': async () => {
    const given = [utf8('password'), utf8(await hash('password', OF))];
    const answers = Array.from({ length: 40 }, () => verify(...given));
    answers.push(needsRehash(given[1], OF), params(given[1]).then(({ N }) => N));
    for (const it of given) it.fill(0);
    equal((await Promise.all(answers)).join(), `${'true,'.repeat(40)}false,2`);
  },
  // Runs worker.js in this thread.
  'a worker wipes its arguments': async () => {
    const posted = [];
    const post = (...message) => posted.push(message);
    await instead(host, 'port', undefined, () =>
      instead(globalThis, 'postMessage', post, async () => {
        await import('../worker.js?wipes');
        for (const [name, ...args] of [
          ['scrypt', utf8('password'), utf8('NaCl'), OF],
          ['hash', utf8('password'), { ...OF, salt: utf8('NaCl') }],
          ['verify', utf8('password'), utf8('not a hash'), {}],
        ]) {
          await globalThis.onmessage({ data: { module: await compile(), name, args } });
          const [{ value }, transfer] = posted.pop();
          equal(transfer?.[0], value?.buffer, 'a key is given away');
          const given = [...args, args.at(-1).salt].filter(ArrayBuffer.isView);
          equal(given.some((it) => it.some((byte) => byte !== 0)), false, `left after ${name}`);
        }
      }));
  },
};

const sources = {
  'all calls use the module that was loaded last': async () => {
    const first = await compile();
    await load(new URL('../scrypt.wasm', import.meta.url));
    const other = await compile();
    equal(other === first, false, 'the same module');
    const empty = Uint8Array.of(0, 97, 115, 109, 1, 0, 0, 0);
    for (const bad of [empty.subarray(4), empty, './nothing.wasm', null]) {
      await refused('LOAD_FAILED', () => load(bad), '', `${bad}`);
    }
    equal(await compile(), other, 'the module, after sources that cannot be loaded');
    equal(await verify('', await hash('', OF)), true, 'in a worker');
  },
  'a file that becomes available': async () => {
    const { compile: compileAgain } = await import('../load.js?again');
    await instead(WebAssembly, 'compile', fails, () => refused('LOAD_FAILED', compileAgain));
    equal(await compileAgain() instanceof WebAssembly.Module, true, 'a module');
  },
  'an engine that compiles no bytes and starts no workers': async () => {
    const module = await compile();
    await instead(WebAssembly, 'compile', fails, () => instead(globalThis, 'Worker', undefined, () =>
      instead(host, 'start', undefined, async () => {
        const own = await load(module);
        equal(own.verify('', own.hash('', OF)), true, 'own');
        const { call } = await import('../workers.js?edge');
        const reason = 'this thread cannot start workers; use load()';
        await refused('WORKER_FAILED', () => call('hash', ['', OF], {}), reason);
      })));
  },
  'an engine without SIMD': async () => {
    equal(isSupported(), true);
    await instead(WebAssembly, 'validate', () => false, async () => {
      equal(isSupported(), false);
      for (const call of [() => scrypt('', '', OF), load]) await refused('UNSUPPORTED', call);
    });
  },
};

/** The checks. */
export const workerChecks = { ...calls, ...endings, ...sources };
