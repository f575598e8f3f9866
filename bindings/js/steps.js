// Keys and verdicts in steps of about 10 ms.
import { PROGRESS, STEP_MS } from './declared.js';
import { places } from './instance.js';

/** Lets the event loop run: a page paints, and messages come in. A timer would wait longer. */
export const turn = () => new Promise((resolve) => {
  const { port1, port2 } = new MessageChannel();
  port1.onmessage = () => {
    port1.close();
    resolve();
  };
  port2.postMessage(undefined);
});

// Mixes all chunks, and yields the fraction that is done, from 0 to 1.
function* mixedInSteps(instance, params, buffers, progress) {
  const [logN, r, p] = params;
  const inChunk = 2 ** (logN + 1);
  const all = p * inChunk;
  const number = (name) => instance.number(progress[name]);
  const mixed = () => number('chunks') * inChunk + number('interleaved') * number('mixes');
  let [count, shown] = [Math.ceil(512 / r), performance.now()];
  for (let before = 0; before < all;) {
    const [begun, width] = [performance.now(), number('interleaved')];
    instance.call('scrypt_key_step', ...params, BigInt(count), ...buffers, progress.at);
    const [done, ended] = [mixed(), performance.now()];
    // A page's clock may stand still during a step: then the event loop runs after it, and the next
    // one takes at most twice as long. A step ends with its chunk, so it may be shorter.
    const isWhole = done - before === width * count;
    const inTime = Math.floor(((done - before) * STEP_MS) / (width * (ended - begun)));
    count = Math.max(1, Math.min(2 * count, inTime, all));
    before = done;
    const isSoon = ended === shown ? !isWhole : ended - shown < STEP_MS / 2;
    if (isSoon && done < all) continue;
    yield done / all;
    shown = performance.now();
  }
}

/** Derives a key. Nothing else may change the buffers between its steps. */
export function* keyInSteps(instance, password, salt, params, key, buffers) {
  const progress = instance.structure(PROGRESS);
  instance.call('scrypt_key_begin', password, salt, ...params, ...buffers, progress.at);
  yield* mixedInSteps(instance, params, buffers, progress);
  instance.call('scrypt_key_finish', password, ...params, buffers[0], progress.at, key);
}

/** Verifies a password against a text. Nothing else may change the buffers between its steps. */
export function* verdictInSteps(instance, password, text, limits, buffers) {
  const [words, progress] = [instance.words(3), instance.structure(PROGRESS)];
  const args = [password, text, ...limits, ...places(words), ...buffers, progress.at];
  if (!instance.isOk('scrypt_verify_begin', ...args)) return false;
  const params = [instance.number(words[0]), instance.number(words[1]), instance.number(words[2])];
  yield* mixedInSteps(instance, params, buffers, progress);
  return instance.isOk('scrypt_verify_finish', password, text, buffers[0], progress.at);
}
