// Answers the calls of workers.js, one at a time.
import { bytesAmong } from './arguments.js';
import { Scrypt } from './core.js';
import { outOfMemory } from './errors.js';
import { host } from './host.js';

const port = host.port ?? globalThis;
let lastModule; // that was received
let scrypt;
let controller; // of the last call

const refusal = ({ name, code, message }) => ({ value: undefined, error: { name, code, message } });
const onProgress = (progress) => port.postMessage({ progress });

// The bytes are wiped before the caller gets the answer.
async function answer({ module, name, args, isReporting }) {
  controller = new AbortController();
  const { signal } = controller;
  const options = { ...args.at(-1), signal, onProgress: isReporting ? onProgress : undefined };
  try {
    if (module !== undefined) [lastModule, scrypt] = [module, undefined];
    scrypt ??= await Scrypt.of(lastModule);
    const method = scrypt[`${name}Async`] ?? scrypt[name]; // in steps, if the call has steps
    return { value: await method.call(scrypt, ...args.slice(0, -1), options), error: undefined };
  } catch (error) {
    return refusal(error);
  } finally {
    for (const bytes of bytesAmong(args)) bytes.fill(0);
  }
}

// If the call was answered before the abort, the abort ends no other call, because the next one
// comes after it.
port.onmessage = async ({ data }) => {
  if (data.isAborted) {
    controller.abort();
    return;
  }
  const reply = await answer(data);
  const { value } = reply;
  try {
    // A key is transferred, so that no copy of it is left here.
    port.postMessage(reply, ArrayBuffer.isView(value) ? [value.buffer] : []);
  } catch (cause) {
    port.postMessage(refusal(outOfMemory(cause)));
  }
};

// Otherwise this call would never be answered.
port.onmessageerror = () => {
  throw new Error('a call could not be read');
};

port.postMessage({ isReady: true });
