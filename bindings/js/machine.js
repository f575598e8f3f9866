// The memory and the processors of the machine, or of the container.
import { DEFAULT_MAX_MEM, LEFT_FREE } from './declared.js';
import { host } from './host.js';

const { os } = host;
const memory = Math.min(globalThis.process?.constrainedMemory?.() || Infinity, os?.totalmem() ?? Infinity);

/** The bytes that calls may use; the rest is for the program. A page does not know: Infinity. */
export const MEMORY = Math.ceil(memory * (1 - 1 / LEFT_FREE));

const MOST = 4;
// Node before 18.14 lacks availableParallelism.
const processors = os?.availableParallelism?.() ?? os?.cpus().length
  ?? globalThis.navigator?.hardwareConcurrency ?? MOST;

// The memory of a verification within the default limits; its worker takes about 15 MiB more.
const OF_WORKER = DEFAULT_MAX_MEM + 15 * 2 ** 20;

/** The default maximum number of workers. */
export const MAX_WORKERS = Math.max(1, Math.min(processors, MOST, Math.floor(MEMORY / OF_WORKER)));
