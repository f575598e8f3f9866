// Calls in workers, so that they don't block the thread of a page or of a server.
import { amount, bytesAmong, count, optionsOf } from './arguments.js';
import { ScryptError, errorNamed, outOfMemory } from './errors.js';
import { host } from './host.js';
import { compile } from './load.js';
import { MAX_WORKERS } from './machine.js';

const IDLE_MS = 5000; // an idle worker ends after this time, and its memory is freed
const MAX_TIMER = 2 ** 31 - 1; // milliseconds: a longer timer fires immediately

let [maxWorkers, maxWaiting, usualTimeout] = [MAX_WORKERS, 1000, Infinity];

const workers = new Set(); // all workers that have not ended
const idle = [];
const waiting = []; // the wait queue: calls that no worker has yet, oldest first
let isFull = false; // a further worker could not start

/** Sets the maximum number of workers, and of calls that wait for one, and how long they do. */
export function configure(given) {
  const options = optionsOf(given, 'configure');
  const most = count(options.maxWorkers, 'maxWorkers', maxWorkers, 1);
  const waits = count(options.maxWaiting, 'maxWaiting', maxWaiting);
  usualTimeout = amount(options.timeout, 'timeout', usualTimeout);
  [maxWorkers, maxWaiting] = [most, waits];
}

function start() {
  if (typeof Worker === 'function') {
    // Bundlers look for exactly this expression.
    return new Worker(new URL('./worker.js', import.meta.url), { type: 'module' });
  }
  if (!host.start) throw new Error('this thread cannot start workers; use load()');
  const worker = host.start();
  worker.on('message', (data) => worker.onmessage({ data }));
  worker.on('error', (error) => worker.onerror(error));
  worker.on('messageerror', (error) => worker.onmessageerror(error));
  worker.on('exit', (status) => worker.onerror({ message: `status ${status}` }));
  return worker;
}

// A worker gets a call only after it has reported that it is ready, so that no call is lost in a
// worker that cannot start.
function started() {
  try {
    const worker = Object.assign(start(), { isReady: false });
    worker.onmessage = ({ data }) => said(worker, data);
    worker.onerror = (event) => end(worker, failed(event));
    worker.onmessageerror = worker.onerror;
    workers.add(worker);
  } catch (cause) {
    cannotStart(failed(cause));
  }
}

// The calls wait for the other workers, if there are any.
function cannotStart(reason) {
  isFull = workers.size > 0;
  if (!isFull) for (const call of waiting.splice(0)) call.reject(reason);
}

function end(worker, reason) {
  if (!workers.delete(worker)) return;
  if (idle.includes(worker)) idle.splice(idle.indexOf(worker), 1);
  clearTimeout(worker.timer);
  worker.terminate();
  worker.call?.reject(reason);
  if (worker.isReady) isFull = false;
  else cannotStart(reason);
  assign();
}

// A worker that ended is not idle again: Node delivers what it had posted before.
function said(worker, { isReady = false, progress, value, error }) {
  const { call } = worker;
  if (!workers.has(worker) || isReady !== (call === undefined)) return;
  if (progress !== undefined) {
    report(call, progress);
    return;
  }
  worker.isReady = true;
  rest(worker);
  if (error) call.reject(errorNamed(error));
  else if (!isReady) call.resolve(value);
  assign();
}

function report(call, progress) {
  if (call.isOver) return;
  try {
    call.onProgress(progress);
  } catch (cause) {
    leave(call, cause);
  }
}

// An idle worker doesn't keep the program from ending.
function rest(worker) {
  worker.call = undefined;
  worker.unref?.();
  worker.timer = setTimeout(end, IDLE_MS, worker);
  worker.timer.unref?.();
  idle.push(worker);
}

const starting = () => [...workers].filter((worker) => !worker.isReady).length;

// FIFO. But of the calls that only a signal ends, those that have waited long in an overload are
// about to be aborted, and then their work is lost: while more than two calls wait for each worker,
// the newest of them starts first (LIFO), in turns with the oldest of the others, so that neither
// starve. A timeout ends no call that has started.
let isTurnOfOthers = false;
function next() {
  if (waiting.length <= 2 * workers.size) return waiting.shift();
  isTurnOfOthers = !isTurnOfOthers;
  const oldest = waiting.findIndex((call) => !call.isEndedBySignal);
  const newest = waiting.findLastIndex((call) => call.isEndedBySignal);
  const isOldest = newest < 0 || (oldest >= 0 && isTurnOfOthers);
  return waiting.splice(isOldest ? oldest : newest, 1)[0];
}

// Gives waiting calls to idle workers, and starts more workers.
function assign() {
  while (idle.length > 0 && waiting.length > 0) give(idle.pop(), next());
  while (!isFull && workers.size < maxWorkers && waiting.length > starting()) started();
}

function give(worker, call) {
  clearTimeout(worker.timer);
  clearTimeout(call.timer);
  worker.ref?.();
  worker.call = call;
  call.worker = worker;
  const { module, name, args } = call;
  const message = { name, args, isReporting: call.onProgress !== undefined };
  if (worker.module !== module) message.module = module;
  try {
    worker.postMessage(message, bytesAmong(args).map((bytes) => bytes.buffer));
    worker.module = module;
  } catch (cause) {
    rest(worker);
    call.reject(outOfMemory(cause)); // no memory to copy the message
  }
}

// Browsers give no reason if the page's policy forbids workers, or if the script is missing. The
// script's name is written differently from above, because bundlers would look for it here too.
function failed(cause) {
  const address = String(import.meta.url).replace(/[^/]*$/, 'worker.js');
  const reason = cause.message || 'is it there, and allowed here?';
  const message = `${address} did not start, or ended: ${reason}`;
  return new ScryptError('WORKER_FAILED', message, { cause });
}

function enqueue(call) {
  waiting.push(call);
  assign();
  const isLast = waiting.at(-1) === call;
  if (isLast && waiting.length > maxWaiting + starting()) {
    const message = `${maxWaiting} calls wait for a worker already (maxWaiting)`;
    leave(call, new ScryptError('BUSY', message));
  }
}

// A call that has started in a worker ends between two steps, so that the worker and its memory
// stay available for the next call.
function leave(call, reason) {
  call.isOver = true;
  if (waiting.includes(call)) waiting.splice(waiting.indexOf(call), 1);
  if (call.worker?.call === call) call.worker.postMessage({ isAborted: true });
  call.reject(reason);
}

// The calls of each signal, which has one listener: Node warns of a leak if it has more than ten.
const ofSignals = new WeakMap();

function listen(signal, call) {
  if (!ofSignals.has(signal)) {
    const calls = Object.assign(new Set(), { end: () => calls.forEach((it) => leave(it, signal.reason)) });
    ofSignals.set(signal, calls);
    signal.addEventListener('abort', calls.end);
  }
  ofSignals.get(signal).add(call);
}

function unlisten(signal, call) {
  const calls = ofSignals.get(signal);
  calls.delete(call);
  if (calls.size > 0) return;
  signal.removeEventListener('abort', calls.end);
  ofSignals.delete(signal);
}

// Until the call is answered, rejected or aborted: also while the module is fetched, and while the
// call waits for a worker.
async function answer(call, signal, timeout) {
  const answered = new Promise((resolve, reject) => { Object.assign(call, { resolve, reject }); });
  call.isEndedBySignal = signal !== undefined && timeout === Infinity;
  const message = `no worker was free within ${timeout} ms (timeout)`;
  const onTimeout = () => leave(call, new ScryptError('TIMEOUT', message));
  if (signal) listen(signal, call);
  if (timeout < Infinity) call.timer = setTimeout(onTimeout, Math.min(timeout, MAX_TIMER));
  compile().then((module) => {
    if (!call.isOver) enqueue(Object.assign(call, { module }));
  }, call.reject);
  try {
    return await answered;
  } finally {
    clearTimeout(call.timer);
    if (signal) unlisten(signal, call);
  }
}

/** Calls a method of Scrypt in a worker. The bytes of `args` are transferred. */
export async function call(name, args, { signal, timeout, onProgress }) {
  try {
    signal?.throwIfAborted();
    const request = { name, args, onProgress, isOver: false };
    return await answer(request, signal, amount(timeout, 'timeout', usualTimeout));
  } finally {
    for (const bytes of bytesAmong(args)) if (bytes.length > 0) bytes.fill(0); // that no worker got
  }
}
