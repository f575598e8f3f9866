// The module: its source, and whether this engine can run it.
import { Scrypt } from './core.js';
import { ScryptError } from './errors.js';
import { host } from './host.js';

// A module of one function, which makes a SIMD vector.
const VECTOR = Uint8Array.of(
  0, 97, 115, 109, 1, 0, 0, 0, 1, 5, 1, 96, 0, 1, 123, 3, 2, 1, 0, 10, 8, 1, 6, 0, 65, 0, 253, 15,
  11,
);

/** Whether this engine has WebAssembly with SIMD. */
export const isSupported = () => typeof WebAssembly === 'object' && WebAssembly.validate(VECTOR);

const node = globalThis.process?.versions?.node;

function checkSupported() {
  if (host.os && parseInt(node, 10) < 18) {
    throw new ScryptError('LOAD_FAILED', `scrypt-proved needs Node 18 or later, this is ${node}`);
  }
  if (isSupported()) return;
  throw new ScryptError('UNSUPPORTED', 'this engine lacks WebAssembly with vectors (SIMD), which '
    + 'Chrome 91, Firefox 89, Safari 16.4 and Node 18 have');
}

let lastLoaded = Promise.resolve(); // the module of the last source, if there was one
let packaged; // the module of this package's file

/**
 * The module that calls use: once a source is being loaded, its module if it can be loaded,
 * otherwise the previous module.
 */
export async function compile() {
  checkSupported();
  return (await lastLoaded) ?? ownModule();
}

// Bundlers look for exactly this expression. One that doesn't may leave no address of the bundle.
function ownAddress() {
  try {
    return new URL('./scrypt.wasm', import.meta.url);
  } catch (cause) {
    const message = 'scrypt.wasm is not beside this bundle: see "In a page" in README';
    throw new ScryptError('LOAD_FAILED', message, { cause });
  }
}

async function ownModule() {
  packaged ??= compileFrom(ownAddress());
  const found = packaged;
  try {
    return await found;
  } catch (error) {
    if (packaged === found) packaged = undefined; // the next call tries again
    throw error;
  }
}

// In another realm, such as a frame, it has another class.
function isModule(source) {
  try {
    WebAssembly.Module.exports(source);
    return true;
  } catch {
    return false;
  }
}

async function compileFrom(source) {
  try {
    if (isModule(source)) return source;
    if (source instanceof URL || typeof source === 'string') return await compileAt(String(source));
    return await WebAssembly.compile(source);
  } catch (cause) {
    throw new ScryptError('LOAD_FAILED', `scrypt.wasm was not loaded: ${cause.message}`, { cause });
  }
}

async function compileAt(address) {
  try {
    return await WebAssembly.compile(await bytesAt(address));
  } catch (cause) {
    const hint = node && !host.readFile ? ' (in Node: import node.js, or bundle for platform node)' : '';
    throw new Error(`${address}: ${cause.message}${hint}`, { cause });
  }
}

async function bytesAt(address) {
  if (host.readFile && address.startsWith('file:')) return host.readFile(new URL(address));
  const response = await fetch(address);
  if (!response.ok) throw new Error(`status ${response.status}`);
  return response.arrayBuffer();
}

async function opened(source) {
  const module = await compileFrom(source);
  return { module, scrypt: await Scrypt.of(module) };
}

/** Loads the module for calls in this thread. With a source, all later calls use that module too,
 * unless it cannot be loaded. */
export async function load(source) {
  checkSupported();
  if (source === undefined) return Scrypt.of(await compile());
  const loaded = opened(source);
  const before = lastLoaded;
  lastLoaded = loaded.then(({ module }) => module, () => before);
  return (await loaded).scrypt;
}
