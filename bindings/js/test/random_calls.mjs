// Answers random_calls.py: each case has what is written to memory, and calls. The answer has their
// statuses, and a hash of the memory after them.
import { createHash } from 'node:crypto';
import { readFileSync } from 'node:fs';
import { createInterface } from 'node:readline';

const [, , file, size] = process.argv;
const { exports } = new WebAssembly.Instance(new WebAssembly.Module(readFileSync(file)));
const base = Math.ceil(Number(exports.__heap_base.value) / 64) * 64;
exports.memory.grow(Math.ceil(size / 65536) + 1);
const memory = Buffer.from(exports.memory.buffer, base, Number(size));

// 7 is a number of 32 bits, "7" one of 64, and "@7" an address.
const number = (it) => (it[0] === '@' ? BigInt(base) + BigInt(it.slice(1)) : BigInt(it));

function status([name, ...args]) {
  try {
    return exports[name](...args.map((it) => (typeof it === 'number' ? it : number(it))));
  } catch (error) {
    return error.message;
  }
}

function answer({ written, calls, unspecified }) {
  memory.fill(0);
  for (const [at, hex] of written) memory.write(hex, at, 'hex');
  const statuses = calls.map(status);
  memory.fill(0, ...unspecified);
  return [statuses, createHash('sha1').update(memory).digest('hex')];
}

for await (const line of createInterface(process.stdin)) console.log(JSON.stringify(JSON.parse(line).map(answer)));
