// Imported first in Node (package.json, "node"), so that a page's bundle has none of this.
import { webcrypto } from 'node:crypto';
import { readFile } from 'node:fs/promises';
import * as os from 'node:os';
import { Worker, parentPort } from 'node:worker_threads';
import { host } from './host.js';

Object.assign(host, { os, readFile, port: parentPort, crypto: webcrypto });

/** Starts node_worker.js without the program's flags: `--input-type` is an error if a file is run. */
host.start = () => new Worker(new URL('./node_worker.js', import.meta.url), { execArgv: [] });
