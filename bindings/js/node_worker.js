// worker.js in Node.
import './node_host.js';
import './worker.js';
