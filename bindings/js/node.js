// The entry in Node.
import './node_host.js';

export * from './index.js';
