// What Node has and a page has not: node_host.js sets it, before the other files are run.
/** Node's file system, `os`, threads and random numbers; empty in a page. */
export const host = {};
