// Runs the checks in a page, and sends the results to the server.
import { checks } from './checks.js';

const said = [navigator.userAgent];
const cases = await (await fetch('/build/wasm/cases.json')).json();
for (const [name, check] of Object.entries(checks(cases))) {
  said.push(await check().then(() => `ok ${name}`, (error) => `FAILED ${name}: ${error.message}`));
}
said.push(said.some((it) => it.startsWith('FAILED')) ? 'failed' : 'all passed');
await fetch('/said', { method: 'POST', body: `${said.join('\n')}\n` });
