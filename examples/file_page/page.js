import { decrypt, encrypt, paramsOf } from './scrypt_file.js';

const MAX_FILE_LEN = 2 ** 28; // of a file: the page has three copies of it in memory
const form = document.forms[0];
const { file, password, again, memory, go, cancel } = form.elements;
const [fieldset, drop, progress, output] = ['fieldset', '#drop', 'progress', 'output'].map((it) =>
  document.querySelector(it));

const inWords = (number) => number.toLocaleString('en');
const inMiB = (bytes) => `${inWords(bytes / 2 ** 20)} MiB`;
const costOf = ({ N, r, p }) => `takes ${inMiB(128 * N * r)}, N * r * p = ${inWords(N * r * p)}`;

let chosen; // the name, the bytes and, if it is encrypted, the parameters of a file
let controller;

async function choose([given]) {
  if (!given) return;
  [go.disabled, output.textContent] = [true, ''];
  drop.lastChild.textContent = given.name;
  const current = { name: given.name };
  chosen = current;
  try {
    if (given.size > MAX_FILE_LEN) throw new Error(`This file has more than ${inMiB(MAX_FILE_LEN)}.`);
    const bytes = new Uint8Array(await given.arrayBuffer());
    const params = await paramsOf(bytes);
    if (chosen !== current) return; // another file has been chosen
    Object.assign(current, { bytes, params });
    if (params) drop.lastChild.textContent += `\n${costOf(params)}`;
    go.textContent = params ? 'Open' : 'Encrypt';
    again.parentElement.hidden = params !== null;
    go.disabled = false;
  } catch (error) {
    if (chosen === current) output.textContent = error.message;
  }
}

// Without a fraction, as while the worker starts, the bar is indeterminate.
function showProgress(fraction) {
  if (fraction === undefined) progress.removeAttribute('value');
  else progress.value = fraction;
}

function setBusy(isBusy) {
  fieldset.disabled = isBusy;
  progress.hidden = cancel.hidden = !isBusy;
  showProgress();
}

function messageOf(error) {
  if (error.name === 'AbortError') return 'Cancelled.';
  if (error.code !== 'TOO_COSTLY') return error.message;
  const limit = Number(memory.value);
  return `Rejected: the limits are ${inMiB(limit)}, N * r * p = ${inWords(limit / 32)}.`;
}

async function run({ name, bytes, params }) {
  if (!params && password.value !== again.value) throw new Error('The passwords differ.');
  const { signal } = controller;
  const options = { memory: Number(memory.value), signal, onProgress: showProgress };
  const result = await (params ? decrypt : encrypt)(bytes, password.value, options);
  const link = document.createElement('a');
  link.download = params ? name.replace(/\.scrypt$/, '') : `${name}.scrypt`;
  link.href = URL.createObjectURL(new Blob([result]));
  link.textContent = `Save ${link.download}`;
  output.replaceChildren(params ? 'Opened. ' : 'Encrypted. ', link);
}

form.onsubmit = async (event) => {
  event.preventDefault();
  URL.revokeObjectURL(output.querySelector('a')?.href);
  output.textContent = '';
  controller = new AbortController();
  setBusy(true);
  await run(chosen).catch((error) => { output.textContent = messageOf(error); });
  setBusy(false);
};

cancel.onclick = () => controller.abort();
file.onchange = () => choose(file.files);
document.ondragover = (event) => event.preventDefault();
document.ondrop = (event) => {
  event.preventDefault();
  if (!fieldset.disabled) choose(event.dataTransfer.files);
};
