// scryptROMix (RFC 7914, sections 3 to 5) in plain JavaScript, with the words of a block in variables.

const rotated = (x, n) => (x << n) | (x >>> (32 - n));

// Writes the Salsa20/8 core of 16 words of `last` xor 16 words of `from` to `to`.
function core(last, before, from, at, to, place) {
  let a = last[before] ^ from[at], b = last[before + 1] ^ from[at + 1], c = last[before + 2] ^ from[at + 2], d = last[before + 3] ^ from[at + 3];
  let e = last[before + 4] ^ from[at + 4], f = last[before + 5] ^ from[at + 5], g = last[before + 6] ^ from[at + 6], h = last[before + 7] ^ from[at + 7];
  let i = last[before + 8] ^ from[at + 8], j = last[before + 9] ^ from[at + 9], k = last[before + 10] ^ from[at + 10], l = last[before + 11] ^ from[at + 11];
  let m = last[before + 12] ^ from[at + 12], n = last[before + 13] ^ from[at + 13], o = last[before + 14] ^ from[at + 14], p = last[before + 15] ^ from[at + 15];
  to[place] = a; to[place + 1] = b; to[place + 2] = c; to[place + 3] = d;
  to[place + 4] = e; to[place + 5] = f; to[place + 6] = g; to[place + 7] = h;
  to[place + 8] = i; to[place + 9] = j; to[place + 10] = k; to[place + 11] = l;
  to[place + 12] = m; to[place + 13] = n; to[place + 14] = o; to[place + 15] = p;
  for (let round = 0; round < 4; round++) {
    e ^= rotated((a + m) | 0, 7); i ^= rotated((e + a) | 0, 9); m ^= rotated((i + e) | 0, 13); a ^= rotated((m + i) | 0, 18);
    j ^= rotated((f + b) | 0, 7); n ^= rotated((j + f) | 0, 9); b ^= rotated((n + j) | 0, 13); f ^= rotated((b + n) | 0, 18);
    o ^= rotated((k + g) | 0, 7); c ^= rotated((o + k) | 0, 9); g ^= rotated((c + o) | 0, 13); k ^= rotated((g + c) | 0, 18);
    d ^= rotated((p + l) | 0, 7); h ^= rotated((d + p) | 0, 9); l ^= rotated((h + d) | 0, 13); p ^= rotated((l + h) | 0, 18);
    b ^= rotated((a + d) | 0, 7); c ^= rotated((b + a) | 0, 9); d ^= rotated((c + b) | 0, 13); a ^= rotated((d + c) | 0, 18);
    g ^= rotated((f + e) | 0, 7); h ^= rotated((g + f) | 0, 9); e ^= rotated((h + g) | 0, 13); f ^= rotated((e + h) | 0, 18);
    l ^= rotated((k + j) | 0, 7); i ^= rotated((l + k) | 0, 9); j ^= rotated((i + l) | 0, 13); k ^= rotated((j + i) | 0, 18);
    m ^= rotated((p + o) | 0, 7); n ^= rotated((m + p) | 0, 9); o ^= rotated((n + m) | 0, 13); p ^= rotated((o + n) | 0, 18);
  }
  to[place] += a; to[place + 1] += b; to[place + 2] += c; to[place + 3] += d;
  to[place + 4] += e; to[place + 5] += f; to[place + 6] += g; to[place + 7] += h;
  to[place + 8] += i; to[place + 9] += j; to[place + 10] += k; to[place + 11] += l;
  to[place + 12] += m; to[place + 13] += n; to[place + 14] += o; to[place + 15] += p;
}

// The block mix of `from` at `at`, in `to` at `place`.
function mix(from, at, to, place, r) {
  let [last, before] = [from, at + 32 * r - 16];
  for (let i = 0; i < 2 * r; i++) {
    const next = place + 16 * ((i >> 1) + (i & 1) * r);
    core(last, before, from, at + 16 * i, to, next);
    last = to;
    before = next;
  }
}

/** The words of a chunk become their scryptROMix. */
export function roMix(words, N, r) {
  const length = 32 * r;
  const table = new Int32Array(length * N);
  const y = new Int32Array(length);
  table.set(words);
  for (let i = 1; i < N; i++) mix(table, length * (i - 1), table, length * i, r);
  mix(table, length * (N - 1), words, 0, r);
  for (let i = 0; i < N; i++) {
    const row = length * (words[length - 16] & (N - 1));
    for (let k = 0; k < length; k++) y[k] = words[k] ^ table[row + k];
    mix(y, 0, words, 0, r);
  }
}
