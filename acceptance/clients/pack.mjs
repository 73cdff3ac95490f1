// As much of MessagePack as the session needs, by its specification, and the lengths before a hub's frames.

/** A value in its shortest spelling. Texts, lists and maps are short here, and numbers below 128. */
export function packed(value) {
  if (value === null) return Buffer.of(0xc0);
  if (Number.isInteger(value) && value >= 0 && value < 128) return Buffer.of(value);
  if (typeof value === "string" && Buffer.byteLength(value) < 32) {
    return Buffer.concat([Buffer.of(0xa0 + Buffer.byteLength(value)), Buffer.from(value)]);
  }
  if (Array.isArray(value) && value.length < 16) return Buffer.concat([Buffer.of(0x90 + value.length), ...value.map(packed)]);
  const parts = Object.entries(value).flat();
  if (parts.length < 32) return Buffer.concat([Buffer.of(0x80 + parts.length / 2), ...parts.map(packed)]);
  throw new Error(`not packed: ${value}`);
}

/** The value that begins at a place, and the place after it. */
export function unpacked(data, at = 0) {
  const mark = data[at];
  at += 1;
  if (mark < 0x80) return [mark, at];
  if (mark < 0x90) return pairs(data, at, mark - 0x80);
  if (mark < 0xa0) return several(data, at, mark - 0x90);
  if (mark < 0xc0) return [String(data.subarray(at, at + mark - 0xa0)), at + mark - 0xa0];
  if (mark === 0xc0) return [null, at];
  throw new Error(`the mark ${mark}`);
}

function several(data, at, count) {
  const values = [];
  for (let n = 0; n < count; n += 1) {
    const [value, after] = unpacked(data, at);
    values.push(value);
    at = after;
  }
  return [values, at];
}

function pairs(data, at, count) {
  const [flat, after] = several(data, at, 2 * count);
  const entries = Array.from({ length: count }, (_, n) => flat.slice(2 * n, 2 * n + 2));
  return [Object.fromEntries(entries), after];
}

/** A frame after its length: 7 bits a byte, the lowest first, and the top bit for "more". */
export function framed(body) {
  const length = [];
  let size = body.length;
  for (; size > 127; size = Math.floor(size / 128)) length.push((size % 128) + 128);
  return Buffer.concat([Buffer.of(...length, size), body]);
}

/** The frames of a message that has whole ones. */
export function* frames(data) {
  for (let at = 0; at < data.length; ) {
    let size = 0;
    let unit = 1;
    for (; data[at] > 127; at += 1, unit *= 128) size += (data[at] - 128) * unit;
    size += data[at] * unit;
    yield data.subarray(at + 1, at + 1 + size);
    at += 1 + size;
  }
}
