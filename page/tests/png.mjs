// Makes a PNG of a browser's picture that has at most 256 colours, so that it stays small.
import zlib, { deflateSync, inflateSync } from "node:zlib";

// The checksum of a part, which older nodes don't have.
function crc32(bytes) {
  if (zlib.crc32) return zlib.crc32(bytes);
  let sum = ~0;
  for (const byte of bytes) {
    sum ^= byte;
    for (let i = 0; i < 8; i += 1) sum = (sum >>> 1) ^ (sum & 1 ? 0xedb88320 : 0);
  }
  return ~sum >>> 0;
}

function partsOf(png) {
  const parts = [];
  for (let at = 8; at < png.length; ) {
    const length = png.readUInt32BE(at);
    parts.push({ name: png.toString("latin1", at + 4, at + 8), bytes: png.subarray(at + 8, at + 8 + length) });
    at += length + 12;
  }
  return parts;
}

function part(name, bytes) {
  const made = Buffer.alloc(bytes.length + 12);
  made.writeUInt32BE(bytes.length, 0);
  made.write(name, 4, "latin1");
  bytes.copy(made, 8);
  made.writeUInt32BE(crc32(made.subarray(4, bytes.length + 8)), bytes.length + 8);
  return made;
}

function paeth(left, above, corner) {
  const sum = left + above - corner;
  const [a, b, c] = [left, above, corner].map((it) => Math.abs(sum - it));
  return a <= b && a <= c ? left : b <= c ? above : corner;
}

// The bytes of the picture's points, row by row.
function points(parts, width, height, size) {
  const data = inflateSync(Buffer.concat(parts.filter((it) => it.name === "IDAT").map((it) => it.bytes)));
  const row = width * size, out = Buffer.alloc(row * height);
  for (let y = 0; y < height; y += 1) {
    const filter = data[y * (row + 1)];
    for (let x = 0; x < row; x += 1) {
      const left = x < size ? 0 : out[y * row + x - size], above = y === 0 ? 0 : out[(y - 1) * row + x];
      const corner = x < size || y === 0 ? 0 : out[(y - 1) * row + x - size];
      const guess = [0, left, above, (left + above) >> 1, paeth(left, above, corner)][filter];
      out[y * row + x] = data[y * (row + 1) + 1 + x] + guess;
    }
  }
  return out;
}

// Each point by the number of its colour, where colours that have the same first bits count as one: the most frequent of these.
function coloured(out, size, bits) {
  const mask = (0xff << (8 - bits)) & 0xff, kinds = new Map(), found = Buffer.alloc(out.length / size);
  for (let i = 0; i < found.length; i += 1) {
    const [r, g, b] = out.subarray(i * size, i * size + 3);
    const kind = ((r & mask) << 16) | ((g & mask) << 8) | (b & mask), colour = (r << 16) | (g << 8) | b;
    if (!kinds.has(kind)) kinds.set(kind, { number: kinds.size, counts: new Map() });
    if (kinds.size > 256) return null;
    const { number, counts } = kinds.get(kind);
    counts.set(colour, (counts.get(colour) || 0) + 1);
    found[i] = number;
  }
  const chosen = [...kinds.values()].map(({ counts }) => [...counts].sort((a, b) => b[1] - a[1])[0][0]);
  return { found, palette: Buffer.from(chosen.flatMap((it) => [it >> 16, (it >> 8) & 255, it & 255])) };
}

export function smaller(png) {
  const parts = partsOf(png), head = Buffer.from(parts[0].bytes);
  const width = head.readUInt32BE(0), height = head.readUInt32BE(4), size = head[9] === 6 ? 4 : 3;
  const out = points(parts, width, height, size);
  for (let bits = 8; bits > 2; bits -= 1) {
    const made = coloured(out, size, bits);
    if (!made) continue;
    const rows = Buffer.alloc((width + 1) * height);
    for (let y = 0; y < height; y += 1) made.found.copy(rows, y * (width + 1) + 1, y * width, (y + 1) * width);
    head[9] = 3;
    return Buffer.concat([png.subarray(0, 8), part("IHDR", head), part("PLTE", made.palette), part("IDAT", deflateSync(rows, { level: 9 })), part("IEND", Buffer.alloc(0))]);
  }
  return png;
}
