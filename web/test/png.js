// Makes a picture small: a PNG of true colours becomes one of at most 256, chosen by the median cut.
'use strict';
const zlib = require('zlib');

function chunks(file) {
  const list = [];
  for (let at = 8; at < file.length; ) {
    const length = file.readUInt32BE(at);
    list.push({ type: file.toString('latin1', at + 4, at + 8), data: file.subarray(at + 8, at + 8 + length) });
    at += 12 + length;
  }
  return list;
}

// Width, height and the colours, three bytes each.
function read(file) {
  const parts = chunks(file);
  const head = parts.find((c) => c.type === 'IHDR').data;
  const width = head.readUInt32BE(0);
  const height = head.readUInt32BE(4);
  const bytes = head[9] === 6 ? 4 : 3;
  if (head[8] !== 8 || (head[9] !== 2 && head[9] !== 6) || head[12] !== 0) throw new Error('no picture of 8 bits a colour');
  const raw = zlib.inflateSync(Buffer.concat(parts.filter((c) => c.type === 'IDAT').map((c) => c.data)));
  const wide = width * bytes;
  const rows = Buffer.alloc(height * wide);
  for (let y = 0; y < height; y += 1) {
    const kind = raw[y * (wide + 1)];
    for (let x = 0; x < wide; x += 1) {
      const left = x >= bytes ? rows[y * wide + x - bytes] : 0;
      const up = y ? rows[(y - 1) * wide + x] : 0;
      const corner = y && x >= bytes ? rows[(y - 1) * wide + x - bytes] : 0;
      const p = left + up - corner;
      const near = Math.abs(p - left) <= Math.abs(p - up) && Math.abs(p - left) <= Math.abs(p - corner) ? left : Math.abs(p - up) <= Math.abs(p - corner) ? up : corner;
      rows[y * wide + x] = raw[y * (wide + 1) + 1 + x] + [0, left, up, (left + up) >> 1, near][kind];
    }
  }
  const colours = new Uint8Array(width * height * 3);
  for (let i = 0; i < width * height; i += 1) for (let c = 0; c < 3; c += 1) colours[3 * i + c] = rows[i * bytes + c];
  return { width, height, colours };
}

const keyOf = (colours, i) => (colours[3 * i] << 16) | (colours[3 * i + 1] << 8) | colours[3 * i + 2];

// At most `many` colours: the box with the most to lose is cut at its middle, again and again.
function palette(counts, many) {
  const part = (key, c) => (key >> (16 - 8 * c)) & 255;
  const box = (list) => {
    const spans = [0, 1, 2].map((c) => {
      const values = list.map(([key]) => part(key, c));
      return Math.max(...values.slice(0, 1), ...minMax(values)) - minMax(values)[0];
    });
    const axis = spans.indexOf(Math.max(...spans));
    const weight = list.reduce((n, [, count]) => n + count, 0);
    return { list, axis, worth: spans[axis] * Math.sqrt(weight) };
  };
  const minMax = (values) => values.reduce(([a, b], v) => [Math.min(a, v), Math.max(b, v)], [255, 0]);
  const boxes = [box([...counts])];
  while (boxes.length < many) {
    boxes.sort((a, b) => b.worth - a.worth);
    if (boxes[0].list.length < 2) break;
    const { list, axis } = boxes.shift();
    list.sort(([a], [b]) => part(a, axis) - part(b, axis));
    const half = list.reduce((n, [, count]) => n + count, 0) / 2;
    let sum = 0;
    let cut = 0;
    while (cut < list.length - 1 && sum + list[cut][1] <= half) sum += list[cut++][1];
    cut = Math.max(1, cut);
    boxes.push(box(list.slice(0, cut)), box(list.slice(cut)));
  }
  return boxes.map(({ list }) => {
    const weight = list.reduce((n, [, count]) => n + count, 0);
    return [0, 1, 2].map((c) => Math.round(list.reduce((n, [key, count]) => n + part(key, c) * count, 0) / weight));
  });
}

function crc(data) {
  let c = -1;
  for (const byte of data) {
    c ^= byte;
    for (let k = 0; k < 8; k += 1) c = c & 1 ? (c >>> 1) ^ 0xedb88320 : c >>> 1;
  }
  return (c ^ -1) >>> 0;
}

function chunk(type, data) {
  const body = Buffer.concat([Buffer.from(type, 'latin1'), data]);
  const out = Buffer.alloc(body.length + 8);
  out.writeUInt32BE(data.length, 0);
  body.copy(out, 4);
  out.writeUInt32BE(crc(body), body.length + 4);
  return out;
}

function smaller(file) {
  const { width, height, colours } = read(file);
  const counts = new Map();
  for (let i = 0; i < width * height; i += 1) counts.set(keyOf(colours, i), (counts.get(keyOf(colours, i)) || 0) + 1);
  const chosen = palette(counts, 256);
  const nearest = new Map();
  const find = (key) => {
    const [r, g, b] = [key >> 16, (key >> 8) & 255, key & 255];
    let best = 0;
    let least = Infinity;
    chosen.forEach(([x, y, z], i) => {
      const far = (x - r) ** 2 + (y - g) ** 2 + (z - b) ** 2;
      if (far < least) [least, best] = [far, i];
    });
    return best;
  };
  const raw = Buffer.alloc(height * (width + 1));
  for (let y = 0; y < height; y += 1) {
    for (let x = 0; x < width; x += 1) {
      const key = keyOf(colours, y * width + x);
      if (!nearest.has(key)) nearest.set(key, find(key));
      raw[y * (width + 1) + 1 + x] = nearest.get(key);
    }
  }
  const head = Buffer.alloc(13);
  head.writeUInt32BE(width, 0);
  head.writeUInt32BE(height, 4);
  head.set([8, 3, 0, 0, 0], 8);
  return Buffer.concat([
    Buffer.from([137, 80, 78, 71, 13, 10, 26, 10]), chunk('IHDR', head), chunk('PLTE', Buffer.from(chosen.flat())), chunk('IDAT', zlib.deflateSync(raw, { level: 9 })), chunk('IEND', Buffer.alloc(0)),
  ]);
}

module.exports = { smaller, read };
