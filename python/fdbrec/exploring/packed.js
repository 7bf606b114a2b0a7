"use strict";
// What bench/explore packed: one text, or, of a long run, bytes in parts, of which each is read where it is needed.

const WIDTHS = { u1: Uint8Array, u2: Uint16Array, i4: Int32Array, f8: Float64Array };
const UTF8 = new TextDecoder();

/** Values by number, in blocks of texts: a block is parsed where a value of it is first asked for. */
class Blocks {
  constructor(bytes, { block, count, places }) {
    Object.assign(this, { bytes, block, length: count, places, parsed: new Array(places.length - 1).fill(null) });
  }
  at(number) {
    const place = Math.floor(number / this.block);
    this.parsed[place] ??= this.parse(place);
    return this.parsed[place][number - place * this.block];
  }
  parse(place) {
    return JSON.parse(UTF8.decode(this.bytes.subarray(this.places[place], this.places[place + 1])));
  }
}

/** The run that the page holds. */
async function unpacked({ dataset, textContent: text }) {
  if (dataset.form !== "deflate") return JSON.parse(text);
  const inflated = new Blob([bytesOf(text)]).stream().pipeThrough(new DecompressionStream("deflate"));
  return partsOf(await new Response(inflated).arrayBuffer());
}

function bytesOf(base64) {
  if (Uint8Array.fromBase64) return Uint8Array.fromBase64(base64);
  const letters = atob(base64), bytes = new Uint8Array(letters.length);
  for (let at = 0; at < letters.length; at++) bytes[at] = letters.charCodeAt(at);
  return bytes;
}

/** How long the head is, the head, and behind it columns and tables: columns stand as a browser has numbers. */
function partsOf(buffer) {
  const begin = 4 + new DataView(buffer).getUint32(0, true), body = new Uint8Array(buffer, begin);
  const { columns, tables, ...run } = JSON.parse(UTF8.decode(new Uint8Array(buffer, 4, begin - 4)));
  run.entries = {};
  for (const name in columns) {
    const [place, count, wide] = columns[name], numbers = new WIDTHS[wide](buffer, begin + place, count);
    if (name.startsWith("entries.")) run.entries[name.slice(8)] = numbers;
    else run[name] = numbers;
  }
  for (const name in tables) run[name] = new Blocks(body, tables[name]);
  return run;
}
