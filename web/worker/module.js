// The proved module: its memory, what is put there, and the text that a call makes.
'use strict';
const MEMORY_PAGE = 65536, STEP = 1 << 20, TOLD = 64, ROOM = 1 << 20;
const DONE = 0, TOO_SMALL = 2, WRONG_TABLE = 4;
const REFUSALS = { 1: 'out of memory', 3: 'that is no name of an interface' };

let compiled = null;

// What is compressed (gzip), as the module is in the page.
const inflated = bytes => new Response(new Blob([bytes]).stream().pipeThrough(new DecompressionStream('gzip')));

function grow(memory, bytes) {
  const pages = Math.ceil((bytes - memory.buffer.byteLength) / MEMORY_PAGE);
  if (pages > 0) memory.grow(BigInt(pages));
}

// An instance of its own for each log: its memory goes with it.
function instance() {
  const it = new WebAssembly.Instance(compiled, {}).exports;
  const told = (Number(it.__heap_base.value) + 15) & ~15;
  grow(it.memory, told + TOLD + MEMORY_PAGE);
  return { it, told, free: told + TOLD };
}

const textIn = bytes => new TextDecoder().decode(bytes);
const NEWLINE = 10;
const letters = bytes => new TextDecoder('latin1').decode(bytes); // one for each byte

function counts(it, told) {
  const [frames, other, unread, messages, lines, bytes] = [...new BigUint64Array(it.memory.buffer, told, 6)].map(Number);
  return { frames, other, unread, messages, lines, bytes };
}

// Reads a file into a buffer that it is handed; in a browser that can't, each piece comes in one of its own.
function readerOf(file) {
  const stream = file.stream();
  try {
    return stream.getReader({ mode: 'byob' });
  } catch {
    return stream.getReader();
  }
}

// Puts the file into the module's memory piece by piece, by way of one buffer: pieces of their own would lie there as a second
// copy of the file until the browser clears them away.
async function load(file, at, memory, tell) {
  const reader = readerOf(file);
  let buffer = new ArrayBuffer(STEP);
  for (let i = 0; ;) {
    const { done, value } = await reader.read(new Uint8Array(buffer));
    if (done) return;
    new Uint8Array(memory.buffer, at + i, value.length).set(value);
    i += value.length;
    buffer = value.buffer;
    tell(i, file.size);
  }
}

// Puts bytes into the module's memory behind what is there.
function put(place, bytes) {
  const slice = { at: place.free, size: bytes.length };
  place.free += (bytes.length + 7) & ~7;
  grow(place.it.memory, place.free);
  new Uint8Array(place.it.memory.buffer, slice.at, slice.size).set(bytes);
  return slice;
}

// Calls with what was put into the memory, a slice or, where it has no size, a place, and a room behind it, a longer one where
// it is too small. The text is in the module's memory, and stays there until the next call.
function textOf({ it, told, free }, call, slices, room, besides = DONE) {
  const given = slices.flatMap(({ at, size }) => size === undefined ? [BigInt(at)] : [BigInt(at), BigInt(size)]);
  for (let most = room; ; most *= 2) {
    grow(it.memory, free + most);
    const answer = it[call](...given, BigInt(free), BigInt(most), BigInt(told));
    if (answer === DONE || answer === besides) {
      const made = counts(it, told);
      return { answer, counts: made, bytes: new Uint8Array(it.memory.buffer, free, made.bytes) };
    }
    if (answer !== TOO_SMALL) throw new Error(REFUSALS[answer] || 'answer ' + answer);
  }
}
