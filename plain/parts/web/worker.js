"use strict";
// Has the image that is open, in a WebAssembly module of its own. When another image is opened this worker is ended, and its memory with it.

let wasm;

const bytesAt = (at, count) => new Uint8Array(wasm.memory.buffer, at >>> 0, count);
const answer = () => bytesAt(wasm.answer(), wasm.answer_size()).slice();
// (all that a command says is ASCII)
const said = () => new TextDecoder("latin1").decode(answer());

function putWords(words) {
  const text = new TextEncoder().encode(words.join("\n"));
  const at = wasm.words(text.length);
  if (!at) throw new Error("no memory");
  bytesAt(at, text.length).set(text);
}

function command(words, at, onCopy) {
  putWords(words);
  const status = wasm.command(at, onCopy);
  return { status, lines: said().split("\n").filter(line => line) };
}

const DOES = {
  async open({ module, image }) {
    wasm = (await WebAssembly.instantiate(module)).exports;
    const at = wasm.room(image.byteLength);
    if (!at) throw new Error("no memory");
    bytesAt(at, image.byteLength).set(new Uint8Array(image));
  },

  detect: () => command(["detect", "image"], 0, false),

  list: ({ numbers, at, onCopy }) => command(["list", ...numbers], at, onCopy),

  picture({ numbers, at, onCopy }) {
    putWords(["list", ...numbers]);
    const status = wasm.picture(at, onCopy);
    return { status, bytes: answer() };
  },

  read({ numbers, at, onCopy, id }) {
    putWords(["list", ...numbers]);
    const status = wasm.read(at, onCopy, id);
    return { status, bytes: answer() };
  },

  check({ numbers, at, least, block }) {
    const status = wasm.copy(least);
    if (status !== 0) return { status, lines: [], changed: 0 };
    const told = command(["check", ...numbers], at, true);
    return { ...told, changed: wasm.changed(at, block) };
  },

  copied: () => bytesAt(wasm.copied(), wasm.copied_size()).slice(),
};

onmessage = async ({ data: { number, what, asked } }) => {
  try {
    postMessage({ number, told: await DOES[what](asked) });
  } catch (why) {
    postMessage({ number, why: `${why}` });
  }
};
