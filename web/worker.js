// @ts-check
// Runs calls of the engine, one by one. The first message has the engine, each later one a call. Each call gets one reply:
// its status and its bytes, or that it failed.
'use strict';
// The room for the engine's result, in bytes.
const ROOM = 1 << 22;
const MEMORY_PAGE = 65536;
/** @type {Record<string, (call: Call) => [string, ...unknown[]]>} the arguments of each call before the addresses of text, room and length */
const CALLS = {
  report: ({ check, noBoard }) => ['pops_report', check ? 1 : 0, noBoard ? 1 : 0],
  tries: ({ noBoard, refutations }) => ['pops_tries', noBoard ? 1 : 0, refutations ?? 1],
  list: ({ depth }) => ['pops_list', BigInt(depth ?? 0)],
  faults: () => ['pops_faults'],
  part: ({ isSet, depth, number }) => ['pops_part', isSet ? 1 : 0, BigInt(depth ?? 0), BigInt(number ?? 0)],
};
/** @type {Promise<WebAssembly.Instance> | null} */
let engine = null;

/**
 * Grows the engine's memory: a 32-bit memory takes its pages as a number, a 64-bit memory as a BigInt.
 * @param {any} memory
 * @param {number} pages
 */
function grow(memory, pages) {
  try {
    memory.grow(pages);
  } catch (fault) {
    if (!(fault instanceof TypeError)) throw fault;
    memory.grow(BigInt(pages));
  }
}

/**
 * Makes a call. After the engine's own memory come the length of its result (8 bytes of 16), the text and the room.
 * @param {any} exports what the engine exports
 * @param {CallMessage} given
 * @returns {Reply}
 */
function answer(exports, given) {
  const { memory } = exports;
  const { text } = given;
  const length = (Number(exports.__heap_base.value) + 15) & ~15;
  const input = length + 16;
  const output = input + text.length;
  const lacking = output + ROOM - memory.buffer.byteLength;
  if (lacking > 0) grow(memory, Math.ceil(lacking / MEMORY_PAGE));
  new Uint8Array(memory.buffer).set(text, input);
  const [name, ...settings] = CALLS[given.call](given);
  const status = exports[name](...settings, BigInt(input), BigInt(text.length), BigInt(output), BigInt(ROOM), BigInt(length));
  // The call may have grown the memory: an older view would be empty.
  const written = Number(new DataView(memory.buffer).getBigUint64(length, true));
  return { status, bytes: new Uint8Array(memory.buffer, output, written).slice() };
}

onmessage = async (/** @type {MessageEvent<CallMessage>} */ { data }) => {
  try {
    if (data.engine) engine = WebAssembly.instantiate(data.engine);
    const { exports } = await /** @type {Promise<WebAssembly.Instance>} */ (engine);
    if (data.call) postMessage(answer(exports, data));
  } catch (fault) {
    postMessage({ failed: String(fault) });
  }
};
