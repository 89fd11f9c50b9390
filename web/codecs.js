// @ts-check
// Turns texts into bytes and back.

/** @type {Codec} a text and its bytes in UTF-8 */
export const UTF8 = {
  encode: text => new TextEncoder().encode(text),
  decode: bytes => new TextDecoder('utf-8', { ignoreBOM: true }).decode(bytes),
};

// The most arguments of a call.
const BYTES_A_CALL = 1 << 13;

/** @type {Codec} each byte a letter, so that any bytes are a text */
export const LETTERS = {
  encode: text => {
    const bytes = new Uint8Array(text.length);
    for (let at = 0; at < text.length; at++) bytes[at] = text.charCodeAt(at);
    return bytes;
  },
  decode: bytes => {
    let text = '';
    for (let at = 0; at < bytes.length; at += BYTES_A_CALL) text += String.fromCharCode(...bytes.subarray(at, at + BYTES_A_CALL));
    return text;
  },
};
