// Bytes packed to letters and digits, and back: deflated, and in base 64 as addresses have it.
import { phrase } from './words.js';

async function throughStream(bytes, stream, most) {
  const writer = stream.writable.getWriter();
  writer.write(bytes).catch(() => {});
  writer.close().catch(() => {});
  const reader = stream.readable.getReader();
  const pieces = [];
  let length = 0;
  for (;;) {
    const { done, value } = await reader.read();
    if (done) break;
    length += value.length;
    if (length > most) {
      reader.cancel().catch(() => {});
      throw new RangeError(phrase('the text is too long'));
    }
    pieces.push(value);
  }
  return joined(pieces, length);
}

function joined(pieces, length) {
  const whole = new Uint8Array(length);
  let at = 0;
  for (const piece of pieces) {
    whole.set(piece, at);
    at += piece.length;
  }
  return whole;
}

function toBase64(bytes) {
  let characters = '';
  for (const byte of bytes) characters += String.fromCharCode(byte);
  return btoa(characters).replaceAll('+', '-').replaceAll('/', '_').replaceAll('=', '');
}

function fromBase64(text) {
  const characters = atob(text.replaceAll('-', '+').replaceAll('_', '/'));
  return Uint8Array.from(characters, (character) => character.charCodeAt(0));
}

export async function pack(bytes, most) {
  return toBase64(await throughStream(bytes, new CompressionStream('deflate-raw'), most));
}

// Throws a RangeError where they are more than `most`.
export function unpack(packed, most) {
  return throughStream(fromBase64(packed), new DecompressionStream('deflate-raw'), most);
}
