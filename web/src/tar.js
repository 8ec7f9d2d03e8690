/**
 * Files as one, in POSIX's plainest form (ustar): a head of 512 bytes each, and their bytes, filled up with zeros.
 * @module
 */

const BLOCK = 512;
/** Where the fields of a head begin, and their values where those are always the same. */
const NAME = 0;
const FIELDS = [[100, "0000644\0"], [108, "0000000\0"], [116, "0000000\0"], [148, "        "], [156, "0"], [257, "ustar\u000000"]];
const [LENGTH, TIME, SUM] = [124, 136, 148];

/** A number in so many octal digits. */
const octal = (number, digits) => number.toString(8).padStart(digits, "0");

function headOf(name, length, time) {
  const head = new Uint8Array(BLOCK);
  const write = (at, text) => head.set(new TextEncoder().encode(text), at);
  write(NAME, name.slice(0, 99));
  for (const [at, text] of FIELDS) write(at, text);
  write(LENGTH, `${octal(length, 11)}\0`);
  write(TIME, `${octal(time, 11)}\0`);
  write(SUM, `${octal(head.reduce((sum, byte) => sum + byte, 0), 6)}\0 `);
  return head;
}

/** A Blob of files, each a name in ASCII and the parts of its bytes. */
export function archive(files) {
  const time = Math.floor(Date.now() / 1000);
  const all = files.flatMap(([name, parts]) => {
    const length = parts.reduce((sum, part) => sum + part.length, 0);
    return [headOf(name, length, time), ...parts, new Uint8Array(-length & (BLOCK - 1))];
  });
  return new Blob([...all, new Uint8Array(2 * BLOCK)], { type: "application/x-tar" });
}
