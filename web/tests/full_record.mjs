#!/usr/bin/env node
/* A page's record that is full: the call may go on, and of what comes then nothing is kept; what was kept is cut off where
   it was, as call.json says by having no counts, and the page at the call's end. */

import assert from "node:assert";
import { Record } from "../src/record.js";

// The most that a record takes, as `record.js` has it.
const MOST = 256 << 20;
const settings = { party: "both", format: "qcif", wait: 0.1, target: 1800, network: null, sent: 1, received: 2 };

/** The packed folder of a record to which so many entries of 64 kB were added, and then one of a byte. */
async function packed(entries) {
  const record = new Record(0, settings);
  const body = new Uint8Array(65_535);
  for (let number = 0; number < entries; number++) record.entry("recv", "K", number, body);
  record.entry("messages", "B", 1, new Uint8Array(1));
  const file = record.file("call", 1);
  return { size: file.size, head: await file.slice(0, 4096).text(), isCut: record.isCut };
}

const small = await packed(10);
const [full, fuller] = [await packed(4200), await packed(5000)];
assert(!small.isCut && full.isCut && fuller.isCut);
assert.match(small.head, /"counts"/);
assert.doesNotMatch(full.head, /"counts"/);
assert(full.size <= MOST && full.size > MOST - (1 << 20), `${full.size} bytes`);
assert.strictEqual(full.size, fuller.size);
console.log(`a full record: ${full.size} bytes`);
