// Run by `node --test console/tests`, with Debian's nodejs and no package.

import assert from "node:assert/strict";
import test from "node:test";

import { coveredBy, judgePrefix, overlap, readPlace, readPrefix } from "../prefixes.js";
import { faultOf } from "../sentences.js";
import {
  amendmentOf, asOf, dayAfter, entriesGiven, faultOfEntries, isDay, originOf, readEntries, showEntry, stateOn, termsOf,
} from "../values.js";

test("a prefix is read in any spelling, and has one", () => {
  const spelled = [
    ["192.0.2.0/24", "192.0.2.0/24"], [" 192.0.2.0/24 ", "192.0.2.0/24"], ["192.000.002.0/024", "192.0.2.0/24"],
    ["2001:DB8:0:0:0::/33", "2001:db8::/33"], ["0:0:0:0:0:0:0:0/0", "::/0"], ["1:0:0:2:0:0:0:3/128", "1:0:0:2::3/128"],
    ["1:0:0:2:3:0:0:4/128", "1::2:3:0:0:4/128"], ["1:0:2:3:4:5:6:7/128", "1:0:2:3:4:5:6:7/128"],
  ];
  for (const [given, text] of spelled) assert.equal(readPrefix(given)?.text, text, given);
  for (const none of ["192.0.2.1/24", "192.0.2.0", "192.0.2.0/33", "::/129", "1::2::3/128", "256.0.0.0/8", "::1.2.3.4/128"]) {
    assert.equal(readPrefix(none), null, none);
  }
});

test("a prefix of a file has the desk's fault, and its true reason", () => {
  const judged = [
    ["192.0.2.0/24", 0, undefined], ["::/0", 0, undefined],
    ["192.0.2.0", 1, /not a prefix/], [" 192.0.2.0/24", 1, /not a prefix/], ["1:2:3:4:5:6:7:8:9/64", 1, /not a prefix/],
    ["2001:DB8::/32", 2, /spell this prefix 2001:db8::\/32/], ["192.0.2.0/024", 2, /192\.0\.2\.0\/24/],
    ["192.0.2.0/033", 2, /\/33/], ["192.0.2.0/33", 3, /over 32/], ["2001:db8::/129", 3, /over 128/],
    ["192.0.2.1/24", 4, /192\.0\.2\.0\/24/], ["2001:db8::1/32", 4, /2001:db8::\/32/], ["10.1.2.3/0", 4, /0\.0\.0\.0\/0/],
  ];
  for (const [text, fault, reason] of judged) {
    const found = judgePrefix(text);
    assert.equal(found.fault, fault, text);
    if (reason) assert.match(found.reason, reason);
  }
});

test("prefixes lie in each other, and an address is found in its prefix", () => {
  const covers = coveredBy([readPrefix("192.0.2.0/24"), readPrefix("2001:db8::/32")]);
  assert.ok(covers(readPlace("192.0.2.77")) && covers(readPlace("2001:DB8:0::1")) && covers(readPrefix("192.0.2.128/25")));
  assert.ok(!covers(readPrefix("192.0.0.0/16")) && !covers(readPlace("192.0.3.0")));
  assert.equal(readPlace("64496"), null);
  assert.ok(overlap(readPrefix("192.0.0.0/16"), readPrefix("192.0.2.0/24")));
  assert.ok(!overlap(readPrefix("0.0.0.0/0"), readPrefix("::/0")));
});

test("AS numbers and days", () => {
  assert.deepEqual(["AS64496", "64496", " as1 ", "ASx"].map(asOf), [64496, 64496, 1, "x"]);
  assert.equal(originOf("none"), null);
  const days = ["1970-01-01", "2028-02-29", "9999-12-31"];
  const none = ["1969-12-31", "2026-02-29", "2026-12-32", "2026-13-01", "2026-1-01", "2026-00-10", "26-01-01", ""];
  assert.deepEqual(days.map(isDay), [true, true, true]);
  assert.deepEqual(none.map(isDay), none.map(() => false));
  assert.deepEqual(["2026-12-31", "2028-02-28", "9999-12-31"].map(dayAfter), ["2027-01-01", "2028-02-29", null]);
  const terms = { from: "2026-03-01", until: "2026-03-31" };
  assert.deepEqual(["2026-02-28", "2026-03-01", "2026-03-31", "2026-04-01"].map((day) => stateOn(terms, day)),
    ["to come", "in force", "in force", "past"]);
});

test("entries are pasted, put in the order of prefixes, and sent by the members that fit", () => {
  const pasted = readEntries("192.0.2.0/24-25\n2001:DB8::/32 48, 198.51.100.0/24\n\n192.0.2.0/25 /26;nonsense");
  assert.deepEqual(pasted, [
    { prefix: "192.0.2.0/24", max: "25" }, { prefix: "2001:db8::/32", max: "48" }, { prefix: "198.51.100.0/24", max: "" },
    { prefix: "192.0.2.0/25", max: "26" }, { prefix: "nonsense", max: "" },
  ]);
  const entries = entriesGiven(pasted.slice(0, 4));
  assert.deepEqual(entries.map(showEntry), ["192.0.2.0/24-25", "192.0.2.0/25-26", "198.51.100.0/24", "2001:db8::/32-48"]);
  const days = { from: "2026-01-01", until: "2026-12-31" };
  assert.deepEqual(termsOf({ asn: 1, entries: entries.slice(2, 3), ...days }),
    { asn: 1, prefix: "198.51.100.0/24", max: 24, ...days });
  assert.deepEqual(Object.keys(termsOf({ asn: 1, entries, ...days })), ["asn", "entries", "from", "until"]);
  assert.deepEqual(amendmentOf(entries, "2026-12-31"), { maxes: [25, 26, 24, 48], until: "2026-12-31" });
  assert.deepEqual(amendmentOf(entries.slice(0, 1), "2026-12-31"), { max: 25, until: "2026-12-31" });
  assert.equal(faultOfEntries(entries), "");
  assert.match(faultOfEntries([...entries, entries[0]]), /192\.0\.2\.0\/24 is given twice/);
  assert.match(faultOfEntries(Array.from({ length: 65 }, (_, at) => ({ prefix: `10.0.${at}.0/24`, max: 24 }))), /65/);
});

test("a request of too many parts is told all limits that it may have passed", () => {
  const said = faultOf(400, { malformed: 12 });
  for (const limit of [/10,000 rows or routes/, /1000 changes/, /64 prefixes/, /16 SLURM files/]) assert.match(said, limit);
});
