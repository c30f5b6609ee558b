import assert from "node:assert/strict";
import test from "node:test";

import { readImport, readRecords, textOf, writeImport } from "../csv.js";

const HEAD = "asn,prefix,maxlength,from,until\n";
const GOOD = "AS64496,192.0.2.0/24,24,2026-01-01,2026-12-31";

test("records are those of the crate csv", () => {
  const read = [
    ["", []], ["\n\r\n\r", []], ["a", [["a"]]], ["a,", [["a", ""]]], [",", [["", ""]]], ['""', [[""]]],
    ["a\rb\nc\r\nd", [["a"], ["b"], ["c"], ["d"]]], ["a\n\n\nb\n", [["a"], ["b"]]], ["\ufeffa,b", [["a", "b"]]],
    ["\ufeff\ufeffa", [["\ufeffa"]]], ['"a,b\r\nc",d', [["a,b\r\nc", "d"]]], ['"a""b"', [['a"b']]],
    ['"a"b"c",d', [['ab"c"', "d"]]], ['a"b"', [['a"b"']]], ['"open,\n', [["open,\n"]]], ['"', [[""]]], ['x,"', [["x", ""]]],
    [" a , b ", [[" a ", " b "]]],
  ];
  for (const [text, records] of read) assert.deepEqual(readRecords(text), records, JSON.stringify(text));
});

test("each faulty row has its number, its field and its true reason", () => {
  const faulty = [
    ["64496,192.0.2.0/29,29,2026-01-01,2026-12-31", 6, 0, /write this AS number AS64496/],
    ["as64496,192.0.2.0/24,24,2026-01-01,2026-12-31", 6, 0, /AS64496/],
    ["AS064496,192.0.2.0/24,24,2026-01-01,2026-12-31", 6, 0, /AS64496/],
    ["AS4294967296,192.0.2.0/24,24,2026-01-01,2026-12-31", 6, 0, /AS4294967295/],
    ["AS,192.0.2.0/24,24,2026-01-01,2026-12-31", 6, 0, /not an AS number/],
    ["AS64496,2001:DB8::/32,32,2026-01-01,2026-12-31", 5, 1, /spell this prefix 2001:db8::\/32/],
    ["AS64496,192.0.2.1/24,24,2026-01-01,2026-12-31", 5, 1, /Bits past the length/],
    ["AS64496,192.0.2.0/24,256,2026-01-01,2026-12-31", 7, 2, /0 to 255/],
    ["AS64496,192.0.2.0/24,024,2026-01-01,2026-12-31", 7, 2, /leading zeros/],
    ["AS64496,192.0.2.0/24,24,2026-01-01,2026-12-32", 8, 4, /no such day/],
    ["AS64496,192.0.2.0/24,24,1.1.2026,2026-12-31", 8, 3, /written as/],
    ["AS64496,192.0.2.0/24,24,2026-01-01", 2, 0, /has 4/],
  ];
  for (const [line, number, column, reason] of faulty) {
    const { rows, fault } = readImport(`${HEAD}${GOOD}\n\n${line}\n`);
    assert.equal(fault, number, line);
    assert.deepEqual(rows.map(({ faults }) => faults.length), [0, 1]);
    assert.equal(rows[1].place, 2);
    assert.equal(rows[1].faults[0].column, column, line);
    assert.match(rows[1].faults[0].reason, reason);
  }
});

test("of all faults the desk reports the lowest", () => {
  assert.equal(readImport(`${HEAD}AS1,x,y,z,2026-01-01\n1,192.0.2.0/24,24,2026-01-01,2026-12-31`).fault, 5);
  assert.equal(readImport(`${HEAD}AS1,x,y,z`).fault, 2);
  assert.equal(readImport(`x${HEAD}${GOOD}`).fault, 2);
  assert.equal(readImport("").fault, 2);
  assert.equal(readImport(HEAD).fault, 12);
  assert.equal(readImport(HEAD + `${GOOD}\n`.repeat(10001)).fault, 12);
  assert.equal(readImport(`${HEAD}AS1,192.0.2.0/24,24,2026-01-01,x\n`.repeat(2)).fault, 5);
});

test("what is sent is what was read", () => {
  const given = `\ufeff"asn",prefix,"maxlength",from,until\r\n"AS64496",192.0.2.0/24,24,2026-01-01,2026-12-31\r`;
  const { rows, fault } = readImport(textOf(new TextEncoder().encode(given)));
  assert.equal(fault, 0);
  assert.equal(writeImport(rows.map(({ terms }) => terms)), `${HEAD}${GOOD}\n`);
});

test("bytes that are no UTF-8 are a fault of their field alone", () => {
  const bytes = [...new TextEncoder().encode(HEAD + GOOD)];
  bytes.splice(HEAD.length + 3, 1, 0xe2);
  const { rows, fault } = readImport(textOf(Uint8Array.from(bytes)));
  assert.equal(fault, 6);
  assert.deepEqual(rows[0].record.length, 5);
});
