// CSV files as the desk reads them: FORMATS.md, "CSV files".

import { judgePrefix } from "./prefixes.js";
import { isDay } from "./values.js";

export const HEADER = ["asn", "prefix", "maxlength", "from", "until"];
const MOST_ROWS = 10000;
const MOST_BYTES = 1048576;

/** The text of a file. A byte order mark is left for the reader of records, which takes one away. */
export const textOf = (bytes) => new TextDecoder("utf-8", { ignoreBOM: true }).decode(bytes);

/** The records of a text, as the Rust crate `csv` reads them by default. */
export function readRecords(text) {
  const plain = /[^,\r\n]*/y;
  const records = [];
  let record = [];
  let at = text.startsWith("\ufeff") ? 1 : 0;

  /** What is between quotes. An open quote runs to the end. */
  const readQuoted = () => {
    const parts = [];
    for (;;) {
      const end = text.indexOf('"', at);
      parts.push(text.slice(at, end < 0 ? text.length : end));
      at = end < 0 ? text.length : end + 1;
      if (end < 0 || text[at] !== '"') return parts.join("");
      parts.push('"');
      at += 1;
    }
  };

  while (at < text.length || record.length) {
    if (!record.length && (text[at] === "\n" || text[at] === "\r")) {
      at += 1;
      continue;
    }
    let field = "";
    if (text[at] === '"') {
      at += 1;
      field = readQuoted();
    }
    plain.lastIndex = at;
    field += plain.exec(text)[0];
    record.push(field);
    at = plain.lastIndex + 1;
    if (text[at - 1] === ",") continue;
    records.push(record);
    record = [];
  }
  return records;
}

const isWhole = (digits, most) => /^(0|[1-9]\d{0,9})$/.test(digits) && Number(digits) <= most;

/** What is wrong with an AS number of a file, or nothing. */
function asFault(text) {
  const [, letters, zeros, digits] = /^(AS)?(0*)(\d+)$/i.exec(text) ?? [];
  if (digits === undefined) return "This is not an AS number, such as AS64496.";
  if (!isWhole(digits, 4294967295)) return "AS numbers go from AS0 to AS4294967295.";
  if (letters !== "AS" || zeros) return `A file has to write this AS number AS${digits}.`;
  return "";
}

const MAX_FAULT = "maxLength has to be a whole number from 0 to 255, without leading zeros.";

function dayFault(text) {
  if (isDay(text)) return "";
  return /^\d{4}-\d\d-\d\d$/.test(text) ? "There is no such day from 1970-01-01 to 9999-12-31."
    : "This is not a day, which is written as 2026-12-31.";
}

/** The faults of a record: the column, the number of the malformed request, and the reason. */
function faultsOf(record) {
  if (record.length !== HEADER.length) {
    const reason = `A row has 5 fields, and this one has ${record.length}.`;
    return [{ column: 0, number: 2, reason }];
  }
  const [asn, prefix, max, from, until] = record;
  const reasons = [
    [6, asFault(asn)], [5, judgePrefix(prefix).reason], [7, isWhole(max, 255) ? "" : MAX_FAULT],
    [8, dayFault(from)], [8, dayFault(until)],
  ];
  return reasons.flatMap(([number, reason], column) => (reason ? [{ column, number, reason }] : []));
}

const toTerms = ([asn, prefix, max, from, until]) =>
  ({ asn: Number(asn.slice(2)), prefix, max: Number(max), from, until });

/**
 * The rows of an import file: each with its record, and its terms or its faults. `fault` is the number of the malformed
 * request that the desk would answer, or 0, and `reason` why the file as a whole is none.
 */
export function readImport(text) {
  const [header, ...records] = readRecords(text);
  const rows = records.map((record, at) => {
    const faults = faultsOf(record);
    return { place: at + 1, record, faults, terms: faults.length ? null : toTerms(record) };
  });
  const found = rows.flatMap(({ faults }) => faults.map(({ number }) => number));
  const isHeader = header?.length === HEADER.length && header.every((name, at) => name === HEADER[at]);
  if (!isHeader) found.push(2);
  if (!rows.length || rows.length > MOST_ROWS) found.push(12);
  let reason = "";
  if (!isHeader) reason = `The first line has to be the header ${HEADER.join()}.`;
  else if (!rows.length) reason = "There is no row below the header.";
  else if (rows.length > MOST_ROWS) reason = `The desk takes at most 10,000 rows at once, and these are ${rows.length}.`;
  return { rows, reason, fault: found.length ? Math.min(...new Set(found)) : 0 };
}

/** The file that is sent: the rows as they were read. */
export function writeImport(rows) {
  const lines = rows.map(({ asn, prefix, max, from, until }) => `AS${asn},${prefix},${max},${from},${until}\n`);
  return `${HEADER.join()}\n${lines.join("")}`;
}

export const isTooLong = (bytes) => bytes > MOST_BYTES;
