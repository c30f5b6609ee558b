// AS numbers, names, days, and the entries of an authorization: a prefix with its maxLength.

import { placeOf, readPrefix } from "./prefixes.js";

export const MOST_ENTRIES = 64;

export function count(number, one, many = `${one}s`) {
  return `${number.toLocaleString("en")} ${number === 1 ? one : many}`;
}

/** A text that is no whole number is sent as it is, and the desk says what is wrong with it. */
export const wholeOr = (text) => (/^\d+$/.test(text) ? Number(text) : text);
export const asOf = (text) => wholeOr(text.trim().replace(/^AS/i, ""));
export const originOf = (text) => (/^none$/i.test(text.trim()) ? null : asOf(text));
export const showOrigin = (origin) => (origin === null ? "NONE" : `AS${origin}`);
export const isName = (text) => /^[a-z0-9][a-z0-9-]{0,31}$/.test(text);

// Days

export function isDay(text) {
  const [, year, month, day] = /^(\d{4})-(\d\d)-(\d\d)$/.exec(text)?.map(Number) ?? [];
  if (!(year >= 1970)) return false;
  const date = new Date(Date.UTC(year, month - 1, day));
  return date.getUTCMonth() === month - 1 && date.getUTCDate() === day;
}

/** Days are numbered from 1970-01-01, which is 0. */
export const numberOf = (day) => Date.parse(day) / 86400000;
export const dayOf = (number) => new Date(number * 86400000).toISOString().slice(0, 10);

/** The day after, or none after the last one. */
export const dayAfter = (day) => (day === "9999-12-31" ? null : dayOf(numberOf(day) + 1));

export const isInForce = ({ from, until }, day) => from <= day && day <= until;

export function stateOn({ from, until }, day) {
  if (from > day) return "to come";
  return until < day ? "past" : "in force";
}

// Entries

/** The prefixes of an authorization with their maxLengths: its own, or those of its entries. */
export const entriesOf = (auth) => auth.entries ?? [{ prefix: auth.prefix, max: auth.max }];

export const prefixesOf = (auth) => entriesOf(auth).map((entry) => readPrefix(`${entry.prefix}`)).filter(Boolean);

export const ownRoutes = (auth) => entriesOf(auth).map(({ prefix }) => ({ prefix, origin: auth.asn }));

/** The members of a create or of its change. An entry alone is sent by its `prefix` and `max`. */
export function termsOf({ asn, entries, from, until }) {
  return entries.length === 1 ? { asn, ...entries[0], from, until } : { asn, entries, from, until };
}

/** What an amendment sends: one maxLength, or those of all entries in the order of prefixes. */
export function amendmentOf(entries, until) {
  return entries.length === 1 ? { max: entries[0].max, until } : { maxes: entries.map(({ max }) => max), until };
}

/** As `192.0.2.0/24-25`, or without the maxLength where that is the length. */
export const showEntry = ({ prefix, max }) => (isExact({ prefix, max }) ? prefix : `${prefix}-${max}`);

export const isExact = ({ prefix, max }) => `${prefix}`.endsWith(`/${max}`);

export const LOOSE = "A maxLength over the length of the prefix also authorizes routes that nobody announces, and "
  + "whoever forges the origin of one gets its traffic. Authorize just the prefixes that are announced (RFC 9319).";

export const describe = (auth) => `AS${auth.asn} for ${entriesOf(auth).map(showEntry).join(", ")}, ${daysOf(auth)}`;

export const daysOf = ({ from, until }) => `${from} to ${until}`;

/**
 * The entries of a pasted list, such as `192.0.2.0/24-25` or `192.0.2.0/24 25`, one a line or with commas between them.
 * A text that is no prefix stays as it is, for the desk to judge.
 */
export function readEntries(text) {
  return text.split(/[\n,;]+/).map((line) => line.trim()).filter(Boolean).map((line) => {
    const [, prefix, max] = /^(\S+?\/\d+)\s*(?:-|\s)\s*\/?(\d+)$/.exec(line) ?? [null, line, ""];
    return { prefix: readPrefix(prefix)?.text ?? prefix, max };
  });
}

/** The entries of the fields, in the order of prefixes where all are prefixes. A maxLength left out is the length. */
export function entriesGiven(fields) {
  const entries = fields.map(({ prefix: given, max }) => {
    const place = readPrefix(given);
    const prefix = place?.text ?? given.trim();
    return { place, entry: { prefix, max: max.trim() ? wholeOr(max.trim()) : place?.length ?? "" } };
  });
  if (entries.every(({ place }) => place)) {
    entries.sort((one, other) => (placeOf(one.place) < placeOf(other.place) ? -1 : 1));
  }
  return entries.map(({ entry }) => entry);
}

/** What is wrong with the entries as a list, as the desk would say by a number alone. */
export function faultOfEntries(entries) {
  if (entries.length > MOST_ENTRIES) {
    return `An authorization has at most ${MOST_ENTRIES} prefixes, and these are ${entries.length}.`;
  }
  const twice = entries.find(({ prefix }, at) => entries.findIndex((other) => other.prefix === prefix) < at);
  if (twice) return `${twice.prefix} is given twice.`;
  const none = entries.find(({ prefix }) => !readPrefix(`${prefix}`));
  return none ? `${none.prefix || "An empty line"} is not a prefix, or has bits set past its length.` : "";
}
