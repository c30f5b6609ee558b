// Prefixes: their spellings, their faults, and how they lie in each other.

/** The parts of a text of the loose shape of a prefix, or null: FORMATS.md, "Values". */
function partsOf(text) {
  const [, address, digits] = /^([0-9a-fA-F.:]+)\/(\d{1,3})$/.exec(text) ?? [];
  if (!address) return null;
  const bits = address.includes(":") ? 128 : 32;
  const parts = bits === 32 ? readBytes(address) : readGroups(address);
  return parts && { bits, parts, length: Number(digits) };
}

function readBytes(address) {
  const bytes = address.split(".");
  return bytes.length === 4 && bytes.every((byte) => /^\d{1,3}$/.test(byte) && byte < 256) ? bytes.map(Number) : null;
}

function readGroups(address) {
  const halves = address.split("::").map((half) => (half ? half.split(":") : []));
  const missing = 8 - halves.flat().length;
  if (halves.length > 2 || (halves.length === 2 ? missing < 1 : missing !== 0)) return null;
  const groups = [...halves[0], ...Array(missing).fill("0"), ...(halves[1] ?? [])];
  return groups.every((group) => /^[0-9a-f]{1,4}$/i.test(group)) ? groups.map((group) => parseInt(group, 16)) : null;
}

/** As RFC 5952: the first of the longest runs of two or more zeros becomes `::`. */
function writeGroups(groups) {
  const text = groups.map((group) => group.toString(16)).join(":");
  const runs = [...text.matchAll(/\b0(?::0)+\b/g)].sort((one, other) => other[0].length - one[0].length);
  if (!runs.length) return text;
  const [{ 0: run, index }] = runs;
  return `${text.slice(0, index).replace(/:$/, "")}::${text.slice(index + run.length).replace(/^:/, "")}`;
}

const writeParts = (bits, parts) => (bits === 32 ? parts.join(".") : writeGroups(parts));

function toPrefix({ bits, parts, length }) {
  const hex = parts.map((part) => part.toString(16).padStart(bits / parts.length / 4, "0")).join("");
  return {
    bits, length, hex, value: BigInt(`0x${hex}`),
    get text() {
      return `${writeParts(bits, parts)}/${length}`;
    },
  };
}

const hasBitsPast = ({ bits, length, value }) => BigInt.asUintN(bits - length, value) !== 0n;

/** The prefix of a text in any spelling, with its one spelling as `text`, or null. */
export function readPrefix(given) {
  const read = partsOf(given.trim());
  if (!read || read.length > read.bits) return null;
  const prefix = toPrefix(read);
  return hasBitsPast(prefix) ? null : prefix;
}

/** The prefix of a text, or of an address alone, which is one of full length. */
export const readPlace = (given) =>
  readPrefix(given) ?? readPrefix(`${given.trim()}/${given.includes(":") ? 128 : 32}`);

/** As the desk reads it: the prefix of a text in its one spelling, or the number of its fault and the reason. */
export function judgePrefix(text) {
  const read = partsOf(text);
  if (!read) return { fault: 1, reason: "This is not a prefix, such as 192.0.2.0/24 or 2001:db8::/32." };
  const { bits, parts, length } = read;
  const spelled = `${writeParts(bits, parts)}/${length}`;
  if (spelled !== text) return { fault: 2, reason: `A file has to spell this prefix ${spelled}.` };
  if (length > bits) return { fault: 3, reason: `The length is over ${bits}.` };
  const prefix = toPrefix(read);
  if (!hasBitsPast(prefix)) return { fault: 0, prefix };
  return { fault: 4, reason: `Bits past the length are set: the prefix of this address is ${cut(prefix)}.` };
}

/** The text of a prefix without the bits past its length. */
function cut({ bits, length, value }) {
  const hex = ((value >> BigInt(bits - length)) << BigInt(bits - length)).toString(16).padStart(bits / 4, "0");
  const parts = hex.match(bits === 32 ? /../g : /..../g).map((part) => parseInt(part, 16));
  return `${writeParts(bits, parts)}/${length}`;
}

/** A text by which prefixes are in the order of their addresses, and those of one address by length. */
export const placeOf = ({ bits, hex, length }) => `${String(bits).padStart(3)} ${hex} ${String(length).padStart(3)}`;

const partOf = ({ bits, value }, length) => `${bits} ${length} ${value >> BigInt(bits - length)}`;

/** A test of prefixes: whether one of these covers it. */
export function coveredBy(prefixes) {
  const parts = new Set(prefixes.map((prefix) => partOf(prefix, prefix.length)));
  const lengths = [...new Set(prefixes.map((prefix) => prefix.length))];
  return (inner) => lengths.some((length) => length <= inner.length && parts.has(partOf(inner, length)));
}

export const overlap = (one, other) => coveredBy([one])(other) || coveredBy([other])(one);
