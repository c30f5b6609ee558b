// Feeds the reader of the page and a desk with the same generated CSV files, and compares what each makes of them: the
// number of the fault, and the authorizations that an import makes.
//
//     node agreement.js PROGRAM FOLDER PORT [FILES]
//
// PROGRAM makes its desk in FOLDER. Ends with 1 where the two do not agree, with the file that they differ on.

import { spawn, spawnSync } from "node:child_process";
import { writeFileSync } from "node:fs";
import http from "node:http";
import { setTimeout as sleep } from "node:timers/promises";

import { readImport, textOf } from "../csv.js";

const [program, folder, port, files = "10000"] = process.argv.slice(2);
const DAY = "2026-03-01";
const HEADER = "asn,prefix,maxlength,from,until";
const KEPT_AT_MOST = 900;

// Numbers that are the same in each run

let seed = 20260301;
const below = (bound) => {
  seed = (Math.imul(seed, 1664525) + 1013904223) >>> 0;
  return Math.floor((seed / 4294967296) * bound);
};
const oneOf = (choices) => choices[below(choices.length)];
const often = (percent) => below(100) < percent;

// Files

const v6 = () => `2001:db8:${(below(65535) + 1).toString(16)}::/48`;
const GOOD = [
  () => `AS${below(4294967296)}`,
  () => oneOf([v6(), `192.0.2.${16 * below(16)}/28`, "192.0.2.0/24", "2001:db8::/32", "2001:db8::1:0:0:1/128", "2001:db8:0:1::/64"]),
  () => `${oneOf([24, 28, 32, 48, 64, 128, 0, 255])}`,
  () => oneOf(["2026-01-01", DAY, "1970-01-01", "2028-02-29", "2026-12-31"]),
  () => oneOf(["2026-12-31", "9999-12-31", DAY, "2028-02-29", "2026-02-28"]),
];
const FAULTY = [
  () => oneOf(["64496", "as64496", "As1", "AS064496", "AS00", "AS0", "AS", "", "AS4294967295", "AS4294967296", "AS99999999999",
    "AS-1", "AS+1", "AS1.0", "AS 1", " AS1", "AS1 ", "AS1e3", "ASx", "AS٣", "AS64496\u0000"]),
  () => oneOf(["2001:DB8::/32", "2001:db8:0::/32", "2001:0db8::/32", "192.0.2.0/024", "192.0.2.0", "192.0.2.0/33", "192.0.2.1/24",
    "192.0.02.0/24", "192.0.2.0/24 ", "192.0.2/24", "256.0.0.0/8", "::/129", "::/0", "0::/0", "::1/0", "1:2:3::5:6:7:8/128",
    "1:0:0:2:0:0:3:4/128", "1::2:0:0:3:4/128", "1:0:0:2::3:4/128", "::ffff:192.0.2.0/120", "fe80::%1/64", "1::2::3/64", ":::/0",
    "2001:db8::/032", "/24", "192.0.2.0/", "192.0.2.0/-1", "192.0.2.0/24/24", "1:2:3:4:5:6:7:8:9/64", "12345::/16", "", "::/999",
    "::1:0:0:0:0:0:0/128", "0:0:1::/48", "1::/999", "192.0.2.0/0024"]),
  () => oneOf(["256", "-1", "024", "", "24.0", "1e1", "+24", " 24", "00", "0", "99999999999999999999", "0x18", "twenty"]),
  () => oneOf(["2026-12-32", "2026-02-29", "2026-1-01", "1969-12-31", "0000-01-01", "10000-01-01", " 2026-01-01", "2026-13-01",
    "2026-00-10", "2026-01-00", "20260101", "2026/01/01", "", "2026-04-31", "2000-02-29", "2100-02-29", "2026-01-01T00:00:00Z"]),
];
FAULTY[4] = FAULTY[3];

const quoted = (field) => `"${field.replaceAll('"', '""')}"`;

/** A field in one of the ways in which a file may have it, some of which change it. */
function written(field) {
  if (often(85)) return field;
  return oneOf([quoted, quoted, quoted, quoted, (text) => `"${text}`, (text) => `${text}"`, (text) => `"${text}"x`,
    (text) => `"${text}" `, (text) => `${text.slice(0, 2)}"${text.slice(2)}`, (text) => `""${text}`])(field);
}

/** A row that the desk may take, if its fields fit each other. */
const fitting = () => [GOOD[0](), v6(), `${48 + below(17)}`, "2026-01-01", "2026-12-31"];

function record() {
  const isFitting = often(75);
  const good = isFitting ? fitting() : GOOD.map((each) => each());
  const fields = good.map((field, at) => (often(4) ? FAULTY[at]() : field));
  if (often(1)) fields.pop();
  if (often(1)) fields.push(oneOf(["", "more"]));
  return fields.map((field) => (often(10) ? written(field) : field)).join();
}

function file() {
  const end = oneOf(["\n", "\n", "\r\n", "\r"]);
  const header = often(97) ? oneOf([HEADER, HEADER, HEADER, HEADER.split(",").map(quoted).join()])
    : oneOf(["", "ASN,prefix,maxlength,from,until", `${HEADER},`, "prefix,asn,maxlength,from,until", ` ${HEADER}`, `"${HEADER}"`]);
  const records = Array.from({ length: often(1) ? 0 : 1 + below(3) }, record);
  const rows = below(1000) < 2 ? Array(9999 + below(3)).fill(GOOD.map((good) => good()).join()) : records;
  const blank = () => (often(5) ? end.repeat(1 + below(3)) : "");
  const text = (often(4) ? "\ufeff" : "") + (often(1) ? "\ufeff" : "") + blank()
    + [header, ...rows].map((row) => row + end + blank()).join("");
  const bytes = new TextEncoder().encode(often(15) ? text.slice(0, -end.length) : text);
  if (often(3)) bytes[below(bytes.length)] = oneOf([0, 0xff, 0xc3, 0xe2, 0x22, 0x2c, 0x0a, 0x0d, 0x20]);
  return often(1) ? bytes.subarray(0, below(bytes.length)) : bytes;
}

// The desk

let sent = 0;

function ask(caller, method, path, body) {
  sent += 1;
  const options = {
    host: "127.0.0.1", port, method, path, agent: false, localAddress: `127.0.0.${1 + (sent % 8)}`,
    headers: { "Desk-Caller": caller, ...(body === undefined ? {} : { "Content-Length": Buffer.byteLength(body) }) },
  };
  return new Promise((told, failed) => {
    const request = http.request(options, (response) => {
      const parts = [];
      response.on("data", (part) => parts.push(part));
      response.on("end", () => told({ status: response.statusCode, reply: JSON.parse(Buffer.concat(parts)) }));
    });
    request.on("error", failed);
    request.end(body);
  });
}

async function start() {
  const charter = `${folder}/agreement.csv`;
  writeFileSync(charter, "kind,value\noperator,reg\npool,192.0.2.0/24\npool,2001:db8::/32\n");
  const made = spawnSync(program, ["init", "--db", `${folder}/agreement.db`, "--charter", charter], { stdio: "inherit" });
  if (made.status !== 0) throw new Error("no desk was made");
  const words = ["--db", `${folder}/agreement.db`, "--listen", `127.0.0.1:${port}`, "--count", "1000000", "--day", DAY];
  const desk = spawn(program, ["serve", ...words], { stdio: "inherit" });
  for (let tries = 0; tries < 100; tries += 1) {
    try {
      await ask("reg", "PUT", "/holders/alpha");
      break;
    } catch {
      await sleep(100);
    }
  }
  for (const prefix of ["192.0.2.0/24", "2001:db8::/32"]) {
    await ask("reg", "POST", "/holders/alpha/delegations", JSON.stringify({ prefix }));
  }
  await ask("reg", "POST", "/holders/alpha/grants",
    JSON.stringify({ name: "ann", role: "manager", scope: "all", until: "2026-12-31" }));
  return desk;
}

const textsOf = (all) => all.map(({ asn, prefix, max, from, until }) => `${asn} ${prefix} ${max} ${from} ${until}`);

async function compare() {
  const kept = new Map();
  const counts = { made: 0, denied: 0, faulty: 0 };
  for (let at = 0; at < Number(files); at += 1) {
    const bytes = file();
    const read = readImport(textOf(bytes));
    const { status, reply } = await ask("ann", "POST", "/holders/alpha/imports", bytes);
    const differ = (what) => {
      throw new Error(`file ${at}: ${what}\nthe page: ${read.fault} ${read.reason}\nthe desk: ${status} ${JSON.stringify(reply)}\n`
        + JSON.stringify(Buffer.from(bytes.subarray(0, 2000)).toString("latin1")));
    };
    if ((reply.malformed ?? 0) !== read.fault) differ("another fault");
    const isMarked = read.reason !== "" || read.rows.some(({ faults }) => faults.length > 0);
    if (isMarked !== (read.fault > 0)) differ("a fault that no row shows");
    counts[status === 200 ? "made" : status === 403 ? "denied" : "faulty"] += 1;
    if (status !== 200) continue;
    const rows = new Set(textsOf(read.rows.map(({ terms }) => terms)));
    const { reply: { listed } } = await ask("ann", "GET", "/holders/alpha/auths");
    const made = textsOf(listed.filter(({ number }) => !kept.has(number)));
    for (const text of made) if (!rows.delete(text)) differ(`the desk made ${text}`);
    for (const text of kept.values()) rows.delete(text);
    if (rows.size || made.length !== reply.made) differ(`the desk did not make ${[...rows]}`);
    listed.forEach((auth) => kept.set(auth.number, textsOf([auth])[0]));
    if (listed.length < KEPT_AT_MOST) continue;
    for (const { number } of listed) await ask("ann", "DELETE", `/holders/alpha/auths/${number}`);
    kept.clear();
  }
  return counts;
}

const desk = await start();
for (const signal of ["SIGHUP", "SIGINT", "SIGTERM"]) {
  process.on(signal, () => {
    desk.kill();
    process.exit(1);
  });
}
try {
  const { made, denied, faulty } = await compare();
  console.log(`${files} files: ${made} imported, ${denied} denied, ${faulty} faulty, and the two agree on each`);
  if (!made || !denied || !faulty) process.exitCode = 1;
} catch (fault) {
  console.log(fault.message);
  process.exitCode = 1;
} finally {
  desk.kill();
}
