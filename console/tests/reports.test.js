import assert from "node:assert/strict";
import test from "node:test";

import { effectsOf, findDay, momentsOf, questionsOf, rankOf, sentencesOf, statesOf, worstOf } from "../reports.js";

const TODAY = "2026-11-28";
const auth = { number: 1, asn: 64496, prefix: "198.51.100.0/24", max: 24, from: "2026-01-01", until: "2026-12-31" };
const other = { asn: 64777, prefix: "198.51.100.0/24", max: 24, from: "2026-11-29", until: "2026-12-31" };

const ALWAYS = { from: "1970-01-01", until: "9999-12-31" };

const shape = (before, after) => momentsOf(TODAY, before, after).moments.map(({ day, without, then }) =>
  [day, without.terms.length, then.terms.length]);

const without = (terms, ...names) => Object.fromEntries(Object.entries(terms).filter(([name]) => !names.includes(name)));

test("a change shows on the days on which it begins and ends", () => {
  assert.deepEqual(shape([], [{ ...other, from: TODAY }]), [[TODAY, 0, 1]]);
  assert.deepEqual(shape([], [other]), [[TODAY, 0, 0], ["2026-11-29", 0, 1]]);
  assert.deepEqual(shape([auth], []), [[TODAY, 1, 0]]);
  assert.deepEqual(shape([other], []), [[TODAY, 0, 0], ["2026-11-29", 1, 0]]);
  const shorter = { ...auth, until: "2026-11-30" };
  assert.deepEqual(shape([auth], [shorter]), [[TODAY, 1, 1], ["2026-12-01", 1, 0]]);
  const longer = { ...auth, until: "2027-12-31" };
  assert.deepEqual(shape([auth], [longer]), [[TODAY, 1, 1], ["2027-01-01", 0, 1]]);
  assert.deepEqual(shape([auth], [{ ...longer, max: 25 }]), [[TODAY, 1, 1], ["2027-01-01", 0, 1]]);
  assert.deepEqual(shape([other], [{ ...other, max: 25, until: "2026-12-01" }]),
    [[TODAY, 0, 0], ["2026-11-29", 1, 1], ["2026-12-02", 1, 0]]);
  assert.deepEqual(shape([], [other, { ...other, asn: 1, from: TODAY, until: "2026-11-30" }]),
    [[TODAY, 0, 1], ["2026-11-29", 0, 2], ["2026-12-01", 0, 1]]);
  assert.deepEqual(shape([], [{ ...other, until: "9999-12-31" }]), [[TODAY, 0, 0], ["2026-11-29", 0, 1]]);
});

test("rows that begin on more days than are asked about are told", () => {
  const rows = Array.from({ length: 30 }, (_, at) => ({ ...other, asn: at, from: `2027-01-${String(at + 1).padStart(2, "0")}` }));
  assert.equal(momentsOf(TODAY, [], rows).isCut, true);
  assert.equal(momentsOf(TODAY, [], rows.slice(0, 20)).isCut, false);
});

test("the desk is asked about the change itself, and about each other state with days of its own", () => {
  const changes = [{ do: "create", ...other }];
  const { moments } = momentsOf(TODAY, [], [other]);
  const { questions, places } = questionsOf({ changes }, moments);
  assert.deepEqual(questions, [changes, [{ do: "create", ...other, ...ALWAYS }]]);
  assert.deepEqual(places[1], { without: [0, 1], then: [1, 1] });

  const withdrawals = [{ do: "withdraw", number: 1 }];
  const shorter = { ...without(auth, "number"), until: "2026-11-30" };
  const amended = momentsOf(TODAY, [auth], [shorter]).moments;
  const asked = questionsOf({ changes: [...withdrawals, { do: "create", ...shorter }], withdrawals }, amended);
  assert.deepEqual(asked.questions[1], withdrawals);
  assert.deepEqual(asked.places, [{ without: [0, 0], then: [0, 1] }, { without: [0, 1], then: [1, 1] }]);

  const later = momentsOf(TODAY, [{ ...other, number: 2 }], []).moments;
  const withdrawn = questionsOf({ changes: [{ do: "withdraw", number: 2 }], withdrawals: [{ do: "withdraw", number: 2 }] },
    later);
  assert.deepEqual(withdrawn.questions[1],
    [{ do: "withdraw", number: 2 }, { do: "create", ...other, ...ALWAYS }]);
});

/** The report on routes of a change, with the desk's answers given. */
function report(before, after, routes, reports) {
  const { moments } = momentsOf(TODAY, before, after);
  const { places } = questionsOf({ changes: [] }, moments);
  const effects = effectsOf(routes, TODAY, moments, places, reports);
  return { sentences: sentencesOf(effects, TODAY, moments), button: worstOf(effects, TODAY).words, effects };
}

test("the desk's day is found from a guess, and by two questions where the guess is right", async () => {
  for (const day of ["2026-11-28", "2026-11-27", "2026-11-29", "2026-03-01", "2031-01-01", "1970-01-01", "9999-12-31"]) {
    let asked = 0;
    const isPast = async (other) => {
      asked += 1;
      return day > other;
    };
    assert.equal(await findDay(isPast, TODAY), day);
    if (day === TODAY) assert.equal(asked, 2);
    assert.ok(asked < 50, `${asked}`);
  }
});

const route = { prefix: "198.51.100.0/25", origin: 64496 };

test("a create that begins tomorrow says what becomes Invalid tomorrow", () => {
  const { sentences, button } = report([], [other], [route],
    [[["NotFound", "NotFound"]], [["NotFound", "Invalid"]]]);
  assert.deepEqual(sentences,
    ["Today: nothing changes.", "From 2026-11-29: 198.51.100.0/25 AS64496 becomes Invalid."]);
  assert.equal(button, "1 route becomes Invalid from 2026-11-29");
});

test("an amendment that ends earlier says what is lost then", () => {
  const own = { prefix: "198.51.100.0/24", origin: 64496 };
  const { sentences, button } = report([auth], [{ ...auth, until: "2026-11-30" }], [own],
    [[["Valid", "Valid"]], [["Valid", "NotFound"]]]);
  assert.deepEqual(sentences, ["Today: nothing changes.", "From 2026-12-01: 198.51.100.0/24 AS64496 becomes NotFound."]);
  assert.equal(button, "no route becomes Invalid");
});

test("an amendment that ends later says what it keeps, and is not called dangerous", () => {
  const { sentences, button, effects } = report([auth], [{ ...auth, until: "2027-12-31" }], [route],
    [[["Invalid", "Invalid"]], [["Invalid", "NotFound"]]]);
  assert.deepEqual(sentences, ["Today: nothing changes.",
    "From 2027-01-01: 198.51.100.0/25 AS64496 stays Invalid, and would become "
      + "NotFound without the change."]);
  assert.equal(button, "no route becomes Invalid");
  assert.equal(statesOf(effects[0]), "Invalid (NotFound without the change)");
});

test("outcomes are counted, and the button goes by the worst of all days", () => {
  const routes = [1, 2, 3, 4, 5, 6].map((origin) => ({ prefix: "198.51.100.0/24", origin }));
  const first = [["Valid", "Invalid"], ["NotFound", "Invalid"], ["Invalid", "Valid"], ["Valid", "Valid"],
    ["NotFound", "NotFound"], ["Invalid", "Invalid"]];
  const { sentences, button, effects } = report([], [{ ...other, from: TODAY }], routes, [first]);
  assert.deepEqual(sentences, ["Today: 2 become Invalid, 1 becomes Valid, 3 stay."]);
  assert.equal(button, "2 routes become Invalid");
  assert.deepEqual(effects.map(rankOf), [0, 0, 2, 4, 5, 5]);
  assert.equal(statesOf(effects[1]), "NotFound → Invalid");
});
