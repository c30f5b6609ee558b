// What a change would do to routes, on each day from which it shows, and how that is said.
//
// The desk judges routes on the day that it has, so for another day it is asked about changes that are in force on every
// day. All else is then as it is on the desk's day, which THEN_UNKNOWN says.

import { count, dayAfter, dayOf, entriesOf, isDay, isInForce, numberOf, showOrigin } from "./values.js";

export const THEN_UNKNOWN = "For later days all else is taken to stay as it is today: this page cannot know what else "
  + "begins, ends or is changed before then.";
const DAYS_AT_MOST = 24;
const FIRST_DAY = "1970-01-01";
const LAST_DAY = "9999-12-31";
const LAST_NUMBER = numberOf(LAST_DAY);
const NAMED_AT_MOST = 2;

// The days

const vrpsOf = (terms) => entriesOf(terms).map(({ prefix, max }) => `${terms.asn} ${prefix} ${max}`).join("\n");

/**
 * The days from which a change shows, first the desk's: each with what is in force of the authorizations that the change
 * takes away (`before`) and of those that it leaves or makes (`after`). Where these give the same VRPs, nothing shows.
 */
export function momentsOf(today, before, after) {
  const texts = new Map([...before, ...after].map((terms) => [terms, vrpsOf(terms)]));
  const edges = [...texts.keys()].flatMap(({ from, until }) => (isDay(until) ? [from, dayAfter(until)] : [from]));
  const days = [today, ...new Set(edges.filter((day) => day && day > today))].sort();
  const on = (day, all) => {
    const terms = all.filter((each) => isInForce(each, day));
    return { terms, key: terms.map((each) => texts.get(each)).sort().join("\n") };
  };
  const moments = days.slice(0, DAYS_AT_MOST).map((day) => {
    const [without, then] = [on(day, before), on(day, after)];
    return { day, without, then, shows: without.key !== then.key, pair: `${without.key}\n\n${then.key}` };
  });
  const shown = moments.filter(({ shows, pair }, at) => at === 0 || (shows && pair !== moments[at - 1].pair));
  return { moments: shown, isCut: days.length > DAYS_AT_MOST };
}

/**
 * What to ask the desk: first the change as it is, whose answer has the states now and on the desk's day, and then one
 * what-if for each other state. Each moment gets the places of its answers, as pairs of a question and a column.
 */
export function questionsOf({ changes, withdrawals = [] }, moments) {
  const questions = [changes];
  const known = new Map([[moments[0].without.key, [0, 0]], [moments[0].then.key, [0, 1]]]);
  const place = ({ key, terms }) => {
    if (!known.has(key)) {
      const creates = terms.map(({ number: _, ...rest }) => ({ do: "create", ...rest, from: FIRST_DAY, until: LAST_DAY }));
      known.set(key, [questions.push([...withdrawals, ...creates]) - 1, 1]);
    }
    return known.get(key);
  };
  // The desk's own day is read from the first answer even where both states give the same VRPs.
  const places = moments.map((moment, at) =>
    (at === 0 ? { without: [0, 0], then: [0, 1] } : { without: place(moment.without), then: place(moment.then) }));
  return { questions, places };
}

/**
 * The day of the desk, from a guess: `isPast` asks whether a day has passed there. A page that stays open over midnight
 * has another one, and so has a desk that was not restarted.
 */
export async function findDay(isPast, guess) {
  const past = async (number) => number < 0 || (number <= LAST_NUMBER && await isPast(dayOf(number)));
  let high = numberOf(guess);
  let low = high - 1;
  if (await past(high)) {
    for (let step = 1; ; step *= 2) {
      low = high;
      high += step;
      if (!await past(high)) break;
    }
  } else {
    for (let step = 1; !await past(low); step *= 2) {
      high = low;
      low -= step;
    }
  }
  while (high - low > 1) {
    const middle = Math.floor((low + high) / 2);
    if (await past(middle)) low = middle;
    else high = middle;
  }
  return dayOf(high);
}

// The routes

/** How grave what happens to a route is: the gravest is shown first. */
export function rankOf({ now, without, then }) {
  if (without === then) return then === "Invalid" ? 4 : 5;
  if (now !== then && then === "Invalid") return 0;
  if (without === "Valid") return 1;
  return now === then ? 3 : 2;
}

/** What happens to each route at each moment at which something does, or else once that it stays; the gravest first. */
export function effectsOf(routes, today, moments, places, reports) {
  const stateAt = ([question, column], at) => reports[question][at][column];
  const effects = routes.flatMap((route, at) => {
    const now = reports[0][at][0];
    const found = moments.map(({ day }, moment) => {
      const [without, then] = [stateAt(places[moment].without, at), stateAt(places[moment].then, at)];
      return { route, day, now, without, then };
    }).filter(({ without, then }) => without !== then);
    return found.length ? found : [{ route, day: today, now, without: now, then: now }];
  });
  return effects.map((effect) => ({ ...effect, rank: rankOf(effect) }))
    .sort((one, other) => one.rank - other.rank || (one.day < other.day ? -1 : Number(one.day > other.day)));
}

export const isStill = ({ rank }) => rank > 3;
const isWorst = ({ rank }) => rank === 0;

// The words

export const outcomeOf = ({ now, then }) => `${now === then ? "stays" : "becomes"} ${then}`;

/** The states of a route in one text, with what would be without the change where that is neither. */
export function statesOf({ now, without, then }) {
  const states = now === then ? then : `${now} → ${then}`;
  return without === now || without === then ? states : `${states} (${without} without the change)`;
}

const ORDER = ["becomes Invalid", "becomes NotFound", "becomes Valid", "stays Invalid", "stays NotFound", "stays Valid"];

function outcomes(effects) {
  return ORDER.flatMap((words) => {
    const number = effects.filter((effect) => outcomeOf(effect) === words).length;
    const [verb, state] = words.split(" ");
    return number ? [`${number} ${number === 1 ? verb : verb.slice(0, -1)} ${state}`] : [];
  });
}

function nameOf(effect) {
  const { route, now, without, then } = effect;
  const otherwise = now === then && without !== then ? `, and would become ${without} without the change` : "";
  return `${route.prefix} ${showOrigin(route.origin)} ${outcomeOf(effect)}${otherwise}`;
}

/** One sentence for each day from which something shows, and for the desk's own day in any case. */
export function sentencesOf(effects, today, moments) {
  const still = effects.filter(isStill).length;
  return moments.map(({ day }) => {
    const found = effects.filter((effect) => effect.day === day && !isStill(effect));
    const isToday = day === today;
    const when = isToday ? "Today" : `From ${day}`;
    if (!found.length) return `${when}: nothing changes.`;
    if (!isToday && found.length <= NAMED_AT_MOST) return `${when}: ${found.map(nameOf).join("; ")}.`;
    const stays = still ? [`${still} ${still === 1 ? "stays" : "stay"}`] : [];
    return `${when}: ${[...outcomes(found), ...stays].join(", ")}.`;
  });
}

/** What the button says by the worst of all days: how many routes become Invalid, and from when if not today. */
export function worstOf(effects, today) {
  const worst = effects.filter(isWorst);
  const number = new Set(worst.map(({ route }) => route)).size;
  const first = worst.map(({ day }) => day).sort()[0];
  const when = number && first > today ? ` from ${first}` : "";
  const words = number ? `${count(number, "route becomes", "routes become")} Invalid${when}` : "no route becomes Invalid";
  return { number, words };
}
