// What a denial, a malformed request, a fault of a SLURM file or a status says: the words of ../docs/FORMATS.md.

const KEPT = "Nothing was changed";
const AGAIN = "Look whether it was, and send it again if not.";

export const SENTENCES = {
  denied: {
    operator: "Only an operator of the registry may do this.",
    steward: "Only an operator, or someone with a current grant as manager at this holder, may do this.",
    grant: "You have no current grant at this holder with a role that allows this.",
    holder: "No holder of this name is registered.",
    fresh: "A holder of this name is registered already.",
    number: "There is nothing active of this number at this holder, or it lies outside the scope of your grants.",
    scope: "Your grants do not reach to all of this address space.",
    dates: "The first day is after the last, or the last day has passed.",
    length: "maxLength has to lie between the length of the prefix and 32 for IPv4 or 128 for IPv6.",
    pool: "Part of this prefix lies outside the pool.",
    free: "Part of this prefix is held already.",
    distinct: "A transfer needs two holders: it goes from one to another.",
    held: "The holder does not hold every address of this prefix.",
    same: "The holder has another active authorization with this AS, prefix and maxLength. Amend or withdraw that one.",
    room: "The holder is full: 1000 active authorizations, 64 grants, or all 999,999 numbers are used.",
    overlap: "Two SLURM files name the same addresses.",
  },
  malformed: {
    1: "The desk could not read the request: it is not JSON.",
    2: "The request has a part missing or too much. A CSV file needs its header and the same fields in each row.",
    3: "This is not the name of a holder: 1 to 32 of a to z, 0 to 9 and -, not beginning with -.",
    4: "This is not the name of a user, which has the form of a holder's.",
    5: "This is not a prefix, such as 192.0.2.0/24 or 2001:db8::/32, or it has bits set past its length.",
    6: "This is not an AS number: 0 to 4294967295, or NONE for a route without an origin.",
    7: "maxLength has to be a whole number from 0 to 255.",
    8: "This is not a day from 1970-01-01 to 9999-12-31.",
    9: "The role or the scope is none that can be granted. A manager has the scope all.",
    10: "The number has to be a whole number from 1 to 999999.",
    11: "This file is not a SLURM file that the desk takes.",
    12: "The desk takes at once 1 to 10,000 rows or routes, up to 1000 changes, 64 prefixes, and 16 SLURM files.",
    13: "The request is longer than 1,048,576 bytes.",
    14: "A prefix is given twice.",
    15: "A SLURM file has no name of its own.",
  },
  slurm: {
    1: "The file is not JSON, or is nested too deeply, or begins with a byte order mark.",
    2: "The file as a whole is not a JSON object.",
    3: "A part of the file is missing, unknown, or of the wrong kind.",
    4: "slurmVersion has to be the number 1.",
    5: "The file has BGPsec entries: both BGPsec arrays have to be empty.",
    6: "A prefix in the file is not one in its usual spelling, with no bit set past its length.",
    7: "An asn in the file is not an AS number: 0 to 4294967295, without quotes.",
    8: "A maxPrefixLength does not lie between the length of its prefix and 32 for IPv4 or 128 for IPv6.",
    9: "A filter has neither prefix nor asn: it would take every VRP away.",
    10: "A comment is not text.",
    11: "The file has more than 4096 filters and assertions.",
    12: `The desk was out of memory. ${KEPT}: send the file again.`,
  },
  status: {
    400: `The desk could not read the request. ${KEPT}.`,
    401: `Your password was not accepted. ${KEPT}: load this page again.`,
    403: `The front refused the request. ${KEPT}.`,
    404: `The desk has no such page: a name or a number is empty or misspelt. ${KEPT}.`,
    405: `The desk does not do this there. ${KEPT}.`,
    411: `The request came without its length. ${KEPT}.`,
    413: `The file is larger than the desk takes, 1,048,576 bytes. ${KEPT}.`,
    429: `Too many requests came at once. ${KEPT}: wait, and send it again.`,
    502: `The front did not get the desk's reply. The change may have been made. ${AGAIN}`,
    503: `The desk's memory or database failed. ${KEPT}, unless the desk stops now. ${AGAIN}`,
    504: `The desk did not reply in time. The change may have been made, or may still be. ${AGAIN}`,
    lost: `The connection was lost. The change may have been made. ${AGAIN}`,
    question: "There was no answer from the desk. Asking changes nothing: ask again.",
  },
};

/** The sentence of a response that is no answer. */
export function faultOf(status, reply, isQuestion) {
  if (reply?.denied) return SENTENCES.denied[reply.denied] ?? `The desk denied this by the rule ${reply.denied}.`;
  if (reply?.slurm) return SENTENCES.slurm[reply.slurm] ?? `The file has the fault ${reply.slurm}.`;
  if (reply?.malformed) return SENTENCES.malformed[reply.malformed] ?? `The request has the fault ${reply.malformed}.`;
  if (isQuestion && (status >= 500 || status === "lost")) return SENTENCES.status.question;
  return SENTENCES.status[status] ?? `The front answered ${status}. Look whether the change was made.`;
}
