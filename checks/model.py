#!/usr/bin/env python3
"""The desk once more, as a plain program.

    model.py CHARTER    answers the lines of standard input, as `script --charter CHARTER` does

Needs nothing but python3 from 3.10 on. Ends with 0, and with 1 where the file cannot be read.

Written from docs/DEFINITIONS.md and docs/FORMATS.md alone, in their words. A desk is its charter and its history, the
list of the commands that it accepted; every answer is computed from these two anew. What is cached are functions of a
history that is never changed.
"""
import collections
import datetime
import functools
import itertools
import json
import re
import sys

# ---- Values (FORMATS, values) ------------------------------------------------------------------------------------
# A reader gives the value, or None if the text is none. A prefix is (family, first address, length): prefixes sort
# by family, address and length. A day is its text: days sort as their texts do.

WIDTH = {4: 32, 6: 128}
LINE_LIMIT = BODY_LIMIT = 1_048_576


def read_prefix(text):
    """The loose shape first, then the one spelling: the text that is written for what was read."""
    if type(text) is not str:
        return None
    address, _, length = text.partition("/")
    if not re.fullmatch("[0-9]{1,3}", length):
        return None
    if re.fullmatch(r"[0-9]{1,3}(\.[0-9]{1,3}){3}", address):
        family, size, groups = 4, 8, [int(part) for part in address.split(".")]
    elif re.fullmatch("[0-9a-fA-F:]+", address) and address.count("::") <= 1:
        left, gap, right = address.partition("::")
        sides = [side.split(":") if side else [] for side in (left, right)]
        missing = 8 - len(sides[0]) - len(sides[1])
        if (missing < 1 if gap else missing != 0):
            return None
        parts = sides[0] + ["0"] * missing + sides[1]
        if not all(re.fullmatch("[0-9a-fA-F]{1,4}", part) for part in parts):
            return None
        family, size, groups = 6, 16, [int(part, 16) for part in parts]
    else:
        return None
    first = 0
    for group in groups:
        first = (first << size) + group
    prefix = (family, first, int(length))
    if max(groups) >> size or prefix[2] > WIDTH[family] or first % span(prefix) or write_prefix(prefix) != text:
        return None
    return prefix


def write_prefix(prefix):
    """Dotted decimal, or RFC 5952 section 4: `::` for the longest run of two or more zero groups, the first of them."""
    family, first, length = prefix
    if family == 4:
        return ".".join(str(first >> shift & 255) for shift in (24, 16, 8, 0)) + f"/{length}"
    groups = [f"{first >> shift & 0xffff:x}" for shift in range(112, -1, -16)]
    for run in range(8, 1, -1):
        for at in range(9 - run):
            if groups[at:at + run] == ["0"] * run:
                return ":".join(groups[:at]) + "::" + ":".join(groups[at + run:]) + f"/{length}"
    return ":".join(groups) + f"/{length}"


def span(prefix):
    """How many addresses a prefix has."""
    return 1 << (WIDTH[prefix[0]] - prefix[2])


def has(prefix, address):
    """Whether the prefix has an address, which is (family, number)."""
    return prefix[0] == address[0] and prefix[1] <= address[1] < prefix[1] + span(prefix)


def contains(prefix, other):
    return prefix[2] <= other[2] and has(prefix, other[:2])


def read_whole(value, lowest, highest):
    """A number in plain decimal digits."""
    return value if type(value) is int and lowest <= value <= highest else None


def read_digits(text, bound):
    """A number as text, without leading zeros."""
    return int(text) if re.fullmatch("0|[1-9][0-9]{0,9}", text) and int(text) <= bound else None


def read_name(text):
    return text if type(text) is str and re.fullmatch("[a-z0-9][a-z0-9-]{0,31}", text) else None


def read_day(text):
    if type(text) is not str or not re.fullmatch("[0-9]{4}-[0-9]{2}-[0-9]{2}", text) or text < "1970":
        return None
    try:
        datetime.date(*map(int, text.split("-")))
    except ValueError:
        return None
    return text


def read_asn(value):
    return read_whole(value, 0, 2**32 - 1)


NONE = "NONE"  # The origin of a route that has no AS; None is a value that does not read.

# The members of requests: the reader of each and the number of its fault.
READERS = {
    "day": (read_day, 8), "from": (read_day, 8), "until": (read_day, 8),
    "holder": (read_name, 3), "giver": (read_name, 3), "taker": (read_name, 3),
    "caller": (read_name, 4), "name": (read_name, 4),
    "prefix": (read_prefix, 5),
    "asn": (read_asn, 6), "origin": (lambda value: NONE if value is None else read_asn(value), 6),
    "max": (lambda value: read_whole(value, 0, 255), 7),
    "role": (lambda value: value if value in ("manager", "clerk", "auditor") else None, 9),
    "scope": (lambda value: value if value == "all" else read_prefix(value), 9),
    "number": (lambda value: read_whole(value, 1, 999_999), 10),
}

# ---- JSON --------------------------------------------------------------------------------------------------------


class OtherNumber:
    """A number that is not plain decimal digits."""


def read_json(octets):
    """The value, or ValueError: nested to 127 at most, and no number too large for a float."""
    text = octets.decode("utf-8")
    brackets = re.sub(r'"(\\.|[^"\\])*"|[^][{}]', "", text, flags=re.S)
    if max(itertools.accumulate(1 if bracket in "[{" else -1 for bracket in brackets), default=0) > 127:
        raise ValueError

    def number(digits):
        if abs(float(digits)) == float("inf"):
            raise ValueError
        return int(digits) if digits.isdigit() else OtherNumber()

    def constant(_):
        raise ValueError

    value = json.loads(text, parse_int=number, parse_float=number, parse_constant=constant)
    json.dumps(value, ensure_ascii=False, default=lambda _: 0).encode("utf-8")  # No half of a surrogate pair.
    return value


# ---- SLURM files (FORMATS, SLURM files) ---------------------------------------------------------------------------


def read_slurm(value):
    """((filters, assertions), the lowest fault or None): a filter is (prefix, AS), an assertion (prefix, max, AS)."""
    if type(value) is not dict:
        return None, 2
    faults, filters, assertions = [], [], []

    def members(value, required, optional=()):
        if type(value) is not dict or not set(required) <= set(value) <= set(required) | set(optional):
            faults.append(3)
        return value if type(value) is dict else {}

    def items(value, name):
        if name in value and type(value[name]) is not list:
            faults.append(3)
        return value[name] if type(value.get(name)) is list else []

    def member(entry, name, fault, reader):
        if name in entry and reader(entry[name]) is None:
            faults.append(fault)
        return reader(entry[name]) if name in entry else None

    def read_entry(entry):
        member(entry, "comment", 10, lambda value: value if type(value) is str else None)
        return member(entry, "prefix", 6, read_prefix), member(entry, "asn", 7, read_asn)

    whole = members(value, ["slurmVersion", "validationOutputFilters", "locallyAddedAssertions"])
    member(whole, "slurmVersion", 4, lambda value: read_whole(value, 1, 1))
    output = members(whole.get("validationOutputFilters"), ["prefixFilters", "bgpsecFilters"])
    added = members(whole.get("locallyAddedAssertions"), ["prefixAssertions", "bgpsecAssertions"])
    if items(output, "bgpsecFilters") or items(added, "bgpsecAssertions"):
        faults.append(5)
    for item in items(output, "prefixFilters"):
        entry = members(item, [], ["prefix", "asn", "comment"])
        filters.append(read_entry(entry))
        if "prefix" not in entry and "asn" not in entry:
            faults.append(9)
    for item in items(added, "prefixAssertions"):
        entry = members(item, ["prefix", "asn"], ["maxPrefixLength", "comment"])
        prefix, asn = read_entry(entry)
        lowest, highest = (prefix[2], WIDTH[prefix[0]]) if prefix else (0, 128)
        longest = member(entry, "maxPrefixLength", 8, lambda value: read_whole(value, lowest, highest))
        assertions.append((prefix, lowest if longest is None else longest, asn))
    if len(filters) + len(assertions) > 4096:
        faults.append(11)
    return (filters, assertions), min(faults, default=None)


# ---- Which request a text is (FORMATS, lines of a script and malformed requests) ----------------------------------

ROW = ["asn", "prefix", "max", "from", "until"]
TERMS = ["asn", "entries", "from", "until"]
FURTHER = {
    "register": ["holder"],
    "delegate": ["holder", "prefix"],
    "reclaim": ["holder", "prefix"],
    "transfer": ["prefix", "giver", "taker"],
    "grant": ["holder", "name", "role", "scope", "until"],
    "revoke": ["holder", "number"],
    "create": ["holder"] + TERMS,
    "amend": ["holder", "number", "maxes", "until"],
    "withdraw": ["holder", "number"],
    "show": ["holder", "number"],
    "content": ["holder", "number"],
    "list": ["holder"],
    "import": ["holder", "rows"],
    "whatif": ["holder", "changes", "routes"],
    "payloads": [],
    "slurm": ["files"],
    "validity": ["routes"],
}
CHANGES = {"create": TERMS, "withdraw": ["number"]}
ITEMS = {"rows": ROW, "routes": ["prefix", "origin"], "entries": ["prefix", "max"]}
LIMITS = {"rows": (1, 10_000), "routes": (1, 10_000), "changes": (0, 1000), "entries": (1, 64), "maxes": (1, 64)}


def with_lists(value, names):
    """The object with the list of one that `prefix` and `max`, or `max`, stand for, and in a line `file`."""
    value = dict(value)
    if "entries" in names and "entries" not in value and {"prefix", "max"} <= set(value):
        value["entries"] = [{name: value.pop(name) for name in ITEMS["entries"]}]
    if "maxes" in names and "maxes" not in value and "max" in value:
        value["maxes"] = [value.pop("max")]
    if {"files", "day"} <= set(names) and "files" not in value and "file" in value:
        value["files"] = [{"name": "main", "file": value.pop("file")}]
    return value


def read_members(value, names, faults):
    """The values of the members, and in `faults` every fault: (number,) or (11, the fault of the SLURM file)."""
    values = {}
    if type(value) is dict:
        value = with_lists(value, names)
    if type(value) is not dict or set(value) != set(names):
        faults.append((2,))
        return values
    for name in names:
        given = value[name]
        if name == "entries":
            values[name] = read_entries(given, faults)
        elif name in LIMITS:
            values[name] = read_items(name, given, faults)
        elif name == "files":
            values[name] = read_files(given, faults)
        elif name == "do":
            values[name] = given
        else:
            reader, fault = READERS[name]
            values[name] = reader(given)
            if values[name] is None:
                faults.append((fault,))
    if values.get("role") == "manager" and values["scope"] != "all":
        faults.append((9,))
    return values


def read_items(name, given, faults):
    if type(given) is not list:
        faults.append((2,))
        return []
    fewest, most = LIMITS[name]
    if not fewest <= len(given) <= most:
        faults.append((12,))
    if name == "maxes":
        return [read_members({"max": item}, ["max"], faults)["max"] for item in given]
    items = []
    for item in given:
        word = item.get("do") if type(item) is dict else None
        names = ITEMS.get(name)
        if name == "changes":
            names = ["do"] + (CHANGES[word] if type(word) is str and word in CHANGES else ["create or withdraw"])
        items.append(read_members(item, names, faults))
    return items


def read_entries(given, faults):
    """The entries as pairs of prefix and maxLength, in the order of prefixes where there is no fault."""
    entries = [(item.get("prefix"), item.get("max")) for item in read_items("entries", given, faults)]
    if len({prefix for prefix, _ in entries}) < len(entries):
        faults.append((14,))
    return entries if faults else sorted(entries)


def read_files(given, faults):
    """The filters and assertions of each file, by its name."""
    if type(given) is not list or any(type(item) is not dict or set(item) != {"name", "file"} for item in given):
        faults.append((2,))
        return {}
    if len(given) > 16:
        faults.append((12,))
    files = {}
    for item in given:
        name, (file, fault) = read_name(item["name"]), read_slurm(item["file"])
        if fault:
            faults.append((11, fault))
        if name is None or name in files:
            faults.append((15,))
        files[name] = file
    return files


def read_line(octets):
    """(values, None) or (None, fault)."""
    if len(octets) > LINE_LIMIT:
        return None, (13,)
    try:
        value = read_json(octets)
    except ValueError:
        return None, (1,)
    word = value.get("do") if type(value) is dict else None
    if type(word) is not str or word not in FURTHER:
        return None, (2,)
    faults = []
    values = read_members(value, ["day", "caller", "do"] + FURTHER[word], faults)
    return (None, min(faults)) if faults else (values, None)


def malformed(fault):
    return {"malformed": fault[0]} | ({"slurm": fault[1]} if fault[1:] else {})


# ---- What a history says (DEFINITIONS, commands, rules and rows) --------------------------------------------------
# An entry of a history has the members of its request. A history is a tuple of entries, the oldest first; an import is
# in it as the creates of its rows that made an authorization.


class Entry(dict):
    """One accepted command: a dictionary that is itself and no other, so that histories are keys of the caches."""
    __hash__ = object.__hash__
    __eq__ = object.__eq__
    __ne__ = object.__ne__


cached = functools.lru_cache(maxsize=50)


@cached
def registered(history):
    return {entry["holder"] for entry in history if entry["do"] == "register"}


RECEIVERS = {"delegate": "holder", "transfer": "taker", "reclaim": None}


@cached
def moves(history):
    """What moves space: (prefix, who receives it), None where nobody does."""
    return tuple((entry["prefix"], entry.get(RECEIVERS[entry["do"]])) for entry in history if entry["do"] in RECEIVERS)


def resource_holder(moved, address):
    """The receiver of the last delegation, transfer or reclaim whose prefix has the address."""
    receivers = [receiver for prefix, receiver in moved if has(prefix, address)]
    return receivers[-1] if receivers else None


def points(prefix, others):
    """Addresses that stand for all of the prefix: its first, and each where one of the others begins or has ended."""
    edges = [(other[0], edge) for other in others for edge in (other[1], other[1] + span(other))]
    return {prefix[:2]} | {edge for edge in edges if has(prefix, edge)}


@functools.lru_cache(maxsize=20_000)
def holds(moved, holder, prefix):
    """Whether the holder holds every address of the prefix."""
    return all(resource_holder(moved, address) == holder for address in points(prefix, [move[0] for move in moved]))


def hold_all(moved, holder, entries):
    return all(holds(moved, holder, prefix) for prefix, _ in entries)


Grant = collections.namedtuple("Grant", "number name role scope until")


@cached
def grants(history, holder):
    """The grants made at the holder, numbered from 1 as they were made; None is one that was revoked."""
    made = []
    for entry in history:
        if entry.get("holder") == holder and entry["do"] == "grant":
            made.append(Grant(len(made) + 1, *(entry[name] for name in ("name", "role", "scope", "until"))))
        if entry.get("holder") == holder and entry["do"] == "revoke":
            made[entry["number"] - 1] = None
    return made


def amended(auth, amend):
    """An authorization with the maxLengths, one an entry in order, and the last day that an amend says."""
    entries = [(prefix, longest) for (prefix, _), longest in zip(auth["entries"], amend["maxes"])]
    return auth | {"entries": entries, "until": amend["until"]}


@cached
def authorizations(history, holder):
    """The authorizations made at the holder, numbered from 1; None is one that is not active."""
    made, moved = [], 0
    for entry in history:
        moved += entry["do"] in RECEIVERS
        if entry.get("holder") != holder:
            continue
        if entry["do"] == "create":
            made.append({"number": len(made) + 1} | {name: entry[name] for name in TERMS} | {"moved": moved})
        if entry["do"] == "amend":
            made[entry["number"] - 1] = amended(made[entry["number"] - 1], entry)
        if entry["do"] == "withdraw":
            made[entry["number"] - 1] = None

    def is_active(auth):
        """In every beginning that has its making, its holder held its prefixes: only moves tell one from the next."""
        return auth and all(hold_all(moves(history)[:count], holder, auth["entries"])
                            for count in range(auth["moved"], len(moves(history)) + 1))

    return [auth if is_active(auth) else None for auth in made]


def active(history, holder):
    return [auth for auth in authorizations(history, holder) if auth]


def permits(history, request, prefix=None):
    """Whether the caller has a current grant of an allowed role, whose scope contains the prefix where one is asked."""
    reads = request["do"] in ("show", "content", "list")
    roles = ("manager", "clerk", "auditor") if reads else ("manager", "clerk")
    return any(grant and grant.name == request["caller"] and request["day"] <= grant.until and grant.role in roles
               and (prefix is None or grant.scope == "all" or contains(grant.scope, prefix))
               for grant in grants(history, request["holder"]))


def permits_all(history, request, entries):
    """Whether the caller is permitted each prefix of the entries; the grants may differ."""
    return all(permits(history, request, prefix) for prefix, _ in entries)


def vrps(history, day):
    """The VRPs of a day: prefix, max and AS, rising."""
    files = {}
    for entry in history:
        if entry["do"] == "slurm":
            files = entry["files"]
    filters = [one for file in files.values() for one in file[0]]
    assertions = [one for file in files.values() for one in file[1]]
    given = {(prefix, longest, auth["asn"]) for holder in registered(history) for auth in active(history, holder)
             if auth["from"] <= day <= auth["until"] for prefix, longest in auth["entries"]}

    def is_filtered(vrp):
        return any((prefix is None or contains(prefix, vrp[0])) and asn in (None, vrp[2]) for prefix, asn in filters)

    return sorted({vrp for vrp in given if not is_filtered(vrp)} | set(assertions))


def validity(payloads, route):
    """RFC 6811 section 2."""
    prefix, origin = route["prefix"], route["origin"]
    covering = [vrp for vrp in payloads if contains(vrp[0], prefix)]
    matching = [vrp for vrp in covering if prefix[2] <= vrp[1] and origin not in (NONE, 0) and origin == vrp[2]]
    return "Valid" if matching else "Invalid" if covering else "NotFound"


# ---- The rules (DEFINITIONS, the rules) ---------------------------------------------------------------------------

RULES = {
    "register": ["operator", "fresh"],
    "delegate": ["operator", "holder", "pool", "free"],
    "transfer": ["operator", "holder", "distinct", "held"],
    "reclaim": ["operator", "holder", "held"],
    "grant": ["steward", "holder", "dates", "room"],
    "revoke": ["steward", "number"],
    "create": ["grant", "scope", "dates", "length", "held", "same", "room"],
    "amend": ["grant", "number", "dates", "length", "same"],
    "withdraw": ["grant", "number"],
    "show": ["grant", "number"],
    "content": ["grant", "number"],
    "list": ["grant"],
    "slurm": ["operator", "overlap"],
}


def overlap(one, other):
    """Whether two SLURM files name prefixes with an address in common."""
    named = [[prefix for prefix, _ in file[0] if prefix] + [prefix for prefix, *_ in file[1]] for file in (one, other)]
    return any(contains(p, q) or contains(q, p) for p in named[0] for q in named[1])


def rule_holds(rule, charter, history, request):
    do, holder, day = request["do"], request.get("holder"), request["day"]
    operators, pool = charter
    terms = request if do == "create" else {}
    if do == "amend" and rule in ("dates", "length", "same"):
        auth = authorizations(history, holder)[request["number"] - 1]
        terms = amended(auth, request)
        if rule == "length" and len(request["maxes"]) != len(auth["entries"]):
            return False
    match rule:
        case "operator":
            return request["caller"] in operators
        case "overlap":
            return not any(overlap(one, other) for one, other in itertools.combinations(request["files"].values(), 2))
        case "steward":
            return request["caller"] in operators or any(
                grant and grant.name == request["caller"] and grant.role == "manager" and day <= grant.until
                for grant in grants(history, holder))
        case "grant":
            return permits(history, request)
        case "holder":
            return {request[name] for name in ("holder", "giver", "taker") if name in request} <= registered(history)
        case "fresh":
            return holder not in registered(history)
        case "number" if do == "revoke":
            return any(grant and grant.number == request["number"] for grant in grants(history, holder))
        case "number":
            return any(auth["number"] == request["number"] and permits_all(history, request, auth["entries"])
                       for auth in active(history, holder))
        case "scope":
            return permits_all(history, request, terms["entries"])
        case "dates":
            return terms.get("from", day) <= request["until"] and day <= request["until"]
        case "length":
            return all(prefix[2] <= longest <= WIDTH[prefix[0]] for prefix, longest in terms["entries"])
        case "pool":
            return all(any(has(prefix, address) for prefix in pool) for address in points(request["prefix"], pool))
        case "free":
            return all(resource_holder(moves(history), address) is None
                       for address in points(request["prefix"], [move[0] for move in moves(history)]))
        case "distinct":
            return request["giver"] != request["taker"]
        case "held" if do == "create":
            return hold_all(moves(history), holder, terms["entries"])
        case "held":
            return holds(moves(history), request["giver"] if do == "transfer" else holder, request["prefix"])
        case "same":
            return not any(auth["asn"] == terms["asn"] and set(auth["entries"]) & set(terms["entries"])
                           for auth in active(history, holder) if auth["number"] != terms.get("number"))
        case "room" if do == "grant":
            made = grants(history, holder)
            return sum(grant is not None for grant in made) < 64 and len(made) < 999_999
        case "room":
            return len(active(history, holder)) < 1000 and len(authorizations(history, holder)) < 999_999
    raise KeyError(rule)


def denial(charter, history, request):
    """The first rule that does not hold, or None."""
    return next((rule for rule in RULES[request["do"]] if not rule_holds(rule, charter, history, request)), None)


# ---- Answers (FORMATS, replies) -----------------------------------------------------------------------------------


def show_auth(auth):
    entries = [{"prefix": write_prefix(prefix), "max": longest} for prefix, longest in auth["entries"]]
    shown = entries[0] if len(entries) == 1 else {"entries": entries}
    return {"number": auth["number"], "asn": auth["asn"]} | shown | {"from": auth["from"], "until": auth["until"]}


def der(tag, octets):
    """An element of DER: a length over 127 is in octets of its own, after their number."""
    size = len(octets)
    if size < 128:
        return bytes([tag, size]) + octets
    length = size.to_bytes((size.bit_length() + 7) // 8, "big")
    return bytes([tag, 0x80 + len(length)]) + length + octets


def der_integer(number):
    return der(2, number.to_bytes(number.bit_length() // 8 + 1, "big"))


def roa_address(prefix, longest):
    family, first, length = prefix
    count = (length + 7) // 8
    bits = (first >> (WIDTH[family] - 8 * count)).to_bytes(count, "big")
    return der(0x30, der(3, bytes([8 * count - length]) + bits) + (der_integer(longest) if longest > length else b""))


def roa_content(auth):
    """RouteOriginAttestation of RFC 9582 section 4; the version is the default, and so is not written."""
    blocks = b""
    for family, number in ((4, 1), (6, 2)):
        addresses = [roa_address(*entry) for entry in auth["entries"] if entry[0][0] == family]
        if addresses:
            blocks += der(0x30, der(4, bytes([0, number])) + der(0x30, b"".join(addresses)))
    return der(0x30, der_integer(auth["asn"]) + der(0x30, blocks))


class Desk:
    def __init__(self, charter_text):
        """A charter file without faults."""
        rows = [line.split(",") for line in charter_text.split()[1:]]
        self.charter = ([value for kind, value in rows if kind == "operator"],
                        [read_prefix(value) for kind, value in rows if kind == "pool"])
        self.history = ()

    def answer(self, request):
        """The reply to a request, whose entry is put into the history where it is an accepted command."""
        do, history, holder = request["do"], self.history, request.get("holder")
        if do == "payloads":
            return {"payloads": [{"asn": asn, "prefix": write_prefix(prefix), "max": longest}
                                 for prefix, longest, asn in vrps(history, request["day"])]}
        if do == "validity":
            payloads = vrps(history, request["day"])
            return {"answers": [validity(payloads, route) for route in request["routes"]]}
        if do == "import":
            return self.imported(request)
        if do == "whatif":
            return self.report(request)
        rule = denial(self.charter, history, request)
        if rule:
            return {"denied": rule}
        if do == "list":
            return {"listed": [show_auth(auth) for auth in active(history, holder)
                               if permits_all(history, request, auth["entries"])]}
        if do in ("show", "content"):
            auth = authorizations(history, holder)[request["number"] - 1]
            return {"shown": show_auth(auth)} if do == "show" else {"content": roa_content(auth).hex()}
        self.history += (Entry(request),)
        made = {"grant": grants, "create": authorizations}.get(do)
        return {"done": len(made(self.history, holder)) if made else None}

    def imported(self, request):
        """Each row as a create on what the rows before it left; the first that is denied denies the import."""
        history, made = self.history, 0
        for place, row in enumerate(request["rows"], 1):
            terms = row | {"do": "create", "entries": [(row["prefix"], row["max"])]}
            create = Entry(terms | {name: request[name] for name in ("day", "caller", "holder")})
            if permits_all(history, create, create["entries"]) and any(
                    all(auth[name] == create[name] for name in TERMS) for auth in active(history, request["holder"])):
                continue
            rule = denial(self.charter, history, create)
            if rule:
                return {"denied": rule, "row": place}
            history += (create,)
            made += 1
        self.history = history
        return {"made": made, "present": len(request["rows"]) - made}

    def report(self, request):
        """Each change as a create or a withdrawal on what the changes before it left; nothing is kept."""
        history = self.history
        for place, change in enumerate(request["changes"], 1):
            entry = Entry(change | {name: request[name] for name in ("day", "caller", "holder")})
            rule = denial(self.charter, history, entry)
            if rule:
                return {"denied": rule, "row": place}
            history += (entry,)
        now, then = vrps(self.history, request["day"]), vrps(history, request["day"])
        return {"report": [[validity(now, route), validity(then, route)] for route in request["routes"]]}

    def answer_line(self, octets):
        request, fault = read_line(octets)
        return text_of(malformed(fault) if fault else self.answer(request))


def text_of(reply):
    return json.dumps(reply, separators=(",", ":"))


def lines_of(octets):
    """The pieces that a line feed ends, and a last piece that is not empty."""
    pieces = octets.split(b"\n")
    return pieces if pieces[-1] else pieces[:-1]


# ---- HTTP (FORMATS, HTTP and CSV files) ---------------------------------------------------------------------------

# Each path with what its methods ask for, in the order of the table.
ROUTES = [
    ("/holders/{holder}", {"PUT": "register"}),
    ("/holders/{holder}/delegations", {"POST": "delegate"}),
    ("/holders/{holder}/reclaims", {"POST": "reclaim"}),
    ("/transfers", {"POST": "transfer"}),
    ("/holders/{holder}/grants", {"POST": "grant"}),
    ("/holders/{holder}/grants/{number}", {"DELETE": "revoke"}),
    ("/holders/{holder}/auths", {"GET": "list", "POST": "create"}),
    ("/holders/{holder}/auths/{number}", {"GET": "show", "PATCH": "amend", "DELETE": "withdraw"}),
    ("/holders/{holder}/auths/{number}/content", {"GET": "content"}),
    ("/holders/{holder}/export", {"GET": "export"}),
    ("/holders/{holder}/imports", {"POST": "import"}),
    ("/holders/{holder}/whatif", {"POST": "whatif"}),
    ("/slurm", {"PUT": "slurm"}),
    ("/slurms", {"PUT": "slurms"}),
    ("/payloads", {"GET": "payloads"}),
    ("/validity", {"POST": "validity"}),
]
REASONS = {200: "OK", 400: "Bad Request", 403: "Forbidden", 404: "Not Found", 405: "Method Not Allowed",
           411: "Length Required", 413: "Content Too Large"}
TOKEN = rb"[-!#$%&'*+.^_`|~0-9A-Za-z]+"
IMPORT_HEADER = [b"asn", b"prefix", b"maxlength", b"from", b"until"]


def route_of(target):
    """(what the methods of the path ask for, its parameters), or None."""
    for template, methods in ROUTES:
        found = re.fullmatch(re.sub("{(.*?)}", "(?P<\\1>[^/?#]+)", template), target)
        if found:
            return methods, found.groupdict()
    return None


def csv_records(octets):
    """Quotes are undone, LF, CR LF and CR end a record, an empty line is no record."""
    field = re.compile(rb'(?:"((?:[^"]|"")*)(?:"|\Z))?([^,\r\n]*)')
    octets, records, at = octets.removeprefix(b"\xef\xbb\xbf"), [], 0
    while at < len(octets):
        if octets[at] in b"\r\n":
            at += 1
            continue
        records.append([])
        while True:
            found = field.match(octets, at)
            records[-1].append((found[1] or b"").replace(b'""', b'"') + found[2])
            at = found.end() + 1
            if octets[at - 1:at] != b",":
                break
    return records


def read_import(octets, faults):
    records = csv_records(octets)
    if records[:1] != [IMPORT_HEADER]:
        faults.append((2,))
        return []
    if not 1 <= len(records) - 1 <= 10_000:
        faults.append((12,))
    rows = []
    for record in records[1:]:
        if len(record) != len(IMPORT_HEADER):
            faults.append((2,))
            continue
        asn, prefix, longest, first, last = (field.decode("latin-1") for field in record)
        values = [read_digits(asn[2:], 2**32 - 1) if asn.startswith("AS") else None, read_prefix(prefix),
                  read_digits(longest, 255), read_day(first), read_day(last)]
        faults += [(READERS[name][1],) for name, value in zip(ROW, values) if value is None]
        rows.append(dict(zip(ROW, values)))
    return rows


def read_body(asked, octets, names, faults):
    """The members of a body."""
    if asked == "import":
        return {"rows": read_import(octets, faults)}
    try:
        value = read_json(octets)
    except ValueError:
        faults.append((11, 1) if asked == "slurm" else (1,))
        return {}
    return read_members({"files": [{"name": "main", "file": value}]} if asked == "slurm" else value, names, faults)


def response(status, body, kind="application/json", allow=None):
    fields = [f"HTTP/1.1 {status} {REASONS[status]}", f"Content-Type: {kind}", f"Content-Length: {len(body)}"]
    fields += [f"Allow: {', '.join(allow)}"] if allow else []
    return "\r\n".join(fields + ["Connection: close", "", body]).encode()


def refusal(status, allow=None):
    return response(status, text_of({"error": status}) + "\n", allow=allow)


def answer_message(desk, day, octets):
    """The response to the bytes of a connection; nothing where they are no whole request."""
    end = octets.find(b"\r\n\r\n", 0, 8192)
    if end < 0:
        return refusal(400) if len(octets) >= 8192 else b""
    first, *rest = octets[:end].split(b"\r\n")
    start = re.fullmatch(rb"(" + TOKEN + rb") ([^\x00-\x20\x7f]+) HTTP/1\.1", first)
    fields = [re.fullmatch(rb"(" + TOKEN + rb"):[ \t]*([^\x00-\x08\x0a-\x1f\x7f]*?)[ \t]*", line) for line in rest]
    if not start or not all(fields) or len(fields) > 32:
        return refusal(400)
    method, target = start[1].decode(), start[2].decode("utf-8", "replace")
    if not route_of(target):
        return refusal(404)
    methods, parameters = route_of(target)
    if method not in methods:
        return refusal(405, list(methods))

    def values_of(name):
        return [field[2] for field in fields if field[1].lower() == name]

    as_csv = methods[method] in ("export", "payloads")
    do = {"export": "list", "slurms": "slurm"}.get(methods[method], methods[method])
    names = [name for name in FURTHER[do] if name not in parameters]
    lengths = values_of(b"content-length")
    if values_of(b"transfer-encoding") or names and not lengths:
        return refusal(411)
    if lengths[1:] or lengths and not lengths[0].isdigit() or not names and lengths and int(lengths[0]):
        return refusal(400)
    length = int(lengths[0]) if lengths else 0
    if length > BODY_LIMIT:
        return refusal(413)
    body = octets[end + 4:end + 4 + length]
    if len(body) < length:
        return b""

    request, faults = {"day": day, "do": do}, []
    callers = values_of(b"desk-caller")
    given = {"caller": callers[0].decode("latin-1") if len(callers) == 1 else None, **parameters}
    if "number" in given:
        given["number"] = read_digits(given["number"], 999_999)
    request |= read_members(given, list(given), faults)
    if names:
        request |= read_body(methods[method], body, names, faults)
    if faults:
        return response(400, text_of(malformed(min(faults))) + "\n")
    reply = desk.answer(request)
    if "denied" in reply:
        return response(403, text_of(reply) + "\n")
    if not as_csv:
        return response(200, text_of(reply) + "\n")
    columns = ["asn", "prefix", "max"] if do == "payloads" else ["number"] + ROW
    lines = [",".join(columns).replace("max", "maxlength")]
    for item in reply["payloads" if do == "payloads" else "listed"]:
        for entry in item.get("entries", [item]):
            values = item | entry | {"asn": f"AS{item['asn']}"}
            lines.append(",".join(str(values[name]) for name in columns))
    return response(200, "\n".join(lines) + "\n", "text/csv")


if __name__ == "__main__":
    with open(sys.argv[1], encoding="utf-8") as file:
        desk = Desk(file.read())
    for piece in lines_of(sys.stdin.buffer.read()):
        print(desk.answer_line(piece))
