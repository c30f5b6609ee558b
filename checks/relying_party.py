"""Has a desk's authorizations signed and validated, and compares the VRPs: see relying_party.sh.

    relying_party.py PROGRAM TOP WORK    WORK is an empty folder but for `out`, which rpki-client may write
"""
import csv
import datetime
import ipaddress
import json
import pathlib
import random
import re
import shutil
import subprocess
import sys
import time
import urllib.error
import urllib.request

sys.path.insert(0, str(pathlib.Path(__file__).resolve().parent.parent / "examples/signer"))
import sign
from common import charter_of, connected, free_port, serve_words, slurm_file

# The first and the last AS number of each count of octets, in DER too, if a first bit takes an octet of its own.
NUMBERS = [0, 1, 127, 128, 255, 256, 32767, 32768, 65535, 65536, 2**23 - 1, 2**23, 2**24 - 1, 2**24, 2**31 - 1, 2**31,
           2**32 - 1]
# What each holder has at last.
SPACE = {"alpha": ("0.0.0.0/1", "::/1"), "beta": ("128.0.0.0/2", "8000::/2"), "gamma": ("192.0.0.0/2", "c000::/2")}
MOVED = "10.0.0.0/8"

FILES = [
    {"name": "noc", "file": slurm_file(
        [{"asn": 65536}, {"prefix": "192.0.0.0/3"}, {"prefix": "8000::/3", "asn": 128}],
        [{"asn": 65536, "prefix": "198.51.100.0/24"}, {"asn": 0, "prefix": "192.0.2.0/24", "maxPrefixLength": 32}])},
    {"name": "customer", "file": slurm_file(
        (), [{"asn": 64500, "prefix": "2001:db8::/32", "maxPrefixLength": 48, "comment": "has no ROAs"}])},
]


def run(*words, **options):
    """What a program writes, which has to end with 0."""
    ended = subprocess.run(list(map(str, words)), capture_output=True, text=True, timeout=1800, check=False, **options)
    if ended.returncode:
        print(f"{words[0]} ended with {ended.returncode}:\n{ended.stdout[-500:]}{ended.stderr[-2000:]}")
        sys.exit(1)
    return ended.stdout


class Desk:
    """A desk on a file, served on one day or another."""

    def __init__(self, program, work):
        self.program, self.database, self.served = program, work / "desk.db", None
        charter = work / "charter.csv"
        charter.write_text(charter_of("0.0.0.0/0", "::/0"), encoding="ascii")
        run(program, "init", "--db", self.database, "--charter", charter)

    def stop(self):
        if self.served:
            self.served.kill()
            self.served.wait()

    def serve(self, day):
        self.stop()
        port = free_port()
        self.address = f"http://127.0.0.1:{port}"
        with open(self.database.with_suffix(".log"), "ab") as log:
            self.served = subprocess.Popen([self.program, *serve_words(self.database, port, 1_000_000, day)], stderr=log)
        client = connected(port, self.served)
        if not client:
            sys.exit(1)
        client.close()

    def ask(self, caller, method, path, body=None):
        """The body of a response, which has to be of status 200."""
        octets = None if body is None else json.dumps(body).encode()
        request = urllib.request.Request(self.address + path, octets, {"Desk-Caller": caller}, method=method)
        try:
            with urllib.request.urlopen(request, timeout=60) as response:
                return response.read().decode()
        except urllib.error.HTTPError as error:
            print(f"{method} {path} {octets}: {error.code} {error.read().decode()}")
            sys.exit(1)

    def create(self, holder, asn, entries, first, last):
        """The number of a new authorization; entries are pairs of prefix and maxLength."""
        listed = [{"prefix": prefix, "max": longest} for prefix, longest in entries]
        made = self.ask("ann", "POST", f"/holders/{holder}/auths",
                        {"asn": asn, "entries": listed, "from": first, "until": last})
        return json.loads(made)["done"]

    def payloads(self):
        return vrps(self.ask("noc", "GET", "/payloads"))


def vrps(text):
    """The rows after the header: AS, prefix, maxLength. The validators spell some prefixes otherwise than the desk."""
    rows = list(csv.reader(text.splitlines()))[1:]
    return {(asn, ipaddress.ip_network(prefix), int(longest)) for asn, prefix, longest, *_ in rows}


class Relying:
    """The way from a desk to what the validators find."""

    def __init__(self, top, work, day):
        self.top, self.work, self.day, self.failed, self.said = top, work, day, False, ""

    def snapshot(self, desk):
        """What fetch.py makes of the desk, whose files are copied while it is stopped."""
        desk.stop()
        for file in desk.database.parent.glob("desk.db*"):
            shutil.copyfile(file, file.with_name(file.name.replace("desk", "copy")))
        with open(self.top / "examples/registry.sql", encoding="ascii") as listing:
            registry = run("sqlite3", self.work / "copy.db", stdin=listing)
        (self.work / "registry.csv").write_text(registry, encoding="ascii")
        for file in self.work.glob("copy.db*"):
            file.unlink()
        desk.serve(self.day)
        fetch = self.top / "examples/signer/fetch.py"
        return json.loads(run("python3", "-B", fetch, desk.address, "ann", self.work / "registry.csv"))

    def sign(self, snapshot, tree):
        """Signs it, and tells how many ROAs were signed and revoked."""
        file = self.work / "snapshot.json"
        file.write_text(json.dumps(snapshot), encoding="ascii")
        began = time.time()
        lines = run("python3", "-B", self.top / "examples/signer/sign.py", file, tree, self.day).splitlines()
        counts = {word: sum(line.endswith(f": {word}") for line in lines) for word in ("signed", "revoked")}
        print(f"{counts['signed']} signed, {counts['revoked']} revoked in {time.time() - began:.0f} s")
        return counts

    def validate(self, tree, slurm=None):
        """The VRPs that rpki-client and fort write, which may write none; with SLURM files fort alone. What they say
        beside is in `said`."""
        cache, out, exported = self.work / "cache", self.work / "out", self.work / "fort.csv"
        run(self.top / "examples/signer/cache.sh", tree, cache)
        for file in [*out.iterdir(), exported]:
            file.unlink(missing_ok=True)
        tal = tree / "now/ta.tal"
        commands = [["fort", "--mode=standalone", "--work-offline", f"--tal={tal}", f"--local-repository={cache}",
                     f"--output.roa={exported}", "--output.format=csv", "--validation-log.enabled=true",
                     "--validation-log.output=console"] + ([f"--slurm={slurm}"] if slurm else [])]
        commands += [] if slurm else [["rpki-client", "-n", "-c", "-d", cache, "-t", tal, out]]
        self.said = "".join(
            subprocess.run(words, stdout=subprocess.PIPE, stderr=subprocess.STDOUT, text=True, timeout=300, check=False)
            .stdout for words in commands)
        files = [exported] if slurm else [out / "csv", exported]
        return [vrps(file.read_text(encoding="ascii")) if file.exists() else set() for file in files]

    def expect(self, name, found, expected):
        """Whether each validator found just these VRPs."""
        differing = [one for one in found if one != expected]
        print(f"{name}: {len(expected)} VRPs: {'differs' if differing else 'ok'}")
        for one in differing:
            self.failed = True
            for text, some in (("beyond them", one - expected), ("without", expected - one)):
                print(f"    {text} {len(some)}, such as {sorted(map(str, some))[:3]}")

    def round(self, name, desk, tree):
        """Signs what the desk has, and compares the VRPs without exceptions and with them. Gives the snapshot, the VRPs
        without exceptions, and how many were signed and revoked."""
        snapshot = self.snapshot(desk)
        desk.ask("reg", "PUT", "/slurms", {"files": []})
        plain = desk.payloads()
        counts = self.sign(snapshot, tree)
        self.expect(name, self.validate(tree), plain)
        desk.ask("reg", "PUT", "/slurms", {"files": FILES})
        excepted = desk.payloads()
        self.expect(f"{name}, with exceptions", self.validate(tree, self.slurm_files()), excepted)
        if plain == excepted:
            self.failed = True
            print("the exceptions do nothing")
        return snapshot, plain, counts

    def judge_changes(self, before, after, counts):
        """Whether just those were signed and revoked that changed, one of them in a day alone."""
        old, new = [{(holder, number): terms for holder, one in snapshot.items()
                     for number, terms in one["authorizations"].items()} for snapshot in (before, after)]
        gone = {name for name in old if name not in new}
        changed = {name for name in old.keys() & new.keys() if old[name] != new[name]}
        days = {name for name in changed if old[name]["content"] == new[name]["content"]}
        print(f"{len(gone)} are gone, {len(changed)} changed, {len(days)} in a day alone")
        expected = {"signed": len(new.keys() - old.keys()) + len(changed), "revoked": len(gone) + len(changed)}
        if len(gone) <= 10 or len(changed) != 5 or len(days) != 1 or counts != expected:
            self.failed = True
            print(f"signed and revoked {counts}, not {expected}")

    def slurm_files(self):
        """A folder as fort reads it."""
        folder = self.work / "slurm"
        folder.mkdir(exist_ok=True)
        for item in FILES:
            (folder / f"{item['name']}.slurm").write_text(json.dumps(item["file"]), encoding="ascii")
        return folder


def drawn(chance, base, length):
    """A prefix of this length in the base."""
    base = ipaddress.ip_network(base)
    width = base.max_prefixlen
    first = int(base.network_address) + chance.getrandbits(width - base.prefixlen)
    return str(type(base)((first >> (width - length) << (width - length), length)))


def single_prefixes(chance):
    """(holder, prefix, maxLength): each length but 0 in each family, without a maxLength of its own and with one."""
    for place, width in enumerate((32, 128)):
        for length in range(1, width + 1):
            for longest in {length, chance.randint(min(length + 1, width), width)}:
                holder = list(SPACE)[length % 3 if length > 1 else 0]
                yield holder, drawn(chance, SPACE[holder][place], length), longest


def listed_prefixes(chance):
    """Lists of pairs: 64 of one family, 64 of both, nested ones, neighbours, two."""
    four, six = SPACE["gamma"]
    yield [(prefix, 24) for prefix in sorted({drawn(chance, four, 24) for _ in range(64)})]
    sixes = [(f"c000:db8:{at:x}::/48", 48 + at) for at in range(1, 33)]
    yield [(f"198.51.{at}.0/24", 24 + at % 9) for at in range(32)] + sixes
    yield [("203.0.0.0/16", 20), ("203.0.113.0/24", 24), ("203.0.113.128/25", 32), ("c000::/2", 2), ("c001::/16", 128)]
    yield [("192.0.2.0/25", 25), ("192.0.2.128/25", 25), ("192.0.3.0/24", 24)]
    yield [("198.51.100.0/24", 24), ("c000:db8::/32", 48)]
    yield [("c000::ffff:c000:0/112", 112), ("c000::/128", 128)]


def open_whole(desk, first):
    """One holder has all, and authorizes the prefixes of length 0."""
    for holder in SPACE:
        desk.ask("reg", "PUT", f"/holders/{holder}")
        grant = {"name": "ann", "role": "manager", "scope": "all", "until": "9999-12-31"}
        desk.ask("reg", "POST", f"/holders/{holder}/grants", grant)
    for prefix, longest, asn in (("0.0.0.0/0", 32, 0), ("::/0", 128, 2**32 - 1)):
        desk.ask("reg", "POST", "/holders/alpha/delegations", {"prefix": prefix})
        desk.create("alpha", asn, [(prefix, longest)], first, "9999-12-31")


def fill(desk, days):
    """All authorizations of the three holders; the prefixes of length 0 go with the transfers."""
    chance = random.Random(1)
    before, yesterday, day, tomorrow = days
    for holder in ("beta", "gamma"):
        for prefix in SPACE[holder]:
            desk.ask("reg", "POST", "/transfers", {"prefix": prefix, "giver": "alpha", "taker": holder})
    count = 0
    for holder, prefix, longest in single_prefixes(chance):
        desk.create(holder, NUMBERS[count % len(NUMBERS)], [(prefix, longest)], before, "9999-12-31")
        count += 1
    for entries in listed_prefixes(chance):
        desk.create("gamma", 64500 + count, entries, before, tomorrow)
        count += 1
    for first, last in ((yesterday, yesterday), (day, day), (before, tomorrow), (tomorrow, tomorrow)):
        desk.create("alpha", 64496, [("127.0.0.0/8", 8 + count % 20)], first, last)
        count += 1
    print(f"{count} authorizations")


def change(desk, tomorrow):
    """Ten are withdrawn, five amended, one of these in its last day alone, and a prefix goes to another holder."""
    shown = json.loads(desk.ask("ann", "GET", "/holders/beta/auths"))["listed"]
    path = "/holders/beta/auths/{number}".format
    for auth in shown[:10]:
        desk.ask("ann", "DELETE", path(**auth))
    desk.ask("ann", "PATCH", path(**shown[10]), {"max": shown[10]["max"], "until": tomorrow})
    for auth in shown[11:15]:
        length, width = int(auth["prefix"].split("/")[1]), 32 if "." in auth["prefix"] else 128
        longest = length if auth["max"] == width else width
        desk.ask("ann", "PATCH", path(**auth), {"max": longest, "until": auth["until"]})
    desk.create("alpha", 64496, [(MOVED, 8)], tomorrow, tomorrow)
    desk.ask("reg", "POST", "/transfers", {"prefix": MOVED, "giver": "alpha", "taker": "beta"})
    desk.create("beta", 64497, [(MOVED, 24)], "1970-01-01", tomorrow)


def return_space(relying, snapshot, plain, tree):
    """One holder, with two authorizations, loses its space and gets it back: numbers go on, and all is revoked that was
    signed before, manifests too."""
    copy = shutil.copytree(tree, relying.work / "away", symlinks=True)
    relying.sign({}, copy)
    relying.expect("without any space", relying.validate(copy), set())
    relying.sign(snapshot, copy)
    relying.expect("with space again", relying.validate(copy), plain)
    for name, expected in (("alpha", [2, 1, 2, 3]), ("TA", [3, 2, 3, 4])):
        file = copy / f"now/repository/repo/{name}/{name}.crl"
        text = run("openssl", "crl", "-inform", "DER", "-in", file, "-noout", "-text")
        found = [int(number, 16) for number in re.findall(r"Number:\s+([0-9A-F]+)", text)]
        if found != expected:
            relying.failed = True
            print(f"{name}.crl has the number {found[0]} and the serials {found[1:]}, not those of {expected}")


def contents_of(snapshot, holder):
    """The numbers of the holder's authorizations of one short prefix, with their contents."""
    terms = snapshot[holder]["authorizations"]
    return [(number, terms[number]) for number in terms if len(terms[number]["content"]) < 100
            and terms[number]["until"] == "9999-12-31"]


def without(desk, holder, number, plain):
    """The VRPs but for those of one authorization, which no other gives."""
    shown = json.loads(desk.ask("ann", "GET", f"/holders/{holder}/auths/{number}"))["shown"]
    gone = {(f"AS{shown['asn']}", ipaddress.ip_network(shown["prefix"]), shown["max"])}
    assert gone <= plain
    return plain - gone


def refuse_bit(relying, desk, snapshot, plain, tree):
    """The last bit of the AS number; the manifest is made anew, so it has the hash of the changed ROA."""
    copy = shutil.copytree(tree, relying.work / "bit", symlinks=True)
    number, terms = contents_of(snapshot, "gamma")[3]
    content = bytes.fromhex(terms["content"])
    file = copy / f"now/repository/repo/gamma/{number}.roa"
    octets = file.read_bytes()
    at = octets.index(content) + 3 + content[3]
    file.write_bytes(octets[:at] + bytes([octets[at] ^ 1]) + octets[at + 1:])
    relying.sign(snapshot, copy)
    relying.expect("a ROA with one bit changed", relying.validate(copy), without(desk, "gamma", number, plain))


def refuse_beyond(relying, desk, snapshot, plain, tree):
    """An authorization of one holder, signed by the authority of another."""
    copy = shutil.copytree(tree, relying.work / "beyond", symlinks=True)
    changed = json.loads(json.dumps(snapshot))
    number = contents_of(snapshot, "gamma")[4][0]
    changed["beta"]["authorizations"]["999999"] = changed["gamma"]["authorizations"].pop(number)
    relying.sign(changed, copy)
    relying.expect("a ROA beyond its holder's space", relying.validate(copy), without(desk, "gamma", number, plain))


def refuse_stale(relying, plain, tree):
    """A manifest of one holder whose next update is past; its certificate, what is revoked and all ROAs are in date."""
    day = datetime.datetime.fromisoformat(relying.day)
    valid = [day + datetime.timedelta(offset) for offset in (-10, 2)]
    spaces = {space.version: space for space in map(ipaddress.ip_network, SPACE["gamma"])}
    beside = {vrp for vrp in plain if not vrp[1].subnet_of(spaces[vrp[1].version])}
    for name, last, expected in (("a manifest in date", 2, plain), ("a stale manifest", -1, beside)):
        copy = shutil.copytree(tree, relying.work / f"manifest{last}", symlinks=True)
        now = copy / "now"
        state = json.loads((now / "state.json").read_text(encoding="ascii"))["gamma"]
        state["manifest"] += 1
        sign.write_manifest(sign.Authority(now, "gamma", state), (valid[0], day + datetime.timedelta(last)), valid)
        relying.expect(name, relying.validate(copy), expected)
    for words in ("gamma.mft: mft expired on ", "gamma.mft: Manifest is stale. "):
        if words not in relying.said:
            relying.failed = True
            print(f"nobody says {words}: {relying.said[-2000:]}")


def system_day():
    """Today, by UTC; where it ends soon, tomorrow, after a wait."""
    left = 86400 - time.time() % 86400
    if left < 1800:
        print(f"waiting {left:.0f} s for a new day")
        time.sleep(left + 1)
    return datetime.datetime.now(datetime.timezone.utc).date()


def main(program, top, work):
    today = system_day()
    days = [(today + datetime.timedelta(offset)).isoformat() for offset in (-40, -1, 0, 1)]
    relying, desk = Relying(pathlib.Path(top), pathlib.Path(work), days[2]), Desk(program, pathlib.Path(work))
    tree = relying.work / "tree"
    try:
        desk.serve(days[1])
        open_whole(desk, days[0])
        snapshot, plain, _ = relying.round("the prefixes of length 0", desk, tree)
        return_space(relying, snapshot, plain, tree)
        desk.serve(days[1])
        fill(desk, days)
        before = relying.round("some 300 authorizations", desk, tree)[0]
        change(desk, days[3])
        snapshot, plain, counts = relying.round("after the changes", desk, tree)
        relying.judge_changes(before, snapshot, counts)
        refuse_bit(relying, desk, snapshot, plain, tree)
        refuse_beyond(relying, desk, snapshot, plain, tree)
        refuse_stale(relying, plain, tree)
    finally:
        desk.stop()
    sys.exit(relying.failed)


if __name__ == "__main__":
    main(*sys.argv[1:])
