#!/usr/bin/env python3
"""Signs what a desk authorizes: a demonstration of the way from its contents to a repository that validators read.

    sign.py SNAPSHOT.json TREE DAY

This is no authority for the real tree: its trust anchor is its own, under a name for examples, and its keys lie in
files. A registry's signer would follow the desk in the same way.

SNAPSHOT.json is what fetch.py wrote. TREE is a folder, made by the first run. DAY is the day of the desk, by UTC, on
which the validators' clocks have to be. In TREE/now are

    repository/     what is published, below rsync://rpki.example.net/: ta/ta.cer and repo/
    ta.tal          the locator of the trust anchor (RFC 8630)
    keys/, state.json    the keys of the authorities, and what they signed

Each holder has an authority whose resources are the holder's space alone, and each authorization a ROA (RFC 9582) that
is valid from its first day to its last. A run signs what is new, and revokes what is gone: an authorization is the same
while its content and its days are. Lists of what was revoked (RFC 5280) and manifests (RFC 9286) are made anew by each
run and hold for two days, so it has to run each day. Nothing is judged here: that a ROA lies within the holder's
space is for the validators to see.

Needs openssl, 3.0 or later. Prints what it signed and revoked. Ends with 1 where openssl failed, another run in TREE
has not ended or DAY lies before that of the run before; TREE/now then stays as it was.
"""
import concurrent.futures
import datetime
import fcntl
import ipaddress
import json
import os
import pathlib
import shutil
import subprocess
import sys
import tempfile

import der

HOST = "rsync://rpki.example.net"
ANCHOR = "TA"  # No holder has this name: theirs are in lower case.
WHOLE = ["0.0.0.0/0", "::/0"]
ROA, MANIFEST = "1.2.840.113549.1.9.16.1.24", "1.2.840.113549.1.9.16.1.26"
DAYS = {"anchor": 3650, "holder": 365, "renewal": 30, "lists": 2}

CONFIG = """
[req]
distinguished_name = subject
prompt = no
string_mask = nombstr
[subject]
[ca]
default_ca = authority
[authority]
database = {work}/database
serial = {work}/serial
crlnumber = {work}/crlnumber
new_certs_dir = {work}
unique_subject = no
default_md = sha256
policy = policy
crl_extensions = crl
[policy]
commonName = supplied
[crl]
authorityKeyIdentifier = keyid:always
[extensions]
subjectKeyIdentifier = hash
certificatePolicies = critical,1.3.6.1.5.5.7.14.2
{extensions}
"""
ISSUED = """
authorityKeyIdentifier = keyid:always
authorityInfoAccess = caIssuers;URI:{issuer.certificate_uri}
crlDistributionPoints = URI:{issuer.uri}{issuer.name}.crl
"""
AUTHORITY = """
basicConstraints = critical,CA:TRUE
keyUsage = critical,keyCertSign,cRLSign
subjectInfoAccess = caRepository;URI:{authority.uri},rpkiManifest;URI:{authority.uri}{authority.name}.mft
"""
SIGNED_OBJECT = """
keyUsage = critical,digitalSignature
subjectInfoAccess = signedObject;URI:{uri}
"""


def openssl(*words, octets=b""):
    """What it writes."""
    ended = subprocess.run(["openssl", *map(str, words)], input=octets, capture_output=True, check=False)
    if ended.returncode:
        sys.exit(f"sign.py: openssl {words[0]}: {ended.stderr.decode().strip()}")
    return ended.stdout


def make_key(file):
    openssl("genpkey", "-algorithm", "RSA", "-pkeyopt", "rsa_keygen_bits:2048", "-out", file)
    file.chmod(0o600)


def hexadecimal(number):
    """With an even number of digits."""
    return number.to_bytes(number.bit_length() // 8 + 1, "big").hex().upper()


def stamp(moment):
    return moment.strftime("%Y%m%d%H%M%SZ")


def day_time(day, clock="00:00:00"):
    return datetime.datetime.fromisoformat(f"{day}T{clock}")


def address_blocks(prefixes):
    """The extension of RFC 3779: openssl takes no prefix that lies in another."""
    networks = [ipaddress.ip_network(prefix) for prefix in prefixes]
    merged = [network for version in (4, 6) for network in ipaddress.collapse_addresses(
        network for network in networks if network.version == version)]
    return "sbgp-ipAddrBlock = critical," + ",".join(f"IPv{one.version}:{one}" for one in merged)


class Authority:
    """The trust anchor, or the authority of a holder: its files in `now`, and its part of the state."""

    def __init__(self, now, name, state):
        self.name, self.state = name, state
        self.key, self.pem = now / f"keys/{name}.key", now / f"keys/{name}.pem"
        self.folder, self.uri = now / f"repository/repo/{name}", f"{HOST}/repo/{name}/"
        at = "ta/ta.cer" if name == ANCHOR else f"repo/{ANCHOR}/{name}.cer"
        self.certificate, self.certificate_uri = now / "repository" / at, f"{HOST}/{at}"

    def make(self):
        """Its folder, and its key if it never had one."""
        self.folder.mkdir(parents=True)
        if not self.key.exists():
            make_key(self.key)

    def next_serial(self):
        self.state["serial"] += 1
        return self.state["serial"]

    def revoke(self, certificate, moment):
        self.state["revoked"].append([certificate["serial"], certificate["until"], stamp(moment)])


def new_state():
    return {"serial": 0, "manifest": 0, "made": "", "revoked": [], "objects": {}}


def prepared(work, extensions="", serial=0, number=0, revoked=()):
    """The configuration in the folder `work`, with the files that it names: what was signed before is in the state."""
    rows = [f"R\t{until}\t{when[2:]}\t{hexadecimal(which)}\tunknown\t/CN=x\n" for which, until, when in revoked]
    (work / "database").write_text("".join(rows), encoding="ascii")
    (work / "serial").write_text(hexadecimal(serial), encoding="ascii")
    (work / "crlnumber").write_text(hexadecimal(number), encoding="ascii")
    (work / "config").write_text(CONFIG.format(work=work, extensions=extensions), encoding="ascii")
    return work / "config"


def certify(work, issuer, key, subject, serial, days, extensions):
    """A certificate for the key, from the one moment to the other, in PEM; one that signs itself has no issuer."""
    config = prepared(work, extensions, serial)
    openssl("req", "-new", "-config", config, "-key", key, "-subj", f"/CN={subject}", "-out", work / "request")
    signing = ["-keyfile", key, "-selfsign"] if issuer is None else ["-keyfile", issuer.key, "-cert", issuer.pem]
    openssl("ca", "-batch", "-notext", "-config", config, *signing, "-startdate", stamp(days[0]), "-enddate",
            stamp(days[1]), "-extensions", "extensions", "-in", work / "request", "-out", work / "certificate")
    return work / "certificate"


def sign(issuer, name, serial, days, kind, resources, content):
    """The signed object (RFC 6488) of a content. Its key signs nothing else and is not kept."""
    with tempfile.TemporaryDirectory() as folder:
        work = pathlib.Path(folder)
        key = work / "key"
        make_key(key)
        extensions = ISSUED.format(issuer=issuer) + SIGNED_OBJECT.format(uri=issuer.uri + name) + resources
        certificate = certify(work, issuer, key, f"object-{serial}", serial, days, extensions)
        return openssl("cms", "-sign", "-binary", "-nodetach", "-keyid", "-nosmimecap", "-md", "sha256",
                       "-econtent_type", kind, "-signer", certificate, "-inkey", key, "-outform", "DER", octets=content)


def certify_authority(authority, issuer, space, day):
    """Its certificate, published where its issuer has it. A later one has the same subject, which its ROAs name."""
    signer = authority if issuer is None else issuer
    serial = signer.next_serial()
    further = "sbgp-autonomousSysNum = critical,AS:0-4294967295" if issuer is None else ISSUED.format(issuer=issuer)
    extensions = "\n".join([AUTHORITY.format(authority=authority), address_blocks(space), further])
    until = day + datetime.timedelta(DAYS["anchor" if issuer is None else "holder"])
    with tempfile.TemporaryDirectory() as folder:
        made = certify(pathlib.Path(folder), issuer, authority.key, authority.name, serial, (day, until), extensions)
        shutil.copyfile(made, authority.pem)
    authority.certificate.parent.mkdir(parents=True, exist_ok=True)
    openssl("x509", "-in", authority.pem, "-outform", "DER", "-out", authority.certificate)
    return {"serial": serial, "space": space, "until": stamp(until)}


def write_revoked(authority, moment, until):
    """The list of what it revoked."""
    with tempfile.TemporaryDirectory() as folder:
        state = authority.state
        config = prepared(pathlib.Path(folder), number=state["manifest"], revoked=state["revoked"])
        text = openssl("ca", "-gencrl", "-config", config, "-cert", authority.pem, "-keyfile", authority.key,
                       "-crl_lastupdate", stamp(moment), "-crl_nextupdate", stamp(until))
    openssl("crl", "-outform", "DER", "-out", authority.folder / f"{authority.name}.crl", octets=text)


def write_manifest(authority, updates, valid):
    """What its folder has: with these two updates, and a certificate from the one moment to the other."""
    name = f"{authority.name}.mft"
    files = {file.name: file.read_bytes() for file in authority.folder.iterdir() if file.name != name}
    content = der.manifest(authority.state["manifest"], *updates, files)
    inherit = "sbgp-ipAddrBlock = critical,IPv4:inherit,IPv6:inherit\nsbgp-autonomousSysNum = critical,AS:inherit"
    serial = authority.next_serial()
    (authority.folder / name).write_bytes(sign(authority, name, serial, valid, MANIFEST, inherit, content))
    authority.state["listed"] = {"serial": serial, "from": stamp(valid[0]), "until": stamp(valid[1])}


def write_lists(authority, moment):
    """What it revoked, and then the manifest: the last of what it writes."""
    state = authority.state
    state["manifest"] += 1
    if "listed" in state:
        # The manifest before is revoked (RFC 9286 section 5.1). What ended is on a list made later (RFC 5280 section
        # 3.3), and on none after it.
        state["revoked"] = [one for one in state["revoked"] if max(one[1:]) >= state["listed"]["from"]]
        authority.revoke(state["listed"], moment)
    days = moment, moment + datetime.timedelta(DAYS["lists"])
    write_revoked(authority, *days)
    write_manifest(authority, days, days)


def next_moment(state, day):
    """The beginning of the day, or a second after the run before: a manifest is newer than those before it."""
    last = state["made"]
    moment = max(day, datetime.datetime.fromisoformat(last) + datetime.timedelta(seconds=1)) if last else day
    state["made"] = moment.isoformat()
    return moment


def sign_roa(authority, number, serial, terms):
    content = bytes.fromhex(terms["content"])
    days = day_time(terms["from"]), day_time(terms["until"], "23:59:59")
    signed = sign(authority, f"{number}.roa", serial, days, ROA, address_blocks(der.roa_prefixes(content)), content)
    (authority.folder / f"{number}.roa").write_bytes(signed)
    return {"serial": serial, "until": stamp(days[1]), "terms": terms}


def follow_authorizations(authority, wanted, moment, pool):
    """Revokes the ROAs that are not as wanted, and signs those that are missing; many keys are made at once."""
    signed = authority.state["objects"]
    for number in [number for number in signed if signed[number]["terms"] != wanted.get(number)]:
        authority.revoke(signed.pop(number), moment)
        (authority.folder / f"{number}.roa").unlink()
        print(f"{authority.name} {number}: revoked")
    missing = [number for number in wanted if number not in signed]
    made = pool.map(lambda number, serial: sign_roa(authority, number, serial, wanted[number]), missing,
                    [authority.next_serial() for _ in missing])
    for number, one in zip(missing, made):
        signed[number] = one
        print(f"{authority.name} {number}: signed")


def follow_space(anchor, authority, space, day, moment):
    """A certificate for just this space, where there is none or it will end soon."""
    old = authority.state.get("certificate")
    if old and old["space"] == space and stamp(day + datetime.timedelta(DAYS["renewal"])) < old["until"]:
        return
    if old:
        anchor.revoke(old, moment)
    authority.state["certificate"] = certify_authority(authority, anchor, space, day)
    print(f"{authority.name}: certified for {' '.join(space)}")


def retire(anchor, authority, moment):
    """A holder without space has no certificate, and publishes nothing. Its key and its state are kept: with space
    again it has the same name and place, where numbers go on and what was signed before is revoked."""
    anchor.revoke(authority.state.pop("certificate"), moment)
    objects = authority.state["objects"]
    while objects:
        authority.revoke(objects.popitem()[1], moment)
    shutil.rmtree(authority.folder)
    for file in (authority.pem, authority.certificate):
        file.unlink()
    print(f"{authority.name}: revoked")


def open_anchor(now, states, day):
    """The trust anchor with its locator, made by the first run."""
    anchor = Authority(now, ANCHOR, states.setdefault(ANCHOR, new_state()))
    if not anchor.key.exists():
        anchor.key.parent.mkdir()
        anchor.make()
        anchor.state["certificate"] = certify_authority(anchor, None, WHOLE, day)
        key = openssl("x509", "-in", anchor.pem, "-noout", "-pubkey").decode().splitlines()[1:-1]
        (now / "ta.tal").write_text("\n".join([anchor.certificate_uri, "", *key, ""]), encoding="ascii")
    return anchor


def follow(snapshot, now, states, day):
    """Makes the files in `now` those of the snapshot."""
    anchor = open_anchor(now, states, day)
    moment = next_moment(anchor.state, day)
    held = {holder for holder in snapshot if snapshot[holder]["space"]}
    for holder in sorted(set(states) - held - {ANCHOR}):
        if "certificate" in states[holder]:
            retire(anchor, Authority(now, holder, states[holder]), moment)
    with concurrent.futures.ThreadPoolExecutor(os.cpu_count()) as pool:
        for holder in sorted(held):
            authority = Authority(now, holder, states.setdefault(holder, new_state()))
            if not authority.folder.exists():
                authority.make()
            follow_space(anchor, authority, snapshot[holder]["space"], day, moment)
            follow_authorizations(authority, snapshot[holder]["authorizations"], moment, pool)
            write_lists(authority, moment)
    write_lists(anchor, moment)


def lock(tree):
    """Until the process ends: another run would remove what this one makes, and sign under the same numbers."""
    try:
        fcntl.flock(os.open(tree, os.O_RDONLY), fcntl.LOCK_EX | fcntl.LOCK_NB)
    except BlockingIOError:
        sys.exit(f"sign.py: another run in {tree} has not ended")


def publish(tree, made):
    """`now` becomes the folder that was made, at once."""
    link = tree / "next"
    link.unlink(missing_ok=True)
    link.symlink_to(made.name)
    link.replace(tree / "now")
    for folder in tree.glob("made-*"):
        if folder != made:
            shutil.rmtree(folder)


def main(snapshot_file, tree, day):
    snapshot = json.loads(pathlib.Path(snapshot_file).read_text(encoding="ascii"))
    tree, day = pathlib.Path(tree).absolute(), day_time(day)
    now = tree / "now"
    tree.mkdir(exist_ok=True)
    lock(tree)
    states = json.loads((now / "state.json").read_text(encoding="ascii")) if now.exists() else {}
    if states and day.isoformat()[:10] < states[ANCHOR]["made"][:10]:
        sys.exit(f"sign.py: the last run was of {states[ANCHOR]['made'][:10]}")
    made = pathlib.Path(tempfile.mkdtemp(prefix="made-", dir=tree))
    if now.exists():
        # Nobody else may enter yet: a copied key gets its mode after its octets.
        shutil.copytree(now, made, dirs_exist_ok=True)
    made.chmod(0o755)
    try:
        follow(snapshot, made, states, day)
        (made / "state.json").write_text(json.dumps(states, indent=1), encoding="ascii")
    except BaseException:
        shutil.rmtree(made)
        raise
    publish(tree, made)


if __name__ == "__main__":
    if len(sys.argv) != 4:
        sys.exit(__doc__)
    main(*sys.argv[1:])
