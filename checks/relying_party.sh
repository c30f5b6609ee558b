#!/usr/bin/env bash
# Whether two relying parties, rpki-client and fort, get from what examples/signer makes of a desk just the VRPs that
# the desk exports.
#
#     relying_party.sh
#
# relying_party.py makes some 330 authorizations of three holders over HTTP. They have every prefix length of both
# families, AS numbers where their octets end, AS 0, up to 64 prefixes, and prefixes of both families. Some first days
# are to come, and some last days are past. They are signed, and both validate them without a network. Then some are
# withdrawn and amended and a prefix is transferred; what changed is signed, and they validate again. fort also applies
# the SLURM files that the desk has. A holder whose space went and came back has rising numbers, and all is revoked that
# was signed before. Last come three trees that each has to refuse. They have a ROA with one bit changed, one beyond its
# holder's space, and a manifest that is stale while all else is in date. Neither's status says so: the VRPs do.
#
# The validators read more spellings of a content than the desk writes. So this shows that they read each content as the
# desk means it, not that no other octets are read so.
#
# Takes the system's day, and waits if it ends soon. Takes two minutes or more, for keys.
#
# Needs the built program, which PROGRAM may name, python3 from 3.10 on, rpki-client and fort in the versions of Debian
# 12 (8 and 1.5), openssl and sqlite3.
#
# Exit status: 0 if all ran and held; 1 if the VRPs are others or something failed; 77, after what is missing, if it
# could not be run.
set -u
. "$(dirname "${BASH_SOURCE[0]}")/../tools/common.sh"
PATH=$PATH:/usr/sbin
need_python
need rpki-client fort openssl sqlite3
[[ $(fort --version) == *" 1.5."* ]] || skip 'fort is not of version 1.5, that of Debian 12'
[[ $(rpki-client -V 2>&1) == *" 8."* ]] || skip 'rpki-client is not of version 8, that of Debian 12'
find_program
make_work
# As root, rpki-client becomes a user of its own.
chmod 711 "$work" && mkdir "$work/out" || exit 1
[ "$(id -u)" != 0 ] || chown _rpki-client "$work/out" || exit 1
run_python "$top/checks/relying_party.py" "$program" "$top" "$work"
end
