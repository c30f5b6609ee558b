#!/bin/sh
# Lays out what sign.py published as rpki-client 8 and fort 1.5, those of Debian 12, keep what they fetched, so that
# both validate it without a network.
#
#     cache.sh TREE CACHE
#
# CACHE is made anew. Then, as a user who may write to FOLDER, which rpki-client does not make (as root, it becomes the
# user _rpki-client):
#
#     rpki-client -n -c -d CACHE -t TREE/now/ta.tal FOLDER          # writes FOLDER/csv
#     fort --mode=standalone --work-offline --tal=TREE/now/ta.tal --local-repository=CACHE --output.roa=FOLDER/fort.csv
#
# Their clocks have to show the day of the last run of sign.py, or the day after. Neither's status tells whether all was
# valid: compare the VRPs. rpki-client 8 may crash, and writes none, if a tree was not signed anew for days.
set -eu
rm -rf "$2"
mkdir -p "$2/rpki.example.net" "$2/ta/ta"
cp -r "$1"/now/repository/. "$2/rpki.example.net"
cp "$1/now/repository/ta/ta.cer" "$2/ta/ta"
chmod -R a+rX "$2"
