#!/usr/bin/env bash
# Each class rule, by tables worked out by hand: classes that keep it are accepted, and for those
# that break it the first broken rule is reported, with its spot. Needs Python 3.
set -u
cd "$(dirname "$0")/.." || exit 1
. tests/lib.sh

tests/rules.py "$(executable)"
