#!/usr/bin/env bash
# mutants/results is up to date: each crate that has mutants was tried since it changed, and all of
# them were refused. Needs Python 3.
set -u
cd "$(dirname "$0")/.." || exit 1
exec bin/mutants --check
