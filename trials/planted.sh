#!/usr/bin/env bash
# Tries the planted bugs of the crates named, or of all, in a copy of this checkout: builds the libraries that they need, and passes its arguments to
# tools/planted.py, whose lines and last line it prints.
#
# usage: trials/planted.sh [CRATE..]
set -euo pipefail
top="$(cd "$(dirname "${BASH_SOURCE[0]}")/.." && pwd)"
[ $# -gt 0 ] || set -- $(cd "$top/planted" && ls -d -- */ | tr -d /)
copy="$(mktemp -d)"
trap 'rm -rf "$copy"' EXIT
cp -r "$top/crates" "$top/crates.txt" "$top/HANDLES" "$top/tools" "$top/planted" "$copy"
rm -rf "$copy"/crates/*/out
cd "$copy"
rt all check > "$copy/log" 2>&1 || { tail -40 "$copy/log" >&2; exit 1; }
tools/planted.py "$@"
