#!/usr/bin/env bash
# Shows that the misuses in misuses/ do not compile, each by the error that is due, and that right use does.
set -euo pipefail
cd "$(dirname "$0")/.."
root=$(mktemp -d)
trap 'rm -rf "$root"' EXIT

# A copy of the repository with one crate more, which takes the place of each program in turn.
tar --exclude=out --exclude=target -cf - crates.txt crates | tar -xf - -C "$root"
libraries=$(sed -n 's/^running: *//p' crates.txt)
echo "misuse: running $libraries" >>"$root/crates.txt"
mkdir -p "$root/crates/misuse/src"

# What the check says of a program.
said_of() {
  cp "misuses/$1.rs" "$root/crates/misuse/src/lib.rt"
  (cd "$root/crates/misuse" && rt check 2>&1) || true
}

refused_by() {
  if said_of "$1" | grep -F "error[$2]"; then
    echo "misuses/$1.rs does not compile: $2"
  else
    echo "misuses/$1.rs: the error $2 did not come" >&2
    exit 1
  fi
}

said=$(said_of right)
if grep -F "error" <<<"$said" >&2 || ! grep -qF "logic=proved" <<<"$said"; then
  echo "misuses/right.rs: it should compile" >&2
  exit 1
fi
echo "misuses/right.rs compiles"
refused_by load_while_running unknown-method
refused_by load_what_was_started borrow-e0382
refused_by start_twice borrow-e0382
