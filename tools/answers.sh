#!/usr/bin/env bash
# Counts, crate by crate, what is written of proofs: answers, invariants, and the lemmas and lines of the crate's own files.
cd "${1:-$(dirname "$0")/..}/crates" || exit 1
for crate in *; do
  [ -d "$crate/proofs" ] || continue
  answers=$(find "$crate/proofs" -name Answers.antt -exec cat {} + 2>/dev/null | grep -c '^pub ')
  invariants=$(find "$crate/proofs" -name Invariants.antt -exec cat {} + 2>/dev/null | grep -c '^abbrev pub ')
  lemmas=$(cat "$crate"/proofs/*.antt 2>/dev/null | grep -cE '^ *(pub )?[a-zA-Z][^ ]* : ')
  lines=$(find "$crate/proofs" -name '*.antt' -exec cat {} + 2>/dev/null | wc -l)
  echo "$crate: $answers answers, $invariants invariants, $lemmas lemmas, $lines lines"
done
