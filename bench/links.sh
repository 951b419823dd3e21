#!/usr/bin/env bash
# How long links take to move, those that are known to lead somewhere and those that may be null: up by one place and
# down again, 50 million of them there and back for each count, one time from a multiple of 16 and one time from the
# place behind it. It makes a crate of bench/links_bench.rt.in and of the proofs below in a copy of the repository, with
# what earlier checks kept, so that no library is proved again, and runs it; words are handed to rt run, as --cpu
# x86-64-v3. The times are of the processor.
set -euo pipefail
cd "$(dirname "$0")/.."
room=$(mktemp -d)
trap 'rm -rf "$room"' EXIT

bench=$room/crates/links_bench
mkdir -p "$bench/src" "$bench/proofs/there_and_back" "$bench/proofs/rounds"
for crate in raw_region offset_link; do
  cp -a "crates/$crate" "$room/crates"
  grep "^$crate:" crates.txt >> "$room/crates.txt"
done
cp HANDLES "$room"
cp bench/links_bench.rt.in "$bench/src/main.rt"
echo 'links_bench: raw_region offset_link' >> "$room/crates.txt"
cd "$bench"
echo 'mod Kept' > proofs/Lib.antt
cat > proofs/Kept.antt <<'END'
use Rattle.std.proofs.Common.{◌≡◌, ◌+◌, ◌*◌, ◌%◌, ℕ, ◌∙◌, sym, subst}
use Rattle.std.specs.Prelude.{Option, Some, IfSome}
use Rattle.raw_region.specs.Memory.{Memory}
use Rattle.offset_link.specs.Relinked.{AllLead, AreLinks, KeepTargets}

pub kept : (m m' : Memory) (at to n : ℕ) → KeepTargets m m' at to n → AllLead m at n → AllLead m' to n
kept m m' at to n k all = record { each = λ i h. let l = all.each i h in (l.0, k.each i h ∙ l.1, l.2) }

pub as_links : (m : Memory) (at n : ℕ) → AllLead m at n → AreLinks m at n
as_links m at n all = record {
  each = λ k h. let l = all.each k h in subst (λ (o : Option ℕ). IfSome o (λ target. target % 16 ≡ 0)) (sym l.1) l.2;
}
END
cat > proofs/there_and_back/Answers.antt <<'END'
use Rattle.std.proofs.Common.{◌≡◌, ◌+◌, ◌-◌, ◌*◌, ℕ, arith, subst}
use Rattle.raw_region.specs.Memory.{bytes_of}
use Rattle.offset_link.specs.Relinked.{AllLead}
use Rattle.links_bench.proofs.Kept.{as_links, kept}
use Rattle.links_bench.proofs.there_and_back.Goals as goal

pub shift_non_null-requires-then-known-clause-links : goal.shift_non_null-requires-then-known-clause-links
shift_non_null-requires-then-known-clause-links c =
    kept (bytes_of c.args.w.now.bytes) (bytes_of c.shift_non_null.new.w.bytes) c.args.at (c.args.at + 8) c.args.n
    c.shift_non_null.ensures.lead c.requires.links

pub returns-then-known-clause-links : goal.returns-then-known-clause-links
returns-then-known-clause-links c =
    let one = kept (bytes_of c.args.w.now.bytes) (bytes_of c.shift_non_null.new.w.bytes) c.args.at (c.args.at + 8)
    c.args.n c.shift_non_null.ensures.lead c.requires.links in
    let end = bytes_of c.shift_non_null-then-known.new.w.bytes in
    let two = kept (bytes_of c.shift_non_null.new.w.bytes) end (c.args.at + 8)
    (c.args.at + 8 - 8) c.args.n c.shift_non_null-then-known.ensures.lead one in
    let e : c.args.at + 8 - 8 ≡ c.args.at = omega arith in subst (λ (k : ℕ). AllLead end k c.args.n) e two

pub shift-requires-clause-links : goal.shift-requires-clause-links
shift-requires-clause-links c = as_links (bytes_of c.args.w.now.bytes) c.args.at c.args.n c.requires.links

pub shift-requires-else-known-clause-links : goal.shift-requires-else-known-clause-links
shift-requires-else-known-clause-links c =
    as_links (bytes_of c.shift.new.w.bytes) (c.args.at + 8) c.args.n
    (kept (bytes_of c.args.w.now.bytes) (bytes_of c.shift.new.w.bytes) c.args.at (c.args.at + 8) c.args.n
    c.shift.ensures.lead c.requires.links)

pub returns-else-known-clause-links : goal.returns-else-known-clause-links
returns-else-known-clause-links c =
    let one = kept (bytes_of c.args.w.now.bytes) (bytes_of c.shift.new.w.bytes) c.args.at (c.args.at + 8)
    c.args.n c.shift.ensures.lead c.requires.links in
    let end = bytes_of c.shift-else-known.new.w.bytes in
    let two = kept (bytes_of c.shift.new.w.bytes) end (c.args.at + 8)
    (c.args.at + 8 - 8) c.args.n c.shift-else-known.ensures.lead one in
    let e : c.args.at + 8 - 8 ≡ c.args.at = omega arith in subst (λ (k : ℕ). AllLead end k c.args.n) e two
END
cat > proofs/rounds/Invariants.antt <<'END'
use Rattle.std.proofs.Common.{◌≡◌, ◌+◌, ◌*◌, ◌%◌, ◌≤◌, length, ℕ, ◌-◌, ◌<◌}
use Rattle.raw_region.specs.Memory.{bytes_of}
use Rattle.offset_link.specs.Relinked.{AllLead}
use Rattle.links_bench.proofs.rounds.Given as goal

abbrev pub invariant-rounds : goal.invariant-rounds
invariant-rounds l = record {
  long : length l.w.bytes ≡ length l.initial.w.bytes;
  links : AllLead (bytes_of l.w.bytes) l.at l.n;
}
END
rt run "$@" 2> "$room/messages" || { cat "$room/messages" >&2; exit 1; }
