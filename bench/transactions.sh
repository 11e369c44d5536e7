#!/usr/bin/env bash
# How long 200,000 transactions take over a window by one rank, beside the same over the plain store. Each reads four of
# 1,000 objects of 20 words and writes two of them, in one thread. The transactions are generic over stores, so both run
# the same ones. They are proved and built in a copy of the crates, which is made for this and thrown away; where the
# libraries below weren't built here before, they are proved first, and that takes long. Give how often it is run.
set -eu
top=$(cd "$(dirname "$0")/.." && pwd)
folder=$(mktemp -d)
trap 'rm -rf "$folder"' EXIT
cp -r "$top/crates" "$top/crates.txt" "$top/HANDLES" "$folder"
crate=$folder/crates/store_costs
mkdir -p "$crate/src" "$crate/proofs/cost/work"
echo "store_costs: object_txn object_moves object_store block_pool fabric window_rule free_list lock_words object_words gdi_kinds rma_layout atomic_table" >>"$folder/crates.txt"
cat >"$crate/src/lib.rt" <<'END'
//! What transactions cost.
#![tactic(auto)]

#[cfg(test)]
mod cost;
END
cat >"$crate/proofs/cost/work/Invariants.antt" <<'END'
use Rattle.std.proofs.Common.{◌≡◌, ◌≤◌, ◌+◌}
use Rattle.object_store.specs.declared.phase.Phase.TheVariants.{Idle}
use Rattle.store_costs.proofs.cost.work.Given as goal

abbrev pub invariant-loop-t : goal.invariant-loop-t
invariant-loop-t g l = record {
  idle : (g.S.Store.state l.store).phase ≡ Idle;
  shape : (g.S.Store.state l.store).shape ≡ (g.S.Store.state l.fn.store).shape;
  allowance : (g.S.Store.state l.fn.store).allowance ≤ (g.S.Store.state l.store).allowance + l.t;
}
END
cat >"$crate/src/cost.rt" <<'END'
ghost use Rattle.std.specs.Prelude.{◌≡◌, ◌+◌, ◌<◌, ◌≤◌, ◌^◌, IfOk, length};
ghost use Rattle.object_store.specs.declared.phase.Phase.TheVariants.{Idle};
ghost use Rattle.rma_layout.specs.Shape.{reserved_blocks};

use fabric::Window;
use gdi_kinds::NoMemory;
use object_store::{PlainStore, Store};
use object_txn::WindowStore;
use object_words::{Carries, Law, Words};
use rma_layout::{DPtr, Geometry};
use std::alloc::Global;
use std::test::Fail;
use std::time::Instant;

/// A law that every entry satisfies.
pub(crate) struct Anything;

impl Law for Anything {
    type Note = ();

    ghost fits = { λ _ _. Unit {0} };
}

/// A note that says nothing.
#[derive(Drop)]
pub(crate) struct NoNote;

impl Carries<Anything> for NoNote {
    ghost note = { λ _. tt };
}

/// Twenty words.
fn numbers(alloc: Global, seed: u64) -> Result<Words, NoMemory>
    ensures { IfOk result (λ words. length words ≤ 20) }
{
    let mut words = Words::new(alloc);
    words.push(seed)?;
    words.push(seed)?;
    words.push(seed)?;
    words.push(seed)?;
    words.push(seed)?;
    words.push(seed)?;
    words.push(seed)?;
    words.push(seed)?;
    words.push(seed)?;
    words.push(seed)?;
    words.push(seed)?;
    words.push(seed)?;
    words.push(seed)?;
    words.push(seed)?;
    words.push(seed)?;
    words.push(seed)?;
    words.push(seed)?;
    words.push(seed)?;
    words.push(seed)?;
    words.push(seed)?;
    Ok(words)
}

/// One transaction: it reads four objects and writes the first two of them.
fn one_txn<S: Store<Anything>>(store: &mut S, alloc: Global, t: u64) -> Result<u64, S::Refused>
    requires idle { (S.state store.old).phase ≡ Idle }
    requires wide { (1000 ≤ reserved_blocks (S.state store.old).shape) × (1000 ≤ (S.state store.old).shape.blocks) }
    requires rank { 0 < (S.state store.old).shape.ranks }
    requires few { t < 2 ^ 32 }
    requires allowed { 0 < (S.state store.old).allowance }
    ensures idle { (S.state store.new).phase ≡ Idle }
    ensures shape { (S.state store.new).shape ≡ (S.state store.old).shape }
    ensures allowance { (S.state store.old).allowance ≤ (S.state store.new).allowance + 1 }
{
    let a = DPtr::new(0, (t * 7) % 1000);
    let b = DPtr::new(0, (t * 7 + 13) % 1000);
    let c = DPtr::new(0, (t * 7 + 26) % 1000);
    let d = DPtr::new(0, (t * 7 + 39) % 1000);
    let one = numbers(alloc, t)?;
    let two = numbers(alloc, t)?;
    store.begin(true)?;
    store.read(a)?;
    store.read(b)?;
    store.read(c)?;
    store.read(d)?;
    store.write(a, one)?;
    store.write(b, two)?;
    store.commit(&NoNote)
}

/// So many transactions, and how many of them committed.
fn work<S: Store<Anything>>(store: &mut S, alloc: Global, count: u64) -> u64
where
    <S as Store<Anything>>::Refused: Drop,
    requires idle { (S.state store.old).phase ≡ Idle }
    requires wide { (1000 ≤ reserved_blocks (S.state store.old).shape) × (1000 ≤ (S.state store.old).shape.blocks) }
    requires rank { 0 < (S.state store.old).shape.ranks }
    requires few { count < 2 ^ 32 }
    requires allowed { count ≤ (S.state store.old).allowance }
    ensures idle { (S.state store.new).phase ≡ Idle }
{
    for t in 0..count {
        if let Err(_why) = one_txn(store, alloc, t) {
            return t;
        }
    }
    count
}

#[test]
fn costs(rt: HostRuntime) -> Result<(), Fail> {
    let alloc = rt.alloc();
    let geometry = Geometry::new(1, 4096, 32, 1200, 2)?;
    let mut plain = PlainStore::<Anything>::new(alloc, geometry)?;
    plain.stands_alone();
    let start = Instant::now(&rt)?;
    let done = work(&mut plain, alloc, 200_000);
    let took = start.elapsed(&rt)?.as_millis();
    println!(rt; "plain {took} ms, {done}")?;
    let (window, rank) = Window::<Anything>::new(alloc, geometry)?;
    let mut store = WindowStore::over(alloc, &window, rank);
    let start = Instant::now(&rt)?;
    let done = work(&mut store, alloc, 200_000);
    let took = start.elapsed(&rt)?.as_millis();
    println!(rt; "window {took} ms, {done}")?;
    Ok(())
}
END
cd "$crate"
rt test >"$folder/log" 2>&1 || { tail -n 20 "$folder/log" >&2; exit 1; }
for _ in $(seq "${1:-3}"); do
    ./out/store_costs_tests cost::costs | grep -a ' ms, '
done
