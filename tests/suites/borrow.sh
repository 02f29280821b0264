#!/usr/bin/env bash
# While a view of the pool is held, no call that changes the pool compiles: a crate that sweeps under a view is refused
# at that call.
set -u
. "$(dirname "$0")/../lib/checks.sh"
cd "$top" || exit 2

copy=$files
below='dg_text dg_graph dg_query dg_event dg_set dg_delta dg_arena dg_cells dg_pool dg_view'
mkdir -p "$copy/crates/view_held/src"
for crate in $below; do
    mkdir "$copy/crates/$crate"
    cp -r "crates/$crate/src" "crates/$crate/specs" "$copy/crates/$crate"
    if [ -d "crates/$crate/proofs" ]; then
        cp -r "crates/$crate/proofs" "$copy/crates/$crate"
    fi
done
{
    for crate in $below; do
        grep "^$crate:" crates.txt
    done
    echo "view_held: $below"
} > "$copy/crates.txt"
cat > "$copy/crates/view_held/src/lib.rt" <<'END'
//! A view that is held over a sweep of its pool.
#![tactic(auto)]

ghost use Rattle.dg_pool.specs.Slots.{IsLive};

use dg_pool::{Pool, Slot};
use dg_view::{Counts, View};

/// Sweeps the pool while a view of it is held.
pub fn sweep_under_a_view(pool: &mut Pool, slot: Slot) -> Counts
    requires { IsLive pool.old slot }
{
    let view = View::of(pool, slot);
    pool.clean_all();
    view.counts()
}
END

said=$(cd "$copy/crates/view_held" && rt check --jobs 1 2>&1)
if [ $? -ne 0 ] && grep -q '^src/lib.rt:14:5: error\[borrow-e0502\]' <<< "$said"; then
    passed=1
else
    printf '%s\n' "$said" | tail -20
    failed=1
fi
tell borrow
