#!/usr/bin/env bash
# Two misuses of a draft must not compile: adding an edge after `finish`, and handing a draft to a function that wants a
# graph. A must-fail edit cannot show this, since it has to reach the prover. So each misuse is put into a small client of
# the crate `draft`, in a copy of the crates below it, and the compiler's own error is wanted; the client without a misuse
# must pass.
set -euo pipefail
top=$(cd "$(dirname "$0")/.." && pwd)
work=$(mktemp -d)
trap 'rm -rf "$work"' EXIT
needs="$(sed -n 's/^draft: *//p' "$top/crates.txt") draft"
mkdir -p "$work/crates"
for name in $needs; do
    [ -d "$top/crates/$name" ] || continue # a crate of the kit
    mkdir "$work/crates/$name"
    for part in src specs proofs; do
        if [ -d "$top/crates/$name/$part" ]; then
            cp -r "$top/crates/$name/$part" "$work/crates/$name/$part"
        fi
    done
    grep "^$name:" "$top/crates.txt" >> "$work/crates.txt"
done

# client NAME LINE: a client crate whose function has LINE in it
client() {
    mkdir -p "$work/crates/$1/src"
    echo "$1: $needs" >> "$work/crates.txt"
    cat > "$work/crates/$1/src/lib.rt" <<RT
#![tactic(auto)]

use draft::draft::Draft;
use graph::graph::Graph;
use index::records::PackageLink;
use index::spec::{IndexType, PackageGraphSpec, PackageIx};

fn bound<G: Graph>(graph: &G) -> u32 {
    graph.node_bound()
}

pub fn client(table: &mut [u32]) -> u32 {
    let mut draft = Draft::new(table, PackageGraphSpec);
    let _ = draft.set_up(2);
    let _ = draft.add_edge(PackageIx::new(0), PackageIx::new(1), PackageLink { mask: 1 });
    $2
}
RT
}

client rightly 'let graph = draft.finish(); bound(&graph)'
client edge_after_finish 'let graph = draft.finish(); let _ = draft.add_edge(PackageIx::new(1), PackageIx::new(0), PackageLink { mask: 1 }); bound(&graph)'
client graph_of_draft 'bound(&draft)'

# wants NAME PATTERN: checking NAME must say PATTERN
wants() {
    if (cd "$work/crates/$1" && rt check > "$work/$1.log" 2>&1) && [ "$1" != rightly ]; then
        echo "misuse: $1 was accepted"
        exit 1
    fi
    if ! grep -q "$2" "$work/$1.log"; then
        echo "misuse: $1 should say '$2', and says:"
        tail -n 20 "$work/$1.log"
        exit 1
    fi
    echo "misuse: $1: $(grep -m 1 -o "$2[^:]*" "$work/$1.log")"
}

wants rightly 'fn rightly::client: proved'
wants edge_after_finish 'error\[borrow-e0382\]'
wants graph_of_draft 'error\[unsatisfied-bound\]'
