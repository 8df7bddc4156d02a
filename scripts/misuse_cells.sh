#!/bin/sh
# A table of cells in a scratch arena must not be read past the arena's reset: a crate with a function that fills a table
# in an arena, resets the arena and then reads a cell is refused, and refused by the borrow check. The same crate without
# the reset is accepted.
crates="loom_base loom_topology loom_steiner"
kit="bumpalo"
. "$(dirname "$0")/misuse.sh"

# source_of LINE: the crate whose function has this line between the filling and the reading
source_of() {
    cat <<RT
#![tactic(auto)]

ghost use Rattle.std.specs.Prelude.{◌<◌, length};

use bumpalo::Bump;
use loom_base::{CavityNo, NoMemory};
use loom_steiner::fill;
use loom_topology::Topology;
use std::alloc::Global;

pub fn cost_of_one(
    alloc: Global,
    topology: &Topology,
    stem: CavityNo,
    other: CavityNo,
) -> Result<Option<u64>, NoMemory>
    requires stem { stem.0 < length topology.now.cavities }
    requires other { other.0 < length topology.now.cavities }
{
    let mut scratch = Bump::new(alloc);
    let table = fill(&scratch, topology, &[stem, other])?;
$1
    Ok(table.cell(1, topology.cavity_node(stem)))
}
RT
}

source_of "" | accepted || exit 1
source_of "    let _ = scratch.reset();" | refused borrow-e0502
