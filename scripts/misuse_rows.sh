#!/bin/sh
# A condition must not outlive the arena that its rows lie in: a crate with a function that makes an arena and rows over
# it and hands a condition of them out is refused, and refused by the borrow check. The same crate with the arena lent
# to the function is accepted.
crates="loom_base loom_formula loom_rows"
kit="bumpalo"
. "$(dirname "$0")/misuse.sh"

# source_of PARAMETER BINDING: the crate whose function takes this parameter and binds the arena so
source_of() {
    cat <<RT
#![tactic(auto)]

use bumpalo::Bump;
use loom_base::OptionNo;
use loom_rows::{Cond, Rows, RowsStop};
use std::alloc::Global;

pub fn kept<'a>(alloc: Global$1) -> Result<Cond<'a>, RowsStop> {
$2
    let mut rows = Rows::new(alloc, arena, 1, 8);
    rows.is(OptionNo(0))
}
RT
}

source_of ", arena: &'a Bump" "" | accepted || exit 1
source_of "" "    let bump = Bump::new(alloc);
    let arena = &bump;" | refused borrow-e0515 borrow-e0597
