//! Joins and groups.

use crate::UnionFind;
use crate::wire::{Input, Output};

const NO_PARENT: usize = 255;

pub(crate) fn answer(case: &mut Input, out: &mut Output) {
    let elements = case.count8();
    let joins = case.count16();
    let mut state = UnionFind::<usize>::new(elements);
    for _ in 0..joins {
        let left = case.count8();
        let right = case.count8();
        out.u8(state.join(left, right));
    }
    for element in 0..elements {
        out.u8(state.find(element));
    }
    write_groups(out, &state.groups());
    for parent in &state.parents {
        out.u8(parent.unwrap_or(NO_PARENT));
    }
    for &height in &state.heights {
        out.u8(height);
    }
}

fn write_groups(out: &mut Output, groups: &[Vec<usize>]) {
    out.u8(groups.len());
    for group in groups {
        out.u8(group.len());
        for &member in group {
            out.u8(member);
        }
    }
}
