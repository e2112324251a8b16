//! Constraint rows of case files, one 8-byte number each:
//! kind * 2^48 + left * 2^32 + right * 2^16 + (extra + 32,768).

use crate::wire::{Input, Output};
use crate::{Constraint, ConstraintExtra, ConstraintTarget, ConstraintType, SlotSizeLimitOp};

const BIAS: i32 = 32_768;

/// What the right column of a kind names.
enum Right {
    Slot,
    Choice,
    Chooser,
    Limit,
}

fn kind_of(code: u16) -> ConstraintType {
    use ConstraintType::*;
    match code {
        1 => ChoiceIsInSlot,
        2 => ChoiceIsNotInSlot,
        3 => ChoicesAreInSameSlot,
        4 => ChoicesAreNotInSameSlot,
        5 => ChoicesHaveOffset,
        6 => SlotHasLimitedSize,
        7 => SlotContainsChoice,
        8 => SlotNotContainsChoice,
        9 => SlotsHaveSameChoices,
        10 => ChoicesHaveSameChoosers,
        11 => ChooserIsInChoice,
        12 => ChooserIsNotInChoice,
        13 => ChoosersHaveSameChoices,
        14 => ChoiceContainsChooser,
        15 => ChoiceNotContainsChooser,
        _ => panic!("a case's kind must be 1 to 15, not {code}"),
    }
}

/// The scope's code: the Rust's 1 << 16 is read as 10.
fn code_of(kind: ConstraintType) -> u16 {
    let number = kind as usize;
    let limit = crate::constraint::CONSTRAINT_TYPE_DISCRIMINATION_LIMIT;
    let code = if number < limit {
        number
    } else {
        number - limit + 10
    };
    u16::try_from(code).expect("a kind's code is small")
}

fn right_of(kind: ConstraintType) -> Right {
    use ConstraintType::*;
    match kind {
        ChoiceIsInSlot | ChoiceIsNotInSlot | SlotsHaveSameChoices => Right::Slot,
        ChoicesAreInSameSlot | ChoicesAreNotInSameSlot | ChoicesHaveOffset => Right::Choice,
        SlotContainsChoice | SlotNotContainsChoice | ChoicesHaveSameChoosers => Right::Choice,
        ChooserIsInChoice | ChooserIsNotInChoice => Right::Choice,
        ChoosersHaveSameChoices | ChoiceContainsChooser | ChoiceNotContainsChooser => {
            Right::Chooser
        }
        SlotHasLimitedSize => Right::Limit,
        Invalid => panic!("an invalid row names nothing"),
    }
}

/// The ops in the order of the Rust's text.
const OPS: [SlotSizeLimitOp; 6] = {
    use SlotSizeLimitOp::*;
    [Eq, Gt, Geq, Neq, Leq, Lt]
};

pub(crate) fn print_op_order() {
    let mut ops = OPS;
    ops.sort();
    for op in ops {
        println!("{op:?} {}", op as i32);
    }
}

fn op_of(number: i32) -> SlotSizeLimitOp {
    OPS.into_iter()
        .find(|&op| op as i32 == number)
        .expect("a case's op must be a number of the table")
}

fn extra_of(kind: ConstraintType, number: i32) -> ConstraintExtra {
    match kind {
        ConstraintType::ChoicesHaveOffset => ConstraintExtra::Offset(number),
        ConstraintType::SlotHasLimitedSize => ConstraintExtra::SlotSizeLimitOp(op_of(number)),
        _ => {
            assert_eq!(number, 0, "only kinds 5 and 6 have an extra");
            ConstraintExtra::None
        }
    }
}

fn column(number: u64, shift: u32) -> u16 {
    (number >> shift) as u16
}

fn row_of(number: u64) -> Constraint {
    let kind = kind_of(column(number, 48));
    let right = usize::from(column(number, 16));
    let target = match right_of(kind) {
        Right::Slot => ConstraintTarget::Slot(right),
        Right::Choice => ConstraintTarget::Choice(right),
        Right::Chooser => ConstraintTarget::Chooser(right),
        Right::Limit => ConstraintTarget::Limit(u32::from(column(number, 16))),
    };
    let extra = extra_of(kind, i32::from(column(number, 0)) - BIAS);
    Constraint::new(kind, usize::from(column(number, 32)), target, extra)
}

pub(crate) fn number_of(row: &Constraint) -> u64 {
    let right = match row.right {
        ConstraintTarget::Slot(value)
        | ConstraintTarget::Choice(value)
        | ConstraintTarget::Chooser(value) => value as u64,
        ConstraintTarget::Limit(value) => u64::from(value),
        ConstraintTarget::None => panic!("a row of the table has a right column"),
    };
    let extra = match row.extra {
        ConstraintExtra::None => 0,
        ConstraintExtra::Offset(offset) => offset,
        ConstraintExtra::SlotSizeLimitOp(op) => op as i32,
    };
    let biased = u64::try_from(extra + BIAS).expect("an extra is over -32,768");
    (u64::from(code_of(row.kind)) << 48) + ((row.left as u64) << 32) + (right << 16) + biased
}

/// A row count of 2 bytes and the rows.
pub(crate) fn read(input: &mut Input) -> Vec<Constraint> {
    let count = input.count16();
    (0..count).map(|_| row_of(input.u64())).collect()
}

/// A row count of 2 bytes and the rows.
pub(crate) fn write(output: &mut Output, rows: &[Constraint]) {
    output.u16(rows.len());
    for row in rows {
        output.u64(number_of(row));
    }
}
