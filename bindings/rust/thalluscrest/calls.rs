//! The calls of include/thalluscrest.h, each as a safe function over slices; the header says what each takes and leaves. This is
//! the only file with `unsafe`.

use super::{Figures, Refusal};

/// Declares a call and makes its function. `[u16]` is a buffer that the call reads, `mut [u16]` one that it writes; both go in as
/// their pointer and their length, and anything else goes in as it is.
macro_rules! calls {
    ($($(#[$doc:meta])* fn $name:ident = $symbol:ident($($parameters:tt)*);)*) => {
        $(calls!(@ [$(#[$doc])*] $name $symbol [] [] []; $($parameters)*,);)*
    };
    (@ $head:tt $name:ident $symbol:ident [$($safe:tt)*] [$($raw:tt)*] [$($given:tt)*]; $p:ident: mut [$t:ty], $($rest:tt)*) => {
        calls!(@ $head $name $symbol [$($safe)* $p: &mut [$t],] [$($raw)* _: *mut $t, _: usize,] [$($given)* $p.as_mut_ptr(), $p.len(),]; $($rest)*);
    };
    (@ $head:tt $name:ident $symbol:ident [$($safe:tt)*] [$($raw:tt)*] [$($given:tt)*]; $p:ident: [$t:ty], $($rest:tt)*) => {
        calls!(@ $head $name $symbol [$($safe)* $p: &[$t],] [$($raw)* _: *const $t, _: usize,] [$($given)* $p.as_ptr(), $p.len(),]; $($rest)*);
    };
    (@ $head:tt $name:ident $symbol:ident [$($safe:tt)*] [$($raw:tt)*] [$($given:tt)*]; $p:ident: $t:ty, $($rest:tt)*) => {
        calls!(@ $head $name $symbol [$($safe)* $p: $t,] [$($raw)* _: $t,] [$($given)* $p,]; $($rest)*);
    };
    (@ [$($doc:tt)*] $name:ident $symbol:ident [$($safe:tt)*] [$($raw:tt)*] [$($given:tt)*];) => {
        $($doc)*
        #[allow(clippy::too_many_arguments)]
        pub fn $name($($safe)*) -> Result<Figures, Refusal> {
            unsafe extern "C" {
                fn $symbol($($raw)* _: *mut Figures) -> u8;
            }
            let mut figures = Figures::default();
            // Sound: each pointer leads to as many elements as the length beside it says, no buffer that is written overlaps
            // another one, and the call takes any numbers and lengths.
            let number = unsafe { $symbol($($given)* &mut figures) };
            Refusal::or(number, figures)
        }
    };
}

calls! {
    /// Reads a day file into pools at their full limits.
    fn read_day = thalluscrest_read_day(
        file: [u8], mins: mut [u16], maxs: mut [u16], optional: mut [u8], levels: mut [u16], preferences: mut [u16],
        rows: mut [u64]
    );

    /// Writes a day's file into a pool at its full limit.
    fn write_day = thalluscrest_write_day(
        choices: usize, slots: usize, choosers: usize, mins: [u16], maxs: [u16], optional: [u8], levels: [u16],
        preferences: [u16], rows: [u64], file: mut [u8]
    );

    /// Reduces given rows into a pool at its full limit.
    fn reduce = thalluscrest_reduce(
        choices: usize, slots: usize, choosers: usize, rows: [u64], pool: mut [u64]
    );

    /// Plans a day: the full search with its own map.
    fn plan_day = thalluscrest_plan_day(
        choices: usize, slots: usize, choosers: usize, analysis: u8, at_last_level: u8, pass_budget: u64, total_budget: u64,
        mins: [u16], maxs: [u16], optional: [u8], levels: [u16], preferences: [u16], rows: [u64], orders: [u8], draws: [u32],
        plan: mut [u8]
    );

    /// Searches with everything lent.
    fn search = thalluscrest_search(
        choices: usize, slots: usize, choosers: usize, full: u8, analysis: u8, at_last_level: u8, pass_budget: u64,
        total_budget: u64, mins: [u16], maxs: [u16], optional: [u8], levels: [u16], preferences: [u16], rows: [u64],
        starts: [u16], lengths: [u16], count: usize, numbers: [u16], whole: [u16], orders: [u8], draws: [u32], plan: mut [u8]
    );

    /// The own map of rows, into pools at their full limits.
    fn own_map = thalluscrest_own_map(
        choices: usize, slots: usize, choosers: usize, rows: [u64], starts: mut [u16], lengths: mut [u16],
        numbers: mut [u16]
    );

    /// The critical sets of a day, into pools at their full limits.
    fn analyze = thalluscrest_analyze(
        choices: usize, slots: usize, choosers: usize, analysis: u8, mins: [u16], levels: [u16], preferences: [u16],
        masks: mut [u64], set_levels: mut [u16]
    );

    /// The sets that a search with this limit tests, into a pool at its full limit.
    fn level_list = thalluscrest_level_list(
        levels: [u16], limit: u16, masks: [u64], set_levels: [u16], count: usize, list: mut [u64]
    );

    /// Checks a plan.
    fn check_plan = thalluscrest_check_plan(
        choices: usize, slots: usize, choosers: usize, mins: [u16], maxs: [u16], optional: [u8], rows: [u64], plan: [u8]
    );

    /// Checks a roster.
    fn check_roster = thalluscrest_check_roster(
        choices: usize, slots: usize, choosers: usize, mins: [u16], maxs: [u16], levels: [u16], preferences: [u16],
        rows: [u64], assignment_rows: [u64], plan: [u8], roster: [u8]
    );

    /// Lists a page of all the plans.
    fn list_plans = thalluscrest_list_plans(
        choices: usize, slots: usize, choosers: usize, mins: [u16], maxs: [u16], optional: [u8], rows: [u64], first: u64,
        room: u64, budget: u64, buffer: mut [u8]
    );

    /// Lists a page of plans, and stops where the list goes on past it.
    fn list_page = thalluscrest_list_page(
        choices: usize, slots: usize, choosers: usize, mins: [u16], maxs: [u16], optional: [u8], rows: [u64], first: u64,
        room: u64, budget: u64, buffer: mut [u8]
    );
}
