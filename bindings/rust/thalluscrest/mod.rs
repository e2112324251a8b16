//! Thalluscrest for Rust programs: a module of std alone. Copy this folder, `mod thalluscrest;`, and link
//! crates/thalluscrest/out/libthalluscrest.a (`rt lib` in crates/thalluscrest):
//!
//!     rustc --edition 2024 program.rs -C link-arg=crates/thalluscrest/out/libthalluscrest.a
//!
//! The archive links into x86-64 programs only: on another machine add `--target x86_64-unknown-linux-gnu`, if rustc has that
//! target's library, and `-C linker=x86_64-linux-gnu-gcc`, and run with `./thalluscrest run ./program`.
//!
//! `Day` owns what a day file holds and has a method for each call; `calls` has the calls themselves over slices.
#![deny(unsafe_code)]
#![allow(dead_code)]

#[allow(unsafe_code)]
pub mod calls;

use std::fmt;

pub const MOST_CHOICES: usize = 64;
pub const MOST_SLOTS: usize = 24;
pub const MOST_CHOOSERS: usize = 200;
pub const MOST_LEVELS: usize = 64;
pub const MOST_PREFERENCES: usize = MOST_CHOOSERS * MOST_CHOICES;
pub const MOST_GIVEN_ROWS: usize = 128;
pub const MOST_ROWS: usize = 1_024;
pub const MOST_SETS: usize = 1_024;
pub const MOST_MAP_NUMBERS: usize = 10_240;
pub const LONGEST_FILE: usize = 26_827;

/// The cell of a choice that a plan leaves out.
pub const OMITTED: u8 = 255;

/// The start of a choice that has no entry in a map.
pub const NO_ENTRY: u16 = 65_535;

/// What an answer carries besides its number: the header says which figure is what after each call.
pub type Figures = [u64; 8];

/// Why a call refuses its input.
#[derive(Clone, Copy, Debug, PartialEq, Eq)]
pub struct Refusal {
    /// 1 to 14, as enum thalluscrest_refusal has them.
    pub number: u8,
    /// The first row that breaks the table, after 5.
    pub row: Option<usize>,
}

impl Refusal {
    const ROW: u8 = 5;

    /// The figures of a call that is done, or its refusal.
    fn or(number: u8, figures: Figures) -> Result<Figures, Self> {
        let row = (number == Self::ROW).then(|| figures[0] as usize);
        if number == 0 { Ok(figures) } else { Err(Self { number, row }) }
    }
}

impl fmt::Display for Refusal {
    fn fmt(&self, to: &mut fmt::Formatter<'_>) -> fmt::Result {
        let told = match self.number {
            1 => "a count is over its limit",
            2 => "a buffer has the wrong length",
            3 => "levels don't rise strictly",
            4 => "a preference is above the last level",
            5 => "a row breaks the table",
            6 => "too many rows or map numbers",
            7 => "too many critical sets",
            8 => "orders aren't permutations of the choices",
            9 => "a plan's cell is no slot",
            10 => "a roster's cell names no scheduled choice",
            11 => "the file's length is wrong",
            12 => "the file's version isn't 1",
            13 => "an optional byte isn't 0 or 1",
            _ => "the map is wrong",
        };
        match self.row {
            Some(row) => write!(to, "{told}: row {row}"),
            None => write!(to, "{told}"),
        }
    }
}

impl std::error::Error for Refusal {}

/// A row's columns. Its number, which stands in every list of rows, is kind * 2^48 + left * 2^32 + right * 2^16 + (extra + 32,768).
#[derive(Clone, Copy, Debug, PartialEq, Eq)]
pub struct Row {
    pub kind: u16,
    pub left: u16,
    pub right: u16,
    pub extra: i16,
}

impl Row {
    pub fn number(self) -> u64 {
        let extra = (i32::from(self.extra) + 32_768) as u64;
        u64::from(self.kind) << 48 | u64::from(self.left) << 32 | u64::from(self.right) << 16 | extra
    }

    pub fn of(number: u64) -> Self {
        let extra = (number & 65_535) as i32 - 32_768;
        Self { kind: (number >> 48) as u16, left: (number >> 32) as u16, right: (number >> 16) as u16, extra: extra as i16 }
    }
}

/// How critical sets are made.
#[derive(Clone, Copy, Debug, PartialEq, Eq)]
pub enum Analysis {
    Off = 0,
    On = 1,
    Simplified = 2,
}

/// What a search is asked for.
#[derive(Clone, Copy, Debug)]
pub struct Settings<'a> {
    pub analysis: Analysis,
    pub at_last_level: bool,
    pub pass_budget: u64,
    pub total_budget: u64,
    pub orders: &'a [u8],
    pub draws: &'a [u32],
}

/// What the plan program asks for.
pub const PROGRAM: Settings<'static> = Settings {
    analysis: Analysis::Simplified,
    at_last_level: false,
    pass_budget: 100_000,
    total_budget: 1_000_000,
    orders: &[],
    draws: &[],
};

/// A plan: for each choice its slot, or `OMITTED`.
pub type Plan = Vec<u8>;

/// What a search came to.
#[derive(Clone, Debug, PartialEq, Eq)]
pub enum Outcome {
    None,
    Found(Plan),
    OutOfTurns,
}

/// A search's answer.
#[derive(Clone, Debug, PartialEq, Eq)]
pub struct Searched {
    pub outcome: Outcome,
    pub turns: u64,
    pub passes: u64,
    pub limit: u16,
}

impl Searched {
    fn of(figures: Figures, plan: Plan) -> Self {
        let outcome = match figures[0] {
            0 => Outcome::None,
            1 => Outcome::Found(plan),
            _ => Outcome::OutOfTurns,
        };
        Self { outcome, turns: figures[1], passes: figures[2], limit: figures[3] as u16 }
    }
}

/// A reduction: the search's rows, the roster's, and whether two different slots were said to have the same choices. Then there is
/// no plan, and the rows don't say so any more.
#[derive(Clone, Debug, PartialEq, Eq)]
pub struct Reduction {
    pub clash: bool,
    pub search: Vec<u64>,
    pub roster: Vec<u64>,
}

/// Each choice's rows: where its entry begins in `numbers`, and how many it has.
#[derive(Clone, Debug, PartialEq, Eq)]
pub struct Map {
    pub starts: Vec<u16>,
    pub lengths: Vec<u16>,
    pub numbers: Vec<u16>,
    pub count: usize,
}

/// Critical sets: the choices of each as a mask, its level, and the bound.
#[derive(Clone, Debug, PartialEq, Eq)]
pub struct CriticalSets {
    pub masks: Vec<u64>,
    pub levels: Vec<u16>,
    pub count: usize,
    pub bound: u16,
}

/// Why no plans are listed.
#[derive(Clone, Copy, Debug, PartialEq, Eq)]
pub enum NotListed {
    OutOfTurns,
    Refused(Refusal),
}

impl From<Refusal> for NotListed {
    fn from(why: Refusal) -> Self {
        Self::Refused(why)
    }
}

/// What comes after a page.
#[derive(Clone, Copy, Debug, PartialEq, Eq)]
pub enum After {
    /// No plan: the plans met are all that the day has.
    Ended,
    /// At least one plan.
    GoesOn,
    /// Turns ran out: there may be more plans, on the page and after it.
    OutOfTurns,
}

/// A page of plans, what comes after it, and how many plans were met, from number 0 on.
#[derive(Clone, Debug, PartialEq, Eq)]
pub struct Page {
    pub after: After,
    pub plans: Vec<Plan>,
    pub met: u64,
}

impl Page {
    fn of(figures: Figures, choices: usize, buffer: &[u8]) -> Self {
        let after = match figures[0] {
            0 => After::Ended,
            1 => After::GoesOn,
            _ => After::OutOfTurns,
        };
        let plan = |i: usize| buffer[i * choices..(i + 1) * choices].to_vec();
        Self { after, plans: (0..figures[1] as usize).map(plan).collect(), met: figures[2] }
    }
}

/// A day: what its file holds. The lists give the counts of choices, levels and rows.
#[derive(Clone, Debug, PartialEq, Eq)]
pub struct Day {
    pub slots: usize,
    pub choosers: usize,
    pub mins: Vec<u16>,
    pub maxs: Vec<u16>,
    pub optional: Vec<u8>,
    pub levels: Vec<u16>,
    pub preferences: Vec<u16>,
    pub rows: Vec<u64>,
}

impl Day {
    pub fn choices(&self) -> usize {
        self.mins.len()
    }

    /// Reads a day file.
    pub fn read(file: &[u8]) -> Result<Self, Refusal> {
        let mut day = Self {
            slots: 0,
            choosers: 0,
            mins: vec![0; MOST_CHOICES],
            maxs: vec![0; MOST_CHOICES],
            optional: vec![0; MOST_CHOICES],
            levels: vec![0; MOST_LEVELS],
            preferences: vec![0; MOST_PREFERENCES],
            rows: vec![0; MOST_GIVEN_ROWS],
        };
        let figures = calls::read_day(
            file,
            &mut day.mins,
            &mut day.maxs,
            &mut day.optional,
            &mut day.levels,
            &mut day.preferences,
            &mut day.rows,
        )?;
        let [choices, slots, choosers, levels, rows] = [0, 1, 2, 3, 4].map(|place| figures[place] as usize);
        (day.slots, day.choosers) = (slots, choosers);
        day.mins.truncate(choices);
        day.maxs.truncate(choices);
        day.optional.truncate(choices);
        day.levels.truncate(levels);
        day.preferences.truncate(choosers * choices);
        day.rows.truncate(rows);
        Ok(day)
    }

    /// The day's file.
    pub fn write(&self) -> Result<Vec<u8>, Refusal> {
        let mut file = vec![0; LONGEST_FILE];
        let (mins, maxs, optional) = (&self.mins, &self.maxs, &self.optional);
        let (levels, preferences, rows) = (&self.levels, &self.preferences, &self.rows);
        let figures = calls::write_day(
            self.choices(), self.slots, self.choosers, mins, maxs, optional, levels, preferences, rows, &mut file,
        )?;
        file.truncate(figures[0] as usize);
        Ok(file)
    }

    /// The reduction of the day's rows, which every other method takes its rows from.
    pub fn reduce(&self) -> Result<Reduction, Refusal> {
        let mut pool = vec![0; MOST_ROWS];
        let figures = calls::reduce(self.choices(), self.slots, self.choosers, &self.rows, &mut pool)?;
        let [searched, seated] = [2, 3].map(|place| figures[place] as usize);
        pool.truncate(searched + seated);
        let roster = pool.split_off(searched);
        Ok(Reduction { clash: figures[1] == 1, search: pool, roster })
    }

    /// A plan by the full search with the day's own map, which settles whether there is one.
    pub fn plan(&self, rows: &[u64], settings: Settings) -> Result<Searched, Refusal> {
        let mut plan = vec![0; self.choices()];
        let figures = calls::plan_day(
            self.choices(), self.slots, self.choosers, settings.analysis as u8, u8::from(settings.at_last_level),
            settings.pass_budget, settings.total_budget, &self.mins, &self.maxs, &self.optional, &self.levels,
            &self.preferences, rows, settings.orders, settings.draws, &mut plan,
        )?;
        Ok(Searched::of(figures, plan))
    }

    /// A search with a map of the caller's; `full` or as the published Rust does it.
    pub fn search(&self, rows: &[u64], map: &Map, full: bool, settings: Settings) -> Result<Searched, Refusal> {
        let mut plan = vec![0; self.choices()];
        let whole = (0..rows.len()).map(|row| row as u16).collect::<Vec<_>>();
        let figures = calls::search(
            self.choices(), self.slots, self.choosers, u8::from(full), settings.analysis as u8,
            u8::from(settings.at_last_level), settings.pass_budget, settings.total_budget, &self.mins, &self.maxs,
            &self.optional, &self.levels, &self.preferences, rows, &map.starts, &map.lengths, map.count, &map.numbers, &whole,
            settings.orders, settings.draws, &mut plan,
        )?;
        Ok(Searched::of(figures, plan))
    }

    /// The own map of rows.
    pub fn own_map(&self, rows: &[u64]) -> Result<Map, Refusal> {
        let (mut starts, mut lengths) = (vec![0; MOST_CHOICES], vec![0; MOST_CHOICES]);
        let mut numbers = vec![0; MOST_MAP_NUMBERS];
        let figures = calls::own_map(
            self.choices(), self.slots, self.choosers, rows, &mut starts, &mut lengths, &mut numbers,
        )?;
        Ok(Map { starts, lengths, numbers, count: figures[0] as usize })
    }

    /// The day's critical sets.
    pub fn critical_sets(&self, analysis: Analysis) -> Result<CriticalSets, Refusal> {
        let (mut masks, mut levels) = (vec![0; MOST_SETS], vec![0; MOST_SETS]);
        let figures = calls::analyze(
            self.choices(), self.slots, self.choosers, analysis as u8, &self.mins, &self.levels, &self.preferences,
            &mut masks, &mut levels,
        )?;
        Ok(CriticalSets { masks, levels, count: figures[0] as usize, bound: figures[1] as u16 })
    }

    /// The sets that a search with this limit tests, as masks.
    pub fn level_list(&self, sets: &CriticalSets, limit: u16) -> Result<Vec<u64>, Refusal> {
        let mut list = vec![0; MOST_SETS];
        let figures = calls::level_list(&self.levels, limit, &sets.masks, &sets.levels, sets.count, &mut list)?;
        list.truncate(figures[0] as usize);
        Ok(list)
    }

    /// Whether a plan is feasible.
    pub fn check_plan(&self, rows: &[u64], plan: &[u8]) -> Result<bool, Refusal> {
        let figures = calls::check_plan(
            self.choices(), self.slots, self.choosers, &self.mins, &self.maxs, &self.optional, rows, plan,
        )?;
        Ok(figures[0] == 1)
    }

    /// Whether a roster passes, and the highest preference met.
    pub fn check_roster(&self, reduction: &Reduction, plan: &[u8], roster: &[u8]) -> Result<(bool, u16), Refusal> {
        let figures = calls::check_roster(
            self.choices(), self.slots, self.choosers, &self.mins, &self.maxs, &self.levels, &self.preferences,
            &reduction.search, &reduction.roster, plan, roster,
        )?;
        Ok((figures[0] == 1, figures[1] as u16))
    }

    /// The plans in dictionary order from number `first` on, as many as there is room for; room 0 asks for the total alone. Looks
    /// at no more than `budget` starts of plans, and at far fewer than `plans` does. Takes about 247 KB of stack.
    pub fn page(&self, rows: &[u64], first: u64, room: u64, budget: u64) -> Result<Page, Refusal> {
        let mut buffer = vec![0; room as usize * self.choices()];
        let figures = calls::list_page(
            self.choices(), self.slots, self.choosers, &self.mins, &self.maxs, &self.optional, rows, first, room, budget,
            &mut buffer,
        )?;
        Ok(Page::of(figures, self.choices(), &buffer))
    }

    /// All plans in dictionary order. Each page of `room` plans looks at every start of a plan again, at most `budget`
    /// of them, so a page that is as large as what is wanted is fastest.
    pub fn plans<'a>(&'a self, rows: &'a [u64], room: u64, budget: u64) -> Result<Plans<'a>, NotListed> {
        let mut plans = Plans { day: self, rows, room, budget, first: 0, page: Vec::new(), next: 0, total: 0, nodes: 0 };
        plans.fetch()?;
        Ok(plans)
    }
}

/// The plans of a day, fetched page after page.
pub struct Plans<'a> {
    day: &'a Day,
    rows: &'a [u64],
    room: u64,
    budget: u64,
    /// The number of the page's first plan, the page, and which of its plans is next.
    first: u64,
    page: Vec<u8>,
    next: u64,
    total: u64,
    nodes: u64,
}

impl Plans<'_> {
    /// How many plans the day has.
    pub fn total(&self) -> u64 {
        self.total
    }

    /// How many starts of plans each page looks at.
    pub fn nodes(&self) -> u64 {
        self.nodes
    }

    fn fetch(&mut self) -> Result<(), NotListed> {
        let day = self.day;
        self.page.resize(self.room as usize * day.choices(), 0);
        let figures = calls::list_plans(
            day.choices(), day.slots, day.choosers, &day.mins, &day.maxs, &day.optional, self.rows, self.first, self.room,
            self.budget, &mut self.page,
        )?;
        if figures[0] != 1 {
            return Err(NotListed::OutOfTurns);
        }
        (self.next, self.total, self.nodes) = (0, figures[2], figures[3]);
        Ok(())
    }
}

impl Iterator for Plans<'_> {
    type Item = Plan;

    fn next(&mut self) -> Option<Plan> {
        if self.first + self.next >= self.total || self.room == 0 {
            return None;
        }
        if self.next == self.room {
            self.first += self.room;
            self.fetch().ok()?;
        }
        let from = self.next as usize * self.day.choices();
        self.next += 1;
        Some(self.page[from..from + self.day.choices()].to_vec())
    }
}
