"""What is changed in the published Rust before it is built.

Each patch names a file, a text that must stand in it exactly once, the text put
in its place, and the reason. README.md says why none of them can change an
answer within the limits of the scope.
"""

from collections import namedtuple

Patch = namedtuple("Patch", "name file old new why")

PATCHES = [
    Patch(
        name="union-find: parents can be read",
        file="union_find.rs",
        old="    parents: Vec<Option<usize>>,\n",
        new="    pub(crate) parents: Vec<Option<usize>>,\n",
        why="visibility only: the final state belongs to the answer",
    ),
    Patch(
        name="union-find: heights can be read",
        file="union_find.rs",
        old="    heights: Vec<usize>,\n",
        new="    pub(crate) heights: Vec<usize>,\n",
        why="visibility only: the final state belongs to the answer",
    ),
    Patch(
        name="reduction: rows before equals are dropped",
        file="constraints.rs",
        old="    result.dedup();\n",
        new="    crate::counted::rows_before_dedup(result.len());\n    result.dedup();\n",
        why="only a number is noted: refusal 6 counts these rows",
    ),
    Patch(
        name="critical sets: sets before simplifying",
        file="critical_set_analysis.rs",
        old="        if !simplify {\n",
        new="        crate::counted::sets_before_simplifying(self.sets.len());\n        if !simplify {\n",
        why="only a number is noted: refusal 7 counts these sets",
    ),
    Patch(
        name="roster: highest preference can be asked",
        file="scoring.rs",
        old="    fn evaluate_major(input_data: &InputData, solution: &Solution) -> u32 {\n",
        new="    pub(crate) fn evaluate_major(input_data: &InputData, solution: &Solution) -> u32 {\n",
        why="visibility only: the number is asked without the float score around it",
    ),
    Patch(
        name="search: what was lent and counted can be read",
        file="scheduling_solver.rs",
        old="    rng: Rng,\n    pub(crate) current_depth: usize,\n",
        new="    pub(crate) rng: Rng,\n    pub(crate) current_depth: usize,\n",
        why="visibility only: turns, passes and last limit belong to the answer",
    ),
    Patch(
        name="search: the start is lent",
        file="scheduling_solver.rs",
        old="if self.rng.next_in_range(0, Self::PREF_RELAXATION) == 0 {\n",
        new="if self.rng.start_at_last {\n",
        why="one call in ten starts at the last level by chance; a lent flag says so",
    ),
    Patch(
        name="search: a pass has budgets, not a clock",
        file="scheduling_solver.rs",
        old="""\
            let time_limit = if preference_limit == input_data.max_preference {
                time_never()
            } else {
                time_now()
                    + Duration::from_secs(
                        u64::try_from(self.options.critical_set_timeout_seconds)
                            .expect("critical set timeout must be non-negative"),
                    )
            };
            let time_limit = deadline.map_or(time_limit, |deadline| min(time_limit, deadline));

            let slots = self.solve_scheduling(cs_sets, time_limit);
""",
        new="""\
            let is_last = preference_limit == input_data.max_preference;
            self.rng.begin_pass(preference_limit, is_last);
            let slots = self.solve_scheduling(cs_sets);
            if self.rng.out_of_turns {
                self.has_solution = false;
                self.current_solution = None;
                return false;
            }
""",
        why="the last level's pass has no limit of its own, as before; the deadline of a call "
        "becomes the total budget, and a call past it answers out of turns",
    ),
    Patch(
        name="search: no time limit is handed down",
        file="scheduling_solver.rs",
        old="        critical_sets: &[CriticalSet],\n        time_limit: SystemTime,\n",
        new="        critical_sets: &[CriticalSet],\n",
        why="the budgets lie with what was lent",
    ),
    Patch(
        name="search: a turn is taken where the clock was read",
        file="scheduling_solver.rs",
        old="            if time_now() > time_limit {\n",
        new="            if !self.rng.take_turn() {\n",
        why="each round of the loop from here is one turn: down, back, or the closing one",
    ),
    Patch(
        name="search: the order is lent",
        file="scheduling_solver.rs",
        old="        self.rng.shuffle(&mut scramble);\n",
        new="        self.rng.lend_order(&mut scramble);\n",
        why="a permutation that is lent in place of a random one",
    ),
    Patch(
        name="search: omission's place is lent",
        file="util.rs",
        old="    rng.shuffle(&mut pattern);\n",
        new="    rng.place_omission(&mut pattern, left_len);\n",
        why="the right hand holds omission or nothing, so one draw stands for the shuffle",
    ),
    Patch(
        name="full search (added): the check stands inside a loop",
        file="scheduling_solver.rs",
        old="        while depth < choice_scramble.len() {\n",
        new="        loop {\n        while depth < choice_scramble.len() {\n",
        why="the full search goes on after a failed check; as the Rust the loop runs once",
    ),
    Patch(
        name="full search (added): a failed check steps back",
        file="scheduling_solver.rs",
        old="""\
        if !Scheduling::with_data(input_data, scheduling).is_feasible(input_data) {
            return Vec::new();
        }
        result
    }
""",
        new="""\
        if !Scheduling::with_data(input_data, scheduling).is_feasible(input_data) {
            if !self.rng.full || depth == 0 || !self.rng.take_turn() {
                return Vec::new();
            }
            self.clear_decision(&mut state, choice_scramble[depth - 1]);
            depth -= 1;
            continue;
        }
        self.rng.check_passed = true;
        return result;
        }
    }
""",
        why="not of the Rust: the scope's full search; off, the pass ends as before",
    ),
    Patch(
        name="full search (added): no slot is no special case",
        file="scheduling_solver.rs",
        old="            if !slots.is_empty() {\n",
        new="            if !slots.is_empty() || (self.rng.full && self.rng.check_passed) {\n",
        why="not of the Rust: the scope's full search; off, the test is as before",
    ),
]
