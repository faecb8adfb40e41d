//! Checks on lent buffers: the paper's numbers, the ten marked readings, the form, refusals
//! 9 and 10, how clocks stand, paths behind a break, leading writers, stale marks, admission,
//! allowances, picks, rights, two lines, prepared runs, forecasts, audits of records, texts of
//! calls, other layouts, what stands behind a save, and random buffers. Panics at the first check
//! that fails.
#![allow(dead_code)]

#[path = "selftest/admitted.rs"]
mod admitted;
#[path = "selftest/allowances.rs"]
mod allowances;
#[path = "selftest/audited.rs"]
mod audited;
#[path = "selftest/behind.rs"]
mod behind;
mod book;
#[path = "selftest/branches.rs"]
mod branches;
mod desk;
#[path = "selftest/drawn.rs"]
mod drawn;
#[path = "selftest/explained.rs"]
mod explained;
#[path = "selftest/foreseen.rs"]
mod foreseen;
#[path = "selftest/forked.rs"]
mod forked;
#[path = "selftest/forms.rs"]
mod forms;
#[path = "selftest/layouts.rs"]
mod layouts;
#[path = "selftest/leading.rs"]
mod leading;
#[path = "selftest/lines.rs"]
mod lines;
#[path = "selftest/listed.rs"]
mod listed;
#[path = "selftest/marked.rs"]
mod marked;
#[path = "selftest/paths.rs"]
mod paths;
#[path = "selftest/picked.rs"]
mod picked;
#[path = "selftest/plotter.rs"]
mod plotter;
mod prepared;
#[path = "selftest/random.rs"]
mod random;
#[path = "generate/records.rs"]
mod records;
#[path = "selftest/rights.rs"]
mod rights;
#[path = "selftest/rivals.rs"]
mod rivals;
mod script;
#[path = "generate/random.rs"]
mod sequence;
#[path = "generate/spoiled.rs"]
mod spoiled;
#[path = "selftest/stale.rs"]
mod stale;
#[path = "selftest/standing.rs"]
mod standing;
mod text;
#[path = "selftest/texts.rs"]
mod texts;
mod walked;

fn main() {
    fixed_checks();
    let seed: u64 = std::env::args().nth(1).and_then(|word| word.parse().ok()).unwrap_or(1);
    for history in 0..200 {
        behind::compare(seed + history);
        listed::compare(seed + history);
    }
    rivals::on_words(seed, 20_000);
    println!("selftest: led from new: {}", rivals::from_new(seed, 200).print());
    println!("selftest: explained on graphs: {}", paths::on_graphs(seed, 20_000).print());
    println!("selftest: explained on desks: {}", paths::on_desks(seed, 20_000).print());
    println!("selftest: audited: {}", drawn::compare(seed, 10_000).print());
    let (calls, accepted) = random::damaged(seed, 60_000);
    println!("selftest: all checks hold; {calls} random calls, {accepted} of them accepted");
}

/// The checks that are the same for every seed.
fn fixed_checks() {
    marked::sizes();
    marked::clocks();
    marked::evict_six();
    marked::steps_seven_to_nine();
    marked::step_merges();
    marked::fetch_copies();
    marked::unheld_ten();
    marked::new_and_open();
    forms::free_words();
    forms::bad_words();
    forms::spent_counts();
    standing::compared();
    standing::looked();
    standing::looked_at_card();
    explained::through_newer();
    explained::smallest();
    explained::shortest();
    explained::over_carried();
    explained::refusals();
    explained::all_sheets();
    of_versions_and_marks();
    of_the_later_calls();
    layouts::none_agree();
}

/// Leading writers, stale marks and admission.
fn of_versions_and_marks() {
    leading::visible();
    leading::over_offices();
    leading::by_a_chain();
    leading::on_words();
    leading::on_lent_desks();
    leading::masks_in_form();
    stale::kept();
    stale::kept_by_a_break();
    stale::kept_by_a_step();
    stale::on_lent_desks();
    stale::asked_by_form();
    admitted::in_the_program();
    admitted::one_change_each();
    admitted::not_chained();
    admitted::behind_the_next_issue();
}

/// Allowances, picks and rights.
fn of_the_later_calls() {
    allowances::before_a_break();
    allowances::held_sheets();
    allowances::of_all_jobs();
    allowances::of_any_shelf();
    allowances::asked_by_form();
    picked::in_turns();
    picked::nothing_leaves_the_round();
    picked::fetched_or_not();
    picked::not_of_a_broken_run();
    picked::behind_all_upstreams();
    picked::asked_by_form();
    picked::within_as_many_picks();
    rights::taken_from_a_shelf();
    rights::before_the_master();
    rights::of_sheets_in_t();
    rights::of_any_office();
    rights::even_from_the_card();
    rights::to_save();
    rights::of_all_sheets();
    rights::of_held_sheets_alone();
    rights::after_the_turn();
    rights::asked_by_form();
    of_lines();
}

/// Two lines of one run.
fn of_lines() {
    branches::joined();
    branches::two_versions();
    branches::by_the_rule();
    branches::own_reads();
    branches::left_out();
    branches::words();
    branches::by_leaders_alone();
    branches::lists_hidden();
    branches::both_admitted();
    forked::asked_by_form();
    forked::written_back();
    forked::in_all_words();
    of_prepared_runs();
}

/// "A prepared run goes through", and forecasts.
fn of_prepared_runs() {
    plotter::beside_a_twin();
    plotter::with_a_right();
    plotter::two_of_them();
    foreseen::in_order();
    foreseen::refused();
    foreseen::words();
    foreseen::stopped();
    of_records();
}

/// Audits.
fn of_records() {
    audited::examples();
    audited::lines();
    audited::unreadable();
    audited::no_wrap();
    audited::causes();
    audited::own_records();
    of_texts();
}

/// Many calls at once.
fn of_texts() {
    texts::whole_lines();
    texts::cut_lines();
    texts::room();
    texts::long_lines();
    texts::new_between();
    texts::not_in_form();
    texts::forecasts();
    texts::audits();
}
