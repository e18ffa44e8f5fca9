//! Tests of the second implementation against document 01.

mod any_input;
mod command_line;
mod comparison;
mod demand_3;
mod lists;
mod plain_runs;
mod random_scripts;
mod refusals;
mod replay_scripts;
mod report_designs;
mod sound_states;
mod words_of_the_trade;
mod worked_cases;
