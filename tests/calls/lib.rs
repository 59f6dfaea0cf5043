//! Makes public calls of the crates as their callers do: a module for each crate, and `dbtg_calls` for what scripts state. These tests
//! are run, not proved: see `tests/program/try-calls`.
#![tactic(auto)]

#[cfg(test)]
mod dbtg_calls;
#[cfg(test)]
mod dbtg_cells_calls;
#[cfg(test)]
mod dbtg_draw_calls;
#[cfg(test)]
mod dbtg_explore_calls;
#[cfg(test)]
mod dbtg_program_calls;
#[cfg(test)]
mod dbtg_run_calls;
#[cfg(test)]
mod dbtg_schema_calls;
#[cfg(test)]
mod dbtg_trace_calls;
#[cfg(test)]
mod dbtg_unit_calls;
