//! Makes each public call of `dbtg_draw` as its callers do, with memory to spare.
mod texts;
