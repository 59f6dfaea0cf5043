//! Makes public calls of `dbtg_run` as their callers do, once and with memory to spare, on one thread and on several.

mod gates;
mod making;
mod meeting;
mod settling;
mod shop;
mod threads;
