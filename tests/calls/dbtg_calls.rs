//! Makes public calls of `dbtg_erase`, `dbtg_step` and `dbtg_script` as their callers do, once and with memory to spare, and those of
//! `dbtg_unit` that judge statements, which scripts state here.

mod areas;
mod audits;
mod copies;
mod deletes;
mod faults;
mod finishing;
mod fits;
mod limits;
mod naming;
mod printed;
mod refusals;
mod scripts;
mod seeing;
mod shop;
mod surface;
