//! 01's examples, the rows of its table, orders handed in, slips, 02's names,
//! shelf, look-up, cloth and starts, 01's version of the layout, sheets between
//! editions, readings that nobody writes, and branches taken.

mod branch_orders;
mod branches;
mod cloth;
mod cloth_text;
mod common;
mod convert;
mod edges;
mod letters;
mod lookup;
mod names;
mod orders;
mod reads;
mod row_1;
mod rows_job;
mod rows_sheet;
mod shelf;
mod slips;
mod start;
mod start_text;
mod values;
mod version;
