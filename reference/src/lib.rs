//! A line of SIKONETZ5 heads, the master that asks them and the sheet on which their settings travel, written from
//! document 01, requests (i) to (iii), (vi), (vii) and (ix) to (xiii) of document 02 and the AP05 manual in ordinary
//! mutable style, the simulator in the office, which knows whole telegrams alone, and the check of an order form.
//! DECISIONS.md lists the points that the documents leave open and what is done about each.

pub mod form;
pub mod head;
pub mod line;
pub mod master;
pub mod office;
pub mod rows;
pub mod script;
pub mod sheet;
pub mod telegram;
