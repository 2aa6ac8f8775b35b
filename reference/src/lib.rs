//! A second implementation of the feed-day planner of document 01, made straight
//! from its definitions and a max flow, to say what the planner must answer.

pub mod bill;
pub mod cases;
pub mod causes;
pub mod comparison;
pub mod damage;
pub mod draws;
pub mod flow;
pub mod generate;
pub mod groups;
pub mod halls;
pub mod listing;
pub mod method;
pub mod pairs;
pub mod placing;
pub mod practice;
pub mod sets;
pub mod share;
pub mod sheet;
pub mod through;
