//! Tests of the model against document 01. Expected numbers are worked out by hand or by a second,
//! naive way of counting.

mod ceiling;
mod chunk_calls;
mod chunks;
mod demand3;
mod ev_logs;
mod evs;
mod example;
mod flow_logs;
mod flows;
mod flows_refused;
mod flows_together;
mod ledger;
mod log;
mod marks;
mod naive;
mod number_two;
mod p_cases;
mod planner;
mod plans;
mod plans_random;
mod random;
mod refusals;
mod report;
mod rig;
mod samples;
mod sampling;
mod stops;
mod turns;
mod turns_random;
mod vectors;
mod window;
