//! The peer that the static library is measured against, the workloads, the timing, and error rates.

pub mod clips;
pub mod counting;
pub mod load;
pub mod noise;
pub mod peer;
pub mod report;
pub mod symbols;
pub mod timing;
pub mod workload;
