//! Comparisons of the tool's answers with the independent ones on many generated inputs. Each takes
//! the answering function as a parameter, so that wrong ones can show that they would be noticed.

pub mod conflicts;
pub mod explained;
pub mod explaining;
pub mod judging;
pub mod lateness;
pub mod listings;
pub mod loads;
pub mod margins;
#[cfg(test)]
pub mod misreading;
pub mod printing;
pub mod reading;
pub mod responses;
pub mod searching;
