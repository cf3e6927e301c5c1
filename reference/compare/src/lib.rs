//! The proved code beside the reference: random requests to every function of `include/guard.h`, answered by both.
pub mod compare;
pub mod face;
pub mod faced;
pub mod guards;
pub mod lent;
pub mod pairs;
pub mod proved;
pub mod request;
pub mod requests;
pub mod texts;
