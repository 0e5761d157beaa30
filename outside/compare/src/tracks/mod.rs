//! Cases of both tracks on one circuit (02, item 7). They are sorts of their own with a plan and
//! a tally of their own; a library's server answers them by the requests of `request`.

pub mod asked;
pub mod calls;
pub mod cases;
pub mod damage;
pub mod full;
pub mod histories;
pub mod met;
pub mod of_one;
pub mod programs;
pub mod questions;
pub mod reply;
pub mod request;
pub mod rows;
pub mod sheets;
pub mod starts;
pub mod tally;
mod told;
pub mod two;
pub mod used;
pub mod writes;
