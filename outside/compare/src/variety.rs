//! A variety of a sort of cases, which the makers name and the plan takes turns at.

use crate::random::Random;
use crate::request::Request;

/// Its name and its maker.
pub type Variety = (&'static str, fn(&mut Random) -> Request);
