//! What the programs of the comparison share: the inputs that they make, the
//! listed differences, and the table of what document 01 lets a call answer.

mod case;
mod conditions;
mod differences;
mod divided;
pub mod given;
mod hex;
pub mod histories;
pub mod kinds;
mod random;
mod records;
pub mod requests;
mod shorter;
pub mod stores;
pub mod values;

pub use case::{Case, Seen, shown, unmarked};
pub use conditions::Condition;
pub use differences::{Difference, Said};
pub use hex::{hex, unhex};
pub use random::Random;
pub use records::{End, Record, body_of, records};
pub use shorter::{fewest, shorter};
