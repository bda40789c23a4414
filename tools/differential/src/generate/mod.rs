//! Everything that is asked, from a seed.

pub mod damage;
pub mod long;
pub mod schema;
pub mod short;
pub mod table;
pub mod text;
pub mod values;
