//! What the tests and the tools feed to a route library: seeded random numbers, sets of routes, addresses to look up in
//! them, messages about them, damage to the lists, files, rows, counts, images, segment tables and messages that are
//! made of them, and spare bits in files. Nothing here knows a library.

mod addresses;
mod damage;
pub mod messages;
mod random;
mod routes;
pub mod segments;
mod sets;
mod spare;

pub use addresses::Addresses;
pub use damage::{damage_counts, damage_file, damage_image, damage_list, damage_message, damage_rows, damage_segments};
pub use messages::Message;
pub use random::Random;
pub use routes::{first_bits_of, full_length_list, list_of, Held, Prefix, COUNTS};
pub use sets::Kind;
pub use spare::{clear_spare_bits, set_spare_bits, shorten_prefix};
