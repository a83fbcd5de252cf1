//! A second program, written from the paper and the requests alone, to check the first against.

pub mod arbiter;
pub mod arbiter_cases;
pub mod arbiter_lists;
pub mod breaks;
pub mod buffer;
pub mod capture;
pub mod capture_damage;
pub mod captures;
mod case;
pub mod cases;
#[cfg(test)]
mod drawn;
pub mod full_queue;
mod lines;
pub mod lists;
pub mod packet_breaks;
mod packet_rules;
pub mod packet_traffic;
pub mod packets;
pub mod program;
pub mod random;
pub mod random_capture;
pub mod random_record;
pub mod random_state;
pub mod raw;
pub mod reads;
pub mod rules;
pub mod script;
pub mod sizes;
pub mod sizing;
#[cfg(test)]
mod tests;
pub mod whole_packets;
