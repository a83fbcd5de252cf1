//! The rules of a packet layer's record: what request 2.7 names, nothing else. State and record are judged each by
//! itself, with Q alone in common.

use crate::packets::{Record, MOST_BYTES, MOST_LISTED};

impl Record {
    pub fn keeps_rules(&self, queues: usize) -> bool {
        self.broken_rules(queues).is_empty()
    }

    /// Names every rule that is broken. 0 bytes in and 0 byte requests left are no fault, and the queue last asked for is
    /// judged also where none are left.
    pub fn broken_rules(&self, queues: usize) -> Vec<&'static str> {
        let is_length = |length: usize| (1..=MOST_BYTES).contains(&length);
        let mut broken = Vec::new();
        let mut require = |holds: bool, rule: &'static str| {
            if !holds {
                broken.push(rule);
            }
        };
        require(self.lists.len() == queues, "list number");
        require(self.lists.iter().all(|list| list.len() <= MOST_LISTED), "list");
        require(self.lists.iter().flatten().all(|&length| is_length(length)), "listed length");
        require(self.asked < queues, "asked queue");
        require(self.left <= MOST_BYTES, "left");
        if let Some(coming) = self.coming {
            // "over 31 for the queue of a packet coming in": it shall find a place.
            let has_place = self.lists.get(coming.queue).map_or(true, |list| list.len() < MOST_LISTED);
            require(has_place, "list beside a packet coming in");
            require(coming.queue < queues, "coming queue");
            require(is_length(coming.length), "coming length");
            require(coming.bytes_in < coming.length, "bytes in");
        }
        broken
    }
}
