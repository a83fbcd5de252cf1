//! Records of the packet layer that break one rule of request 2.7 and no other.

use crate::packets::{Coming, Record, MOST_BYTES, MOST_LISTED};
use crate::random::Random;
use crate::random_record::{random_length, random_record};
use crate::sizes::Sizes;

#[derive(Clone, Copy, Debug, PartialEq, Eq)]
pub enum RecordBreak {
    List,
    ListBesideComing,
    ListedNothing,
    ListedOver,
    ComingQueue,
    ComingNothing,
    ComingOver,
    AllBytesIn,
    MoreBytesIn,
    AskedQueue,
    /// .. where no byte requests are left.
    AskedQueueAtRest,
    Left,
}

pub const ALL: [RecordBreak; 12] = [
    RecordBreak::List,
    RecordBreak::ListBesideComing,
    RecordBreak::ListedNothing,
    RecordBreak::ListedOver,
    RecordBreak::ComingQueue,
    RecordBreak::ComingNothing,
    RecordBreak::ComingOver,
    RecordBreak::AllBytesIn,
    RecordBreak::MoreBytesIn,
    RecordBreak::AskedQueue,
    RecordBreak::AskedQueueAtRest,
    RecordBreak::Left,
];

/// The greatest number that two bytes hold.
const FAR: usize = 65_535;

impl RecordBreak {
    /// The rules that are broken then. A packet of no bytes has as many in.
    pub fn rules(self) -> &'static [&'static str] {
        use RecordBreak::*;
        match self {
            List => &["list"],
            ListBesideComing => &["list beside a packet coming in"],
            ListedNothing | ListedOver => &["listed length"],
            ComingQueue => &["coming queue"],
            ComingNothing => &["coming length", "bytes in"],
            ComingOver => &["coming length"],
            AllBytesIn | MoreBytesIn => &["bytes in"],
            AskedQueue | AskedQueueAtRest => &["asked queue"],
            Left => &["left"],
        }
    }
}

/// A record that breaks the rules of `which` and no other; some breaks need some luck, hence the tries.
pub fn broken_record(random: &mut Random, which: RecordBreak, sizes: Sizes) -> Record {
    loop {
        let mut record = random_record(random, sizes);
        break_rule(random, which, sizes, &mut record);
        if record.broken_rules(sizes.q) == which.rules() {
            return record;
        }
    }
}

fn break_rule(random: &mut Random, which: RecordBreak, sizes: Sizes, record: &mut Record) {
    let queue = random.below(sizes.q);
    let outside = random.pick(&[sizes.q, sizes.q, sizes.q + 1, 255, 256, FAR]);
    let some_over = MOST_BYTES + random_length(random);
    let over = random.pick(&[MOST_BYTES + 1, MOST_BYTES + 1, some_over, FAR]);
    match which {
        RecordBreak::List => {
            // Most often just so; a byte for the count has room for 255.
            let count = random.pick(&[MOST_LISTED + 1, MOST_LISTED + 1, MOST_LISTED + 2, 64, 255]);
            record.lists[queue].resize_with(count, || random_length(random));
            record.coming = record.coming.filter(|coming| coming.queue != queue);
        }
        RecordBreak::ListBesideComing => {
            let queue = coming(random, record).queue;
            record.lists[queue].resize_with(MOST_LISTED, || random_length(random));
        }
        RecordBreak::ListedNothing => replace_listed(random, record, 0),
        RecordBreak::ListedOver => replace_listed(random, record, over),
        RecordBreak::ComingQueue => coming(random, record).queue = outside,
        RecordBreak::ComingNothing => *coming(random, record) = Coming { queue, length: 0, bytes_in: 0 },
        RecordBreak::ComingOver => coming(random, record).length = over,
        RecordBreak::AllBytesIn => {
            let coming = coming(random, record);
            coming.bytes_in = coming.length;
        }
        RecordBreak::MoreBytesIn => {
            let coming = coming(random, record);
            coming.bytes_in = random.pick(&[coming.length + 1, MOST_BYTES + 1, FAR]);
        }
        RecordBreak::AskedQueue => {
            record.asked = outside;
            record.left = random_length(random);
        }
        RecordBreak::AskedQueueAtRest => {
            record.asked = outside;
            record.left = 0;
        }
        RecordBreak::Left => record.left = over,
    }
}

/// The packet that is coming in, or a new one.
fn coming<'a>(random: &mut Random, record: &'a mut Record) -> &'a mut Coming {
    let queue = random.below(record.lists.len());
    let length = random_length(random);
    record.coming.get_or_insert(Coming { queue, length, bytes_in: random.below(length) })
}

/// The first of a list, the last, or one between; of one list only, so that nothing else shows the fault.
fn replace_listed(random: &mut Random, record: &mut Record, length: usize) {
    let queue = random.below(record.lists.len());
    let list = &mut record.lists[queue];
    let between = random.below(list.len());
    let place = random.pick(&[0, list.len().saturating_sub(1), between]);
    if let Some(listed) = list.get_mut(place) {
        *listed = length;
    }
}
