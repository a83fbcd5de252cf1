//! What a list tells of each queue, by the library's own answers: a byte that was asked for leaves exactly L accepted
//! slots later; and where the arbiter has one slot after the other, a queue that has an unrequested byte is asked
//! within Q accepted slots, so that its front byte leaves at most Q - 1 + L slots later (request 2.2).

use gelwynnar::Answer;
use second::sizes::{Design, Sizes};

use crate::words::{Arrival, ARRIVAL_DROPPED, REQUEST_DROPPED};

/// Accepted slots are counted from 0. Idle slots by the count may be more than a machine word has numbers for.
type Slot = u128;

struct Asked {
    slot: Slot,
    /// The first of the arbiter's slots in a row in which it was the front byte.
    front_since: Option<Slot>,
}

/// The bytes of a queue: they are asked for in the order of their arrival, and leave in that order.
#[derive(Default)]
struct Row {
    arrived: Vec<u8>,
    asked: Vec<Asked>,
    left: usize,
    front_since: Option<Slot>,
}

/// With more queues than these there are many.
pub const MANY: usize = 16;

/// How long front bytes had to wait in arbiter's slots, where there are two queues or more.
#[derive(Clone, Copy, Default)]
pub struct Waited {
    pub asked: usize,
    pub left: usize,
    /// As late as can be: Q - 1 slots further, or Q - 1 + L.
    pub asked_latest: usize,
    pub left_latest: usize,
    /// .. of more than `MANY` queues.
    pub asked_latest_of_many: usize,
    /// The greatest wait to be asked.
    pub greatest: usize,
}

pub struct Waits {
    sizes: Sizes,
    rows: Vec<Row>,
    slots: Slot,
    waited: Waited,
}

impl Waits {
    pub fn new(sizes: Sizes) -> Waits {
        let rows = (0..sizes.q).map(|_| Row::default()).collect();
        Waits { sizes, rows, slots: 0, waited: Waited::default() }
    }

    pub fn waited(&self) -> Waited {
        self.waited
    }

    /// A caller's slot. After it a front byte begins to wait anew, since the promise is of the arbiter's slots alone.
    pub fn callers(
        &mut self,
        arrival: Arrival,
        request: Option<usize>,
        answer: Answer,
    ) -> Result<(), String> {
        if answer.number != 0 {
            return Ok(());
        }
        self.arrives(arrival, answer);
        self.rows.iter_mut().for_each(|row| row.front_since = None);
        self.ends(request.filter(|_| answer.dropped & REQUEST_DROPPED == 0), answer)
    }

    pub fn arbiters(&mut self, arrival: Arrival, found: gelwynnar::ArbiterAnswer) -> Result<(), String> {
        if found.slot.number != 0 {
            return Ok(());
        }
        self.arrives(arrival, found.slot);
        let asked = (found.asks == 1).then_some(usize::from(found.asked));
        for (queue, row) in self.rows.iter_mut().enumerate() {
            if row.asked.len() == row.arrived.len() {
                continue;
            }
            let since = *row.front_since.get_or_insert(self.slots);
            if asked != Some(queue) && self.slots - since + 1 >= self.sizes.q as Slot {
                return Err(format!("queue {queue} was not asked in Q slots"));
            }
        }
        self.ends(asked, found.slot)
    }

    /// As many idle slots, of which the last answers so.
    pub fn idle(&mut self, passed: usize, last: Answer) -> Result<(), String> {
        let Some(quiet) = passed.checked_sub(1) else { return Ok(()) };
        if self.due().is_some_and(|due| due < self.slots + quiet as Slot) {
            return Err("a byte was due in an idle slot that is passed".to_string());
        }
        self.slots += quiet as Slot;
        self.callers(None, None, last)
    }

    /// A dropped arrival is none.
    fn arrives(&mut self, arrival: Arrival, answer: Answer) {
        if let Some((queue, value)) = arrival.filter(|_| answer.dropped & ARRIVAL_DROPPED == 0) {
            self.rows[queue].arrived.push(value);
        }
    }

    /// An accepted slot with this request, which it took.
    fn ends(&mut self, request: Option<usize>, answer: Answer) -> Result<(), String> {
        if let Some(queue) = request {
            let row = &mut self.rows[queue];
            if row.asked.len() == row.arrived.len() {
                return Err(format!("queue {queue} was asked, and has no byte"));
            }
            let front_since = row.front_since.take();
            row.asked.push(Asked { slot: self.slots, front_since });
            if let (Some(since), true) = (front_since, self.sizes.q > 1) {
                let wait = (self.slots - since) as usize;
                let latest = wait == self.sizes.q - 1;
                self.waited.asked += 1;
                self.waited.asked_latest += usize::from(latest);
                self.waited.asked_latest_of_many += usize::from(latest && self.sizes.q > MANY);
                self.waited.greatest = self.waited.greatest.max(wait);
            }
        }
        let due = self.due() == Some(self.slots);
        if due != (answer.delivers == 1) {
            return Err(format!("a byte leaves: {}, and is due: {due}", answer.delivers == 1));
        }
        if due {
            self.leaves(answer)?;
        }
        self.slots += 1;
        Ok(())
    }

    fn leaves(&mut self, answer: Answer) -> Result<(), String> {
        let (latest, cells) = (self.sizes.q - 1 + self.cells(), self.cells());
        let row = &mut self.rows[usize::from(answer.queue)];
        let number = row.left;
        row.left += 1;
        match row.asked.get(number) {
            Some(asked)
                if asked.slot + cells as Slot == self.slots && row.arrived[number] == answer.value =>
            {
                if let (Some(since), true) = (asked.front_since, self.sizes.q > 1) {
                    self.waited.left += 1;
                    self.waited.left_latest += usize::from(self.slots - since == latest as Slot);
                    if self.slots - since > latest as Slot {
                        return Err(format!("a byte of queue {} left too late", answer.queue));
                    }
                }
                Ok(())
            }
            _ => Err(format!("byte {} of queue {} leaves, and is not due", answer.value, answer.queue)),
        }
    }

    /// The slot in which the next byte is due.
    fn due(&self) -> Option<Slot> {
        let asked = self.rows.iter().filter_map(|row| row.asked.get(row.left));
        asked.map(|asked| asked.slot + self.cells() as Slot).min()
    }

    fn cells(&self) -> usize {
        Design::Full.cells(self.sizes)
    }
}
