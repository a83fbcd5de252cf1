//! Slots in which the round robin arbiter chooses (request 2.2), among the caller's own.

use bench::library::request_in;
use bench::model::Model;
use bench::rough::rough_with_arbiter;
use bench::traffic::{ArbiterTraffic, Traffic};
use bench::words::{arbiters_call, halves, is_arbiters, taken, Request};
use bench::{careful, natural, TABLE_SIZES};
use gelwynnar::ArbiterAnswer;

use super::*;

/// Who is compared with plain natural Rust.
const ARBITER_WAYS: [(&str, Run); 3] = [
    (CAREFUL.name, CAREFUL.run_arbiter),
    ("slots", library::arbiter_slots),
    ("steps", library::arbiter_steps),
];

/// What a slot says: its answer word and the queue that the arbiter asked, and of the state that it leaves the last one
/// asked and the high marks.
#[derive(Debug, PartialEq)]
struct Said {
    answer: u64,
    asked: Request,
    last_asked: usize,
    marks: [usize; 2],
}

fn natural_says(buffer: &mut impl Model, call: u64, store: &mut [u8]) -> Said {
    let (answer, asked) = buffer.turn(call, store);
    Said { answer, asked, last_asked: buffer.last_asked(), marks: buffer.marks() }
}

fn library_says(buffer: &mut Buffer, call: u64, store: &mut [u8], in_steps: bool) -> Said {
    // Safe: the store is long enough.
    let told = match (is_arbiters(call), in_steps) {
        (true, true) => unsafe { buffer.arbiter_step(call, store) },
        (true, false) => buffer.arbiter_slot(call, store),
        (false, true) => own(unsafe { buffer.step(call, store) }),
        (false, false) => own(buffer.slot(call, store)),
    };
    let asked = request_in(&told);
    assert_eq!([u16::from(told.asks), told.asked], [u16::from(asked.is_some()), asked.unwrap_or(0)]);
    Said { answer: told.slot.word(), asked, last_asked: buffer.last_asked(), marks: buffer.marks() }
}

/// The answer of a slot of the caller's own.
fn own(slot: gelwynnar::Answer) -> ArbiterAnswer {
    ArbiterAnswer { slot, asks: 0, asked: 0 }
}

/// Runs the list in every way, slot by slot and then as a whole, and gives what all of them say.
fn agree_by_turns(sizes: Sizes, calls: &[u64]) -> Vec<Said> {
    let given = random_store(sizes.store());
    let mut plain = natural::Buffer::fresh(sizes).expect("these sizes are accepted");
    let mut careful = careful::Buffer::<true>::fresh(sizes).expect("these sizes are accepted");
    let mut stepping = Buffer::open(sizes).expect("these sizes are accepted");
    let mut checked = Buffer::open(sizes).expect("these sizes are accepted");
    let mut stores = [(); 4].map(|()| given.clone());
    let mut all_said = Vec::with_capacity(calls.len());
    for (slot, &call) in calls.iter().enumerate() {
        let [of_plain, of_careful, of_steps, of_slots] = &mut stores;
        let said = natural_says(&mut plain, call, of_plain);
        let others = [
            ("careful", natural_says(&mut careful, call, of_careful)),
            ("steps", library_says(&mut stepping, call, of_steps, true)),
            ("slots", library_says(&mut checked, call, of_slots, false)),
        ];
        for (way, other) in others {
            assert_eq!(said, other, "{sizes:?}: slot {slot} of plain natural Rust, and of {way}");
        }
        all_said.push(said);
    }
    assert!(stores.iter().all(|store| *store == stores[0]), "{sizes:?}: the stores differ");

    let plain = agree_as_lists(&ARBITER_WAYS, sizes, calls, &given);
    let in_list = plain.answers.into_iter().zip(plain.asked);
    assert!(in_list.eq(all_said.iter().map(|said| (said.answer, said.asked))), "{sizes:?}: the list differs");
    all_said
}

/// The whole list in some of the ways.
fn agree_as_lists(ways: &[(&str, Run)], sizes: Sizes, calls: &[u64], store: &[u8]) -> Lent {
    let plain = outcome(PLAIN.run_arbiter, sizes, calls, store);
    for &(way, run) in ways {
        let list = format!("{sizes:?}, {way} with the arbiter");
        let other = outcome(run, sizes, calls, store);
        assert_same(&plain, &other, &list);
        assert!(plain.asked == other.asked, "{list}: the queues asked differ");
        assert_eq!(plain.last_asked, other.last_asked, "{list}: the last one asked");
    }
    plain
}

/// What the list itself tells of the arbiter: the bytes of each queue that nobody has asked for and the last one asked,
/// by the halves that were taken.
struct History {
    unasked: Vec<usize>,
    last: usize,
}

impl History {
    fn new(sizes: Sizes) -> History {
        History { unasked: vec![0; sizes.queues], last: sizes.queues - 1 }
    }

    /// One slot more. The arbiter asks for the next queue, from the last one asked and round, that has a byte.
    fn pass(&mut self, call: u64, said: &Said) {
        let queues = self.unasked.len();
        if number(said.answer) != 0 {
            assert_eq!((said.asked, said.last_asked), (None, self.last), "a stopped slot");
            return;
        }
        let (arrival, request) = halves(call);
        let (arrival, mut request) = taken(said.answer, arrival, request);
        if let Some((queue, _)) = arrival {
            self.unasked[queue as usize] += 1;
        }
        if is_arbiters(call) {
            let mut round = (self.last + 1..=self.last + queues).map(|queue| queue % queues);
            let next = round.find(|&queue| self.unasked[queue] > 0);
            assert_eq!(said.asked.map(usize::from), next, "after {}", self.last);
            assert_eq!(dropped(said.answer)[1], 0, "what the arbiter asks for is there");
            self.last = next.unwrap_or(self.last);
            request = said.asked;
        } else {
            assert_eq!(said.asked, None, "a request of the caller's own");
        }
        assert_eq!(said.last_asked, self.last);
        if let Some(queue) = request {
            self.unasked[queue as usize] -= 1;
        }
    }
}

fn check_choices(sizes: Sizes, calls: &[u64], said: &[Said]) {
    let mut history = History::new(sizes);
    for (&call, said) in calls.iter().zip(said) {
        history.pass(call, said);
    }
}

/// Long enough for what is asked to come out again.
fn long_enough(sizes: Sizes) -> usize {
    2000 + 4 * sizes.lookahead()
}

#[test]
fn at_many_sizes() {
    let mut stops = [0; 11];
    let (mut asked, mut unasked, mut swaps) = (0, 0, 0);
    // Slots with a dropped arrival in which a queue is asked, and in which none is.
    let (mut dropped_and_asked, mut dropped_alone) = (0, 0);
    for (seed, sizes) in many_sizes() {
        let calls = rough_with_arbiter(sizes, long_enough(sizes), seed);
        let all_said = agree_by_turns(sizes, &calls);
        check_choices(sizes, &calls, &all_said);
        for (said, _) in all_said.iter().zip(&calls).filter(|(_, &call)| is_arbiters(call)) {
            stops[number(said.answer) as usize] += 1;
            asked += usize::from(said.asked.is_some());
            unasked += usize::from(number(said.answer) == 0 && said.asked.is_none());
            let of_arrival = dropped(said.answer)[0] == 5;
            dropped_and_asked += usize::from(of_arrival && said.asked.is_some());
            dropped_alone += usize::from(of_arrival && said.asked.is_none());
        }
        swaps += swaps_of_arbiter(sizes, &calls);
    }
    // The comparison would say little of lists in which nothing happens.
    assert!([0, 4].into_iter().all(|number| stops[number] > 500), "{stops:?}");
    assert_eq!(stops.iter().sum::<usize>(), stops[0] + stops[4], "{stops:?}");
    assert!(asked > 10_000 && unasked > 1000 && swaps > 100, "{asked} asked, {unasked} not, {swaps} swaps");
    assert!(dropped_and_asked > 500, "{dropped_and_asked} slots ask and drop the arrival");
    // From a fresh state a full queue always has a byte to ask for, or another one has.
    assert_eq!(dropped_alone, 0, "slots that drop the arrival and ask for none");
}

/// How many slots of the arbiter's read and refill a full queue.
fn swaps_of_arbiter(sizes: Sizes, calls: &[u64]) -> usize {
    let mut buffer = natural::Buffer::fresh(sizes).expect("these sizes are accepted");
    let mut store = vec![0; sizes.store()];
    let mut taken = 0;
    for &call in calls {
        let (arrival, _) = halves(call);
        let swaps = is_arbiters(call) && buffer.swaps(arrival, buffer.choice(arrival));
        let (answer, _) = buffer.turn(call, &mut store);
        taken += usize::from(swaps && number(answer) == 0);
    }
    taken
}

/// All slots run whole, and all that can be asked for is: the byte that arrives, or the whole backlog.
#[test]
fn the_traffic_of_the_table_by_turns() {
    for sizes in TABLE_SIZES {
        for traffic in ArbiterTraffic::ALL {
            let calls = traffic.calls(sizes, 10_000, 1);
            let all_said = agree_by_turns(sizes, &calls);
            check_choices(sizes, &calls, &all_said);
            assert!(all_said.iter().all(|said| is_whole(said.answer)), "{sizes:?}, {}", traffic.name());
            let backlog = matches!(traffic, ArbiterTraffic::Backlog);
            for (said, &call) in all_said.iter().zip(&calls).filter(|(_, &call)| is_arbiters(call)) {
                assert_eq!(said.asked.is_some(), backlog || halves(call).0.is_some());
            }
        }
    }
}

/// The arbiter asks as the list of the caller's own requests does.
#[test]
fn the_arbiter_goes_round() {
    for sizes in TABLE_SIZES {
        let calls = Traffic::RoundRobin.calls(sizes, 10_000, 1);
        let all_said = agree_by_turns(sizes, &ArbiterTraffic::RoundRobin.calls(sizes, 10_000, 1));
        for (&call, said) in calls.iter().zip(&all_said) {
            assert_eq!(halves(call).1, said.asked, "{sizes:?}");
        }
    }
}

#[test]
fn a_list_by_hand() {
    let arbiters = |queue| arbiters_call(Some((queue, 7)));
    let nothing = arbiters_call(None);
    // Each call, the queue that the arbiter asks, and the last one asked. Fresh it is 2. Slot 8 is stopped.
    let list = [
        (nothing, None, 2),
        (arbiters(1), Some(1), 1),
        (arrival(0, 1), None, 1),
        (arrival(1, 2), None, 1),
        (arrival(2, 3), None, 1),
        (arbiters(1), Some(2), 2),
        (nothing, Some(0), 0),
        (request(1), None, 0),
        (arbiters(3), None, 0),
        (nothing, Some(1), 1),
        (arbiters(1), Some(1), 1),
        (nothing, None, 1),
    ];
    let sizes = Sizes::new(3, 2, 2);
    let all_said = agree_by_turns(sizes, &list.map(|(call, _, _)| call));
    for (slot, ((_, asked, last), said)) in list.into_iter().zip(&all_said).enumerate() {
        assert_eq!((asked, last), (said.asked, said.last_asked), "slot {slot}");
        assert_eq!(number(said.answer), if slot == 8 { 4 } else { 0 }, "slot {slot}");
    }
}

#[test]
fn an_arbiter_with_a_short_store() {
    // The step is not for such a store: its list is refused whole.
    let checked: Vec<(&str, Run)> = ARBITER_WAYS.into_iter().filter(|&(way, _)| way != "steps").collect();
    for sizes in LIMITS {
        let calls = &rough_with_arbiter(sizes, 100, 3);
        let store = &random_store(sizes.store() - 1);
        let plain = agree_as_lists(&checked, sizes, calls, store);
        assert!(plain.answers.iter().all(|&answer| answer == 2 << 56));
        assert!(plain.asked.iter().all(|asked| asked.is_none()));
        assert_eq!(plain.last_asked, sizes.queues - 1);
        assert!(!library::arbiter_steps(sizes, calls, &mut Lent::new(calls.len(), store.clone())));
    }
}

/// Of the call's word the arbiter's slot looks at the arrival alone, and other ways leave the last one asked.
#[test]
fn whose_request_counts() {
    for (seed, sizes) in many_sizes() {
        let calls = rough_with_arbiter(sizes, 1000, seed);
        let asks = |&call: &u64| if is_arbiters(call) { call | request(0) } else { call };
        let marked: Vec<u64> = calls.iter().map(asks).collect();
        assert!(agree_by_turns(sizes, &calls) == agree_by_turns(sizes, &marked), "{sizes:?}");

        let store = &mut random_store(sizes.store());
        let mut buffer = Buffer::open(sizes).expect("these sizes are accepted");
        buffer.run(&calls, &mut vec![0; calls.len()], store);
        buffer.idle(10, store);
        assert_eq!(buffer.last_asked(), sizes.queues - 1, "{sizes:?}");
    }
}
