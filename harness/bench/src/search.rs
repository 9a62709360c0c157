//! The price search beside the one that it replaced, on the same books, through their C entries in the crate `price_by_order`.
use crate::timing::in_turns;
use host::Figures;
use oracle::random::Random;
use oracle::MAX_ORDERS;
use std::hint::black_box;

/// Sides, limits and quantities, each as a pointer with its length; then the reserve and the reference.
type Search = unsafe extern "C" fn(*const bool, usize, *const u64, usize, *const u64, usize, u64, u64) -> Figures;

extern "C" {
    #[link_name = "entry_price_by_order"]
    fn old(_: *const bool, _: usize, _: *const u64, _: usize, _: *const u64, _: usize, _: u64, _: u64) -> Figures;
    #[link_name = "entry_price_by_table"]
    fn new(_: *const bool, _: usize, _: *const u64, _: usize, _: *const u64, _: usize, _: u64, _: u64) -> Figures;
}

const SEARCHES: [Search; 2] = [old, new];

/// The time of a search for each kind of book. Old and new must answer alike first.
pub fn compare() {
    let books = KINDS.map(|kind| (0..256).map(|n| Book::any(&mut Random::item(4, n), kind)).collect::<Vec<_>>());
    books.iter().flatten().for_each(Book::same_answers);
    let times = in_turns(books.each_ref().map(Vec::as_slice), |side, book| book.run(SEARCHES[side]));
    println!("a price search, ns: orders limits            {:>14} {:>14}   old / new", "old", "new");
    for ((Kind(orders, limits, (sequence, _)), books), times) in KINDS.iter().zip(&books).zip(times) {
        let [old, new] = times.map(|all| all / books.len() as f64);
        println!("{orders:>26} {limits:>6} {sequence:10} {old:>14.1} {new:>14.1}  {:>10.2}", old / new);
    }
}

/// A kind of book: how many orders it has, how many limits among them, and how these stand.
#[derive(Clone, Copy)]
struct Kind(usize, usize, Sequence);

/// A word for how limits stand, and what brings limits that ascend to stand so.
type Sequence = (&'static str, fn(&mut [u64], &mut Random));

const SHUFFLED: Sequence = ("shuffled", shuffle);
const ASCENDING: Sequence = ("ascending", |_, _| ());
const DESCENDING: Sequence = ("descending", |limits, _| limits.reverse());

const KINDS: [Kind; 11] = [
    Kind(MAX_ORDERS, MAX_ORDERS, SHUFFLED),
    Kind(MAX_ORDERS, MAX_ORDERS, ASCENDING),
    Kind(MAX_ORDERS, MAX_ORDERS, DESCENDING),
    Kind(MAX_ORDERS, 8, SHUFFLED),
    Kind(MAX_ORDERS, 4, SHUFFLED),
    Kind(MAX_ORDERS, 2, SHUFFLED),
    Kind(MAX_ORDERS, 1, SHUFFLED),
    Kind(8, 8, SHUFFLED),
    Kind(4, 4, SHUFFLED),
    Kind(2, 2, SHUFFLED),
    Kind(1, 1, SHUFFLED),
];

fn shuffle(limits: &mut [u64], r: &mut Random) {
    (1..limits.len()).for_each(|i| limits.swap(i, r.below(i as u64 + 1) as usize));
}

#[derive(Debug)]
struct Book {
    is_buy: Vec<bool>,
    limits: Vec<u64>,
    qtys: Vec<u64>,
}

/// The limits lie evenly about it, between 1000 and 2000.
const MIDDLE: u64 = 1500;

impl Book {
    /// Each limit as often as another, the sides and quantities at random.
    fn any(r: &mut Random, Kind(orders, distinct, (_, arrange)): Kind) -> Book {
        let limit = |i: usize| MIDDLE - 500 + (1000 * (2 * (i * distinct / orders) + 1) / (2 * distinct)) as u64;
        let mut limits: Vec<u64> = (0..orders).map(limit).collect();
        arrange(&mut limits, r);
        let is_buy = (0..orders).map(|_| r.one_in(2)).collect();
        let qtys = (0..orders).map(|_| 1 + r.below(1000)).collect();
        Book { is_buy, limits, qtys }
    }

    fn price(&self, search: Search, reserve: u64, reference: u64) -> Figures {
        let (sides, sides_len) = (self.is_buy.as_ptr(), self.is_buy.len());
        let (limits, limits_len) = (self.limits.as_ptr(), self.limits.len());
        let (qtys, qtys_len) = (self.qtys.as_ptr(), self.qtys.len());
        // Each pointer goes with its slice's length, and the entry reads no further.
        unsafe { search(sides, sides_len, limits, limits_len, qtys, qtys_len, reserve, reference) }
    }

    /// What is timed.
    fn run(&self, search: Search) {
        black_box(black_box(self).price(search, 0, MIDDLE));
    }

    /// Old and new answer alike, with each limit, the middle and both ends of 64 bits as the reserve and as the reference.
    fn same_answers(&self) {
        let numbers = [&self.limits[..], &[0, MIDDLE, u64::MAX]].concat();
        for (reserve, reference) in numbers.iter().flat_map(|&a| numbers.iter().map(move |&b| (a, b))) {
            let [old, new] = SEARCHES.map(|search| self.price(search, reserve, reference).answer());
            assert_eq!(old, new, "{self:?}, reserve {reserve}, reference {reference}");
        }
    }
}
