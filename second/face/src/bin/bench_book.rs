//! Offers, Rattle against the second program: on a full book of 65,536 records, and filling a book from empty.

use face::bench::{compare, growth, timed};
use second::made;

const ID: [u8; 32] = [0x11; 32];
const OWNER: [u8; 20] = [0x22; 20];
const TIME: u64 = 1_000;

/// The call that both programs have.
type OfferCall = fn(&mut [u8], &[u8], &[u8], &[u8], &[u8]) -> u32;

/// An address and a stamp, under a batch of depth 24.
type Offer = ([u8; 32], [u8; 113]);

fn main() {
    let full = book(65_536, 0..65_536);
    let one_short = book(65_536, (0..65_536).filter(|bucket| *bucket != 32_768));
    on_a_copy("a new slot in the middle, 65,535 held", &one_short, offer(32_768, 0, TIME), 0);
    on_a_copy("a record replaced, 65,536 held", &full, offer(32_768, 0, TIME + 1), 0);
    let more = on_a_copy("refused with 22, 65,536 held", &full, offer(32_768, 0, TIME - 1), 22);
    on_a_copy("a rise that drops half of 65,536", &full, offer(1_000, 1, TIME), 0);
    let quarter = book(16_384, 0..16_384);
    let less = on_a_copy("refused with 22, 16,384 held", &quarter, offer(8_192, 0, TIME - 1), 22);
    growth("4 times the book", &less, &more);
    let offers: Vec<Offer> = (0..4_096u32).map(|place| offer((place * 2_531 % 4_096 * 16) as u16, 0, TIME)).collect();
    compare_offers("4,096 slots from empty", 4, &book(4_096, []), &offers, 0);
}

/// One offer, each time on a fresh copy of the book, which is made off the clock.
fn on_a_copy(job: &str, book: &[u8], offer: Offer, answer: u32) -> Vec<f64> {
    compare_offers(job, 30, book, &[offer], answer)
}

fn compare_offers(job: &str, turns: usize, book: &[u8], offers: &[Offer], answer: u32) -> Vec<f64> {
    let (mut ours, mut theirs) = (book.to_vec(), book.to_vec());
    let turn = |call: OfferCall, lent: &mut [u8]| {
        lent.copy_from_slice(book);
        timed(|| offers.iter().for_each(|offer| assert_eq!(file(call, lent, offer), answer)))
    };
    let seconds = compare(
        job,
        turns,
        &mut [
            ("Rattle", &mut || turn(face::book::offer, &mut ours)),
            ("second", &mut || turn(second::book::offer, &mut theirs)),
        ],
    );
    assert!(ours == theirs, "{job}: books differ");
    seconds
}

fn file(call: OfferCall, book: &mut [u8], (address, stamp): &Offer) -> u32 {
    call(book, &made::batch(&ID, &OWNER, 24), address, stamp, &OWNER)
}

fn offer(bucket: u16, index: u32, time: u64) -> Offer {
    let address = made::address(bucket.to_be_bytes());
    (address, made::stamp(&ID, u32::from(bucket), index, time, &[7; 65]))
}

/// A book near the overlay zero that holds one record in each of these buckets.
fn book(capacity: usize, buckets: impl IntoIterator<Item = u32>) -> Vec<u8> {
    let records: Vec<[u8; 145]> = buckets
        .into_iter()
        .map(|bucket| offer(bucket as u16, 0, TIME))
        .map(|(address, stamp)| made::record(&stamp, &address))
        .collect();
    made::holding(made::fresh(capacity, 0, &[0; 32]), &records)
}
