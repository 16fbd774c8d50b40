//! Each call through the wrapper: its answers, its refusals and their order, and what it leaves.

use breadcrumb::{packed, OCCUPANCY_BYTES};
use breadcrumb::{Asked, Changed, Counted, Entry, Image, OldImage, Paged, Place, Refusal, Tail};

/// A hash with f = 13 where B = 3.
const THIRTEEN: u64 = 0x8AAAAAAB00000000;

/// A hash with f = 9 where B = 3: its two backyard buckets are both number 1.
const NINE: u64 = 0x6000000000000000;

/// The slots of all buckets where B = 3.
const SLOTS: u64 = 892;

/// An image with these hashes, B = 3.
fn holding(hashes: impl IntoIterator<Item = u64>) -> Image {
    let mut image = Image::new(3).unwrap();
    for hash in hashes {
        image.insert(hash).unwrap();
    }
    image
}

/// The same image with these eight bytes of the tail, from byte `at` on.
fn with_tail(image: &Image, at: usize, word: u64) -> Image {
    let mut bytes = image.bytes().to_vec();
    let at = bytes.len() - 64 + at;
    bytes[at..at + 8].copy_from_slice(&word.to_le_bytes());
    Image::over(bytes)
}

fn with_total(image: &Image, total: u64) -> Image {
    with_tail(image, 0, total)
}

fn with_changes(image: &Image, changes: u64) -> Image {
    with_tail(image, 8, changes)
}

/// The same image with a front bucket unsound.
fn with_unsound(image: &Image, f: usize) -> Image {
    let mut bytes = image.bytes().to_vec();
    bytes[64 * f..64 * (f + 1)].fill(0);
    Image::over(bytes)
}

/// The refusal of an insert or a delete, which must keep every byte.
fn refused<T>(image: &Image, call: impl Fn(&mut Image) -> Result<T, Refusal>) -> Refusal {
    let mut lent = image.clone();
    let refusal = call(&mut lent).err().expect("a refusal");
    assert_eq!(lent, *image);
    refusal
}

fn tail(total: u64, changes: u64) -> Result<Tail, Refusal> {
    Ok(Tail { total, changes })
}

fn asked(reads: u64, place: Place, copies: u64) -> Result<Asked, Refusal> {
    Ok(Asked {
        reads,
        place,
        copies,
    })
}

fn counted(copies: u64, reads: u64) -> Result<Counted, Refusal> {
    Ok(Counted { copies, reads })
}

#[test]
fn places_and_copies() {
    let mut image = Image::new(3).unwrap();
    for _ in 0..28 {
        assert_eq!(image.insert(THIRTEEN), Ok(Changed::Front));
    }
    assert_eq!(image.insert(THIRTEEN + 1), Ok(Changed::Backyard(5)));
    assert_eq!(image.insert(THIRTEEN + 2), Ok(Changed::Backyard(1)));
    assert_eq!(image.ask(THIRTEEN), asked(1, Place::Front(0), 28));
    assert_eq!(image.ask(THIRTEEN + 2), asked(2, Place::First(0), 1));
    assert_eq!(image.ask(THIRTEEN + 1), asked(3, Place::Second(0), 1));
    assert_eq!(image.ask(THIRTEEN + 3), asked(3, Place::None, 0));
    assert_eq!(image.count(THIRTEEN), counted(28, 3));
    assert_eq!(image.count(0), counted(0, 1));
    assert_eq!(image.list().unwrap().len(), 30);
    assert_eq!(image.delete(THIRTEEN), Ok(Changed::Backyard(5)));
    assert_eq!(image.check(), Ok(()));
}

#[test]
fn copies_where_an_ask_ends() {
    let mut image = Image::new(3).unwrap();
    // Front has 27 and one, First one and two, Second two and two.
    for (tag, how_many) in [(0, 27), (1, 4), (2, 4)] {
        for _ in 0..how_many {
            image.insert(THIRTEEN + tag).unwrap();
        }
    }
    let told = |tag| {
        let asked = image.ask(THIRTEEN + tag).unwrap();
        let counted = image.count(THIRTEEN + tag).unwrap();
        (asked.place, asked.copies, counted.copies)
    };
    assert_eq!(told(0), (Place::Front(0), 27, 27));
    assert_eq!(told(1), (Place::Front(27), 1, 4));
    assert_eq!(told(2), (Place::First(1), 2, 4));
    assert_eq!(told(3), (Place::None, 0, 0));
}

#[test]
fn one_backyard_bucket() {
    let mut image = holding((0..29).map(|n| NINE + n));
    assert_eq!(image.insert(NINE + 29), Ok(Changed::Backyard(1)));
    assert_eq!(image.ask(NINE + 27), asked(1, Place::Front(27), 1));
    assert_eq!(image.ask(NINE + 29), asked(2, Place::Second(1), 1));
    assert_eq!(image.ask(NINE + 30), asked(2, Place::None, 0));
    assert_eq!(image.count(NINE + 29), counted(1, 2));
    let mut row = [NINE, NINE + 29, THIRTEEN].map(Entry::new);
    assert_eq!(image.row(&mut row), Ok(3));
    assert_eq!(row[1].asked(), image.ask(NINE + 29).unwrap());
    // Choice 0 in the place of choice 1, digit 1 both times: unsound, whoever reads it.
    let mut bytes = image.bytes().to_vec();
    assert_eq!(bytes[64 * 25 + 52], 0x99);
    bytes[64 * 25 + 52] = 0x91;
    let old = OldImage::over(&bytes[..2176]);
    assert_eq!(old.attach(), Err(Refusal::Unsound(25)));
    let image = Image::over(bytes);
    assert_eq!(image.ask(NINE + 28), Err(Refusal::Unsound(25)));
    assert_eq!(image.count(NINE + 29), Err(Refusal::Unsound(25)));
    assert_eq!(image.check(), Err(Refusal::Unsound(25)));
    assert_eq!(
        refused(&image, |lent| lent.delete(NINE)),
        Refusal::Unsound(25)
    );
}

#[test]
fn refusals() {
    assert_eq!(Image::new(0), Err(Refusal::WrongLength));
    assert_eq!(Image::new(65537), Err(Refusal::WrongLength));
    let mut lent = vec![0; 1088];
    lent[1024 + 16] = 1;
    let mut image = Image::over(&mut lent[..]);
    assert_eq!(image.ask(0), Err(Refusal::Unsound(0)));
    image.fresh().unwrap();
    assert_eq!(image.delete(0), Err(Refusal::Absent));
    assert_eq!(image.page(9, 0, &mut []), Err(Refusal::PastTheEnd));
    image.insert(0).unwrap();
    assert_eq!(image.page(0, 1, &mut []), Err(Refusal::DoesNotFit));
    let page = Paged {
        how_many: 0,
        next: 8,
    };
    assert_eq!(image.page(1, 1, &mut []), Ok(page));
    // Backyard bucket 0 gets one member before its turn, crumb 1.
    lent[64 * 8..64 * 8 + 8].copy_from_slice(&((1u64 << 37) - 2).to_le_bytes());
    lent[64 * 8 + 52] = 1;
    let early = Image::over(&lent[..]);
    assert_eq!(early.check(), Err(Refusal::Early(8)));
    let mut target = Image::new(1).unwrap();
    assert_eq!(target.merge(&early, &early), Err(Refusal::Early(8)));
    let other = Image::new(2).unwrap();
    assert_eq!(target.merge(&early, &other), Err(Refusal::LengthsDiffer));
}

/// The refusal of a page with one entry of output, which must keep it.
fn refused_page(image: &Image, start: u64, changes: u64) -> Refusal {
    let mut out = [7];
    let refusal = image.page(start, changes, &mut out).unwrap_err();
    assert_eq!(out, [7]);
    refusal
}

#[test]
fn refused_pages() {
    // All hold at first; then the first of 1, 11, 14, 6, 3, 7 is mended, one by one.
    let image = holding([THIRTEEN, THIRTEEN]);
    let unsound = with_unsound(&image, 13);
    let bad = with_tail(&unsound, 16, 0);
    let short = Image::over(bad.bytes()[1..].to_vec());
    assert_eq!(refused_page(&short, 25, 9), Refusal::WrongLength);
    assert_eq!(refused_page(&bad, 25, 9), Refusal::BadTail);
    assert_eq!(refused_page(&unsound, 25, 9), Refusal::Changed);
    assert_eq!(refused_page(&unsound, 25, 2), Refusal::PastTheEnd);
    assert_eq!(refused_page(&unsound, 13, 2), Refusal::Unsound(13));
    assert_eq!(refused_page(&image, 13, 2), Refusal::DoesNotFit);
    // Later ones alone do not come before 14 either.
    assert_eq!(refused_page(&unsound, 13, 9), Refusal::Changed);
    assert_eq!(refused_page(&image, 13, 9), Refusal::Changed);
}

#[test]
fn change_counts_of_a_page() {
    let image = holding([THIRTEEN, THIRTEEN]);
    for count in [0, 1, 2, 0xFFFFFFFF, 1 << 32, 1 << 63, u64::MAX] {
        let image = with_changes(&image, count);
        let mut out = [7; 3];
        let page = image.page(0, count, &mut out).unwrap();
        assert_eq!((page.how_many, page.next, out[2]), (2, 24, 7));
        // Every bit of the count matters, also where nothing is left to list.
        for bit in 0..64 {
            assert_eq!(
                refused_page(&image, 0, count ^ (1 << bit)),
                Refusal::Changed
            );
            assert_eq!(
                refused_page(&image, 24, count ^ (1 << bit)),
                Refusal::Changed
            );
        }
    }
}

/// An entry that holds 7 besides its hash.
fn told_before(hash: u64) -> Entry {
    Entry {
        hash,
        reads: 7,
        place: 7,
        slot: 7,
        copies: 7,
    }
}

#[test]
fn rows() {
    let mut image = Image::new(3).unwrap();
    for n in 0..40 {
        image.insert(THIRTEEN + 10 * n).unwrap();
    }
    image.insert(u64::MAX).unwrap();
    image.insert(u64::MAX).unwrap();
    // Three groups: one ask in front bucket 0, five in 13 that end in every way, two in 23.
    let asks = [
        (1, 1, Place::None, 0),
        (THIRTEEN, 1, Place::Front(0), 1),
        (THIRTEEN + 390, 2, Place::First(5), 1),
        (THIRTEEN + 380, 3, Place::Second(5), 1),
        (THIRTEEN + 5, 1, Place::None, 0),
        (THIRTEEN + 395, 3, Place::None, 0),
        (u64::MAX - 1, 1, Place::None, 0),
        (u64::MAX, 1, Place::Front(0), 2),
    ];
    let mut row = asks.map(|(hash, ..)| told_before(hash));
    assert_eq!(image.row(&mut row), Ok(1 + 3 + 1));
    for (entry, (hash, reads, place, copies)) in row.iter().zip(asks) {
        let asked = Asked {
            reads,
            place,
            copies,
        };
        assert_eq!((entry.hash, entry.asked()), (hash, asked));
        assert_eq!(image.ask(hash), Ok(asked));
    }
    assert_eq!(image.row(&mut []), Ok(0));
    assert_eq!(std::mem::size_of::<Entry>(), 24);
}

#[test]
fn refused_rows() {
    let ascending = [THIRTEEN, u64::MAX].map(told_before);
    let descending = [u64::MAX, THIRTEEN].map(told_before);
    let mut image = Image::new(3).unwrap().into_bytes();
    // A refused row keeps its entries.
    let refused = |image: &[u8], row: [Entry; 2]| {
        let mut lent = row;
        let refusal = Image::over(image).row(&mut lent).unwrap_err();
        assert_eq!(lent, row);
        refusal
    };
    assert_eq!(refused(&image, descending), Refusal::Descending);
    // The front bucket of the larger hash becomes unsound.
    image[23 * 64..24 * 64].fill(0);
    assert_eq!(refused(&image, ascending), Refusal::Unsound(23));
    assert_eq!(refused(&image, descending), Refusal::Descending);
    assert_eq!(refused(&image[1..], descending), Refusal::WrongLength);
    let short = Image::over(&image[1..]);
    assert_eq!(short.row(&mut []), Err(Refusal::WrongLength));
}

#[test]
fn occupancy_pages() {
    let mut image = Image::new(3).unwrap();
    for n in 0..30 {
        image.insert(THIRTEEN + n).unwrap();
    }
    image.insert(0).unwrap();
    let mut out = [7; OCCUPANCY_BYTES + 2];
    assert_eq!(image.occupancy(0, &mut out), Ok(()));
    let (page, rest) = out.split_at(OCCUPANCY_BYTES);
    assert_eq!(rest, [7, 7]);
    let text = std::str::from_utf8(page).unwrap();
    let lines: Vec<&str> = text.lines().collect();
    assert_eq!(lines.len(), 24);
    assert_eq!(lines[0], format!("     0  1  0 #{}", ".".repeat(27)));
    assert_eq!(lines[13], format!("    13 28  2 {}", "#".repeat(28)));
    assert_eq!(lines[23], format!("    23  0  0 {}", ".".repeat(28)));
    assert_eq!(image.occupancy_pages().as_deref(), Ok(text));
    // Two pages; front bucket 31 is the last.
    let larger = Image::new(4).unwrap().occupancy_pages().unwrap();
    assert_eq!(larger.len(), 2 * OCCUPANCY_BYTES);
    assert!(larger.contains("\n    31  0  0 ."));
    let blank = " ".repeat(41) + "\n";
    assert!(larger.ends_with(&blank.repeat(16)));
}

#[test]
fn refused_occupancy_pages() {
    let mut image = Image::new(3).unwrap().into_bytes();
    // A refused page keeps its output.
    let refused = |image: &[u8], page: u64, length: usize| {
        let mut out = vec![7; length];
        let refusal = Image::over(image).occupancy(page, &mut out).unwrap_err();
        assert_eq!(out, vec![7; length]);
        refusal
    };
    assert_eq!(refused(&image, 0, 1007), Refusal::DoesNotFit);
    // 24 times the last one wraps to 8.
    for page in [1, u64::MAX, 768614336404564651] {
        assert_eq!(refused(&image, page, 1008), Refusal::PastTheEnd);
    }
    image[23 * 64..24 * 64].fill(0);
    assert_eq!(refused(&image, 0, 1007), Refusal::Unsound(23));
    assert_eq!(refused(&image, 1, 1007), Refusal::PastTheEnd);
    assert_eq!(refused(&image[1..], 1, 0), Refusal::WrongLength);
    let pages = Image::over(&image).occupancy_pages();
    assert_eq!(pages, Err(Refusal::Unsound(23)));
}

#[test]
fn full() {
    let mut image = Image::new(3).unwrap();
    for _ in 0..72 {
        image.insert(THIRTEEN).unwrap();
    }
    assert_eq!(image.insert(THIRTEEN), Err(Refusal::Full));
    let mut target = Image::over(vec![0xFF; 2240]);
    assert_eq!(target.merge(&image, &image), Err(Refusal::Full));
    assert_eq!(target, Image::new(3).unwrap());
    let empty = Image::new(3).unwrap();
    assert_eq!(target.merge(&image, &empty), Ok(()));
    assert_eq!(target.count(THIRTEEN).unwrap().copies, 72);
}

#[test]
fn totals() {
    let mut image = Image::new(3).unwrap();
    assert_eq!(image.tail(), tail(0, 0));
    for n in 0..72 {
        image.insert(THIRTEEN + n % 3).unwrap();
        assert_eq!(image.tail(), tail(n + 1, n + 1));
    }
    assert_eq!(image.insert(THIRTEEN), Err(Refusal::Full));
    assert_eq!(image.delete(THIRTEEN + 3), Err(Refusal::Absent));
    assert_eq!(image.tail(), tail(72, 72));
    for n in 0..30 {
        image.delete(THIRTEEN + n % 3).unwrap();
        assert_eq!(image.tail(), tail(71 - n, 73 + n));
        assert_eq!(image.check(), Ok(()));
    }
    assert_eq!((image.total(), image.changes()), (Ok(42), Ok(102)));
    assert_eq!(image.list().unwrap().len(), 42);
    // What looks and lists changes neither.
    let before = image.clone();
    image.ask(THIRTEEN).unwrap();
    image.count(THIRTEEN).unwrap();
    image.row(&mut [Entry::new(0)]).unwrap();
    image.occupancy_pages().unwrap();
    assert_eq!(image, before);

    let mut other = Image::new(3).unwrap();
    other.insert(0).unwrap();
    let mut target = Image::over(vec![0xFF; 2240]);
    assert_eq!(target.merge(&image, &other), Ok(()));
    assert_eq!(target.tail(), tail(43, 0));
    assert_eq!(target.check(), Ok(()));
    target.insert(0).unwrap();
    assert_eq!(target.tail(), tail(44, 1));
    target.fresh().unwrap();
    assert_eq!(target.tail(), tail(0, 0));
}

#[test]
fn outputs_of_a_tail() {
    let image = holding([1, 2, 3]);
    let mut out = [7; 3];
    assert_eq!(packed::tail(image.bytes(), &mut out), 0);
    assert_eq!(out, [3, 3, 7]);
    for length in 0..2 {
        let mut out = vec![7; length];
        assert_eq!(packed::tail(image.bytes(), &mut out), 7 << 56);
        assert_eq!(out, vec![7; length]);
    }
    // The tail is judged before the output.
    let bad = with_tail(&image, 16, 0);
    assert_eq!(packed::tail(bad.bytes(), &mut []), 11 << 56);
    assert_eq!(packed::tail(&bad.bytes()[1..], &mut []), 1 << 56);
}

#[test]
fn moves() {
    let mut image = holding((0..40).map(|n| THIRTEEN + n));
    image.delete(THIRTEEN).unwrap();
    assert_eq!(image.tail(), tail(39, 41));
    let old = image.detach().unwrap();
    assert_eq!(old.bytes(), &image.bytes()[..2176]);
    // The new one again, but for the change count.
    let mut again = old.attach().unwrap();
    assert_eq!(again, with_changes(&image, 0));
    assert_eq!(again.tail(), tail(39, 0));
    assert_eq!(again.check(), Ok(()));
    assert_eq!(again.detach().as_ref(), Ok(&old));
    again.insert(0).unwrap();
    assert_eq!(again.tail(), tail(40, 1));
    // Lent bytes do as well.
    let lent = OldImage::over(old.bytes());
    assert_eq!(lent.attach().unwrap().total(), Ok(39));
    let empty = Image::new(1).unwrap();
    assert_eq!(empty.detach().unwrap().attach(), Ok(empty));
}

#[test]
fn refused_moves() {
    let image = holding((0..40).map(|n| THIRTEEN + n));
    let old = image.detach().unwrap();
    // Neither form is taken for the other, and 1 comes before 2, 2 before all else.
    assert_eq!(Image::over(old.bytes()).detach(), Err(Refusal::WrongLength));
    assert_eq!(
        OldImage::over(image.bytes()).attach(),
        Err(Refusal::WrongLength)
    );
    assert_eq!(
        Image::over(old.bytes()).ask(THIRTEEN),
        Err(Refusal::WrongLength)
    );
    let zeros = |length: usize| vec![0; length];
    let into = |length: usize, mover: &dyn Fn(&mut [u8]) -> u64| {
        let mut target = vec![7; length];
        let answer = mover(&mut target);
        assert_eq!(target, vec![7; length]);
        answer
    };
    let attach = |target: &mut [u8]| packed::attach(&zeros(2176), target);
    let detach = |target: &mut [u8]| packed::detach(&zeros(2240), target);
    for (length, number) in [(0, 1), (2176, 1), (2239, 1), (1664, 2), (2816, 2)] {
        assert_eq!(into(length, &attach), number << 56);
    }
    for (length, number) in [(0, 1), (2240, 1), (2175, 1), (1600, 2), (2752, 2)] {
        assert_eq!(into(length, &detach), number << 56);
    }
    assert_eq!(into(2240, &attach), 3 << 56);
    assert_eq!(into(2176, &detach), 11 << 56);

    let unsound = with_unsound(&image, 23);
    assert_eq!(unsound.detach(), Err(Refusal::Unsound(23)));
    let unsound = OldImage::over(&unsound.bytes()[..2176]);
    assert_eq!(unsound.attach(), Err(Refusal::Unsound(23)));
    // Of front bucket 13 all members behind it are before their turn once it is empty.
    let mut early = image.bytes().to_vec();
    early[64 * 13..64 * 14].copy_from_slice(&Image::new(3).unwrap().bytes()[..64]);
    assert_eq!(Image::over(&early).detach(), Err(Refusal::Early(25)));
    let early = OldImage::over(&early[..2176]);
    assert_eq!(early.attach(), Err(Refusal::Early(25)));

    let miscounted = with_total(&image, 39);
    assert_eq!(miscounted.detach(), Err(Refusal::Miscounted));
    assert_eq!(
        with_unsound(&miscounted, 0).detach(),
        Err(Refusal::Unsound(0))
    );
    let spent = with_changes(&image, u64::MAX);
    assert_eq!(spent.detach(), Ok(old));
}

#[test]
fn bad_tails() {
    let image = holding([THIRTEEN]);
    let mut bad = vec![
        with_tail(&image, 16, 0),
        with_tail(&image, 16, 2),
        with_total(&image, SLOTS + 1),
        with_total(&image, u64::MAX),
    ];
    for at in 17..64 {
        let mut bytes = image.bytes().to_vec();
        bytes[2176 + at] = 1 << (at % 8);
        bad.push(Image::over(bytes));
    }
    for bad in &bad {
        // Unsound buckets and the top of the change count come later.
        let bad = &with_changes(&with_unsound(bad, 0), u64::MAX);
        assert_eq!(refused(bad, |image| image.insert(0)), Refusal::BadTail);
        assert_eq!(refused(bad, |image| image.delete(0)), Refusal::BadTail);
        assert_eq!(bad.ask(0), Err(Refusal::BadTail));
        assert_eq!(bad.count(0), Err(Refusal::BadTail));
        assert_eq!(bad.check(), Err(Refusal::BadTail));
        assert_eq!(bad.tail(), Err(Refusal::BadTail));
        assert_eq!(bad.total(), Err(Refusal::BadTail));
        assert_eq!(bad.changes(), Err(Refusal::BadTail));
        assert_eq!(bad.detach(), Err(Refusal::BadTail));
        assert_eq!(bad.page(25, 0, &mut []), Err(Refusal::BadTail));
        assert_eq!(bad.occupancy(1, &mut []), Err(Refusal::BadTail));
        assert_eq!(bad.row(&mut []), Err(Refusal::BadTail));
        let mut descending = [u64::MAX, THIRTEEN].map(told_before);
        assert_eq!(bad.row(&mut descending), Err(Refusal::Descending));
        // Before any bucket of either source.
        let unsound = with_unsound(&image, 0);
        let mut target = Image::new(3).unwrap();
        assert_eq!(target.merge(bad, &unsound), Err(Refusal::BadTail));
        assert_eq!(target.merge(&unsound, bad), Err(Refusal::BadTail));
        assert_eq!(target, Image::new(3).unwrap());
        let mut fresh = bad.clone();
        assert_eq!(fresh.fresh(), Ok(()));
        assert_eq!(fresh, target);
    }
    // As many as there are slots is a good total.
    assert_eq!(with_total(&image, SLOTS).tail(), tail(SLOTS, 1));
}

#[test]
fn wrong_totals() {
    let image = holding([THIRTEEN]);
    let full = holding([THIRTEEN; 72]);
    // Above the slots: after 3 and 4.
    let top = with_total(&image, SLOTS);
    assert_eq!(refused(&top, |image| image.insert(0)), Refusal::Miscounted);
    let unsound = with_unsound(&top, 0);
    assert_eq!(
        refused(&unsound, |image| image.insert(0)),
        Refusal::Unsound(0)
    );
    let full_top = with_total(&full, SLOTS);
    assert_eq!(
        refused(&full_top, |image| image.insert(THIRTEEN)),
        Refusal::Full
    );
    // One that goes behind, or that pushes another there.
    let behind = with_total(&holding([THIRTEEN + 1; 28]), SLOTS);
    for hash in [THIRTEEN, THIRTEEN + 1, THIRTEEN + 2] {
        assert_eq!(
            refused(&behind, |image| image.insert(hash)),
            Refusal::Miscounted
        );
    }
    // Below 0: after 3 and 5.
    let bottom = with_total(&image, 0);
    assert_eq!(
        refused(&bottom, |image| image.delete(THIRTEEN)),
        Refusal::Miscounted
    );
    assert_eq!(
        refused(&bottom, |image| image.delete(THIRTEEN + 1)),
        Refusal::Absent
    );
    let unsound = with_unsound(&bottom, 0);
    assert_eq!(
        refused(&unsound, |image| image.delete(0)),
        Refusal::Unsound(0)
    );
    // From a full front bucket, from one that is then refilled, and from behind.
    for (members, tag) in [(28, 0), (29, 0), (29, 28)] {
        let bottom = with_total(&holding((0..members).map(|n| THIRTEEN + n)), 0);
        assert_eq!(
            refused(&bottom, |image| image.delete(THIRTEEN + tag)),
            Refusal::Miscounted
        );
    }
    // Otherwise the total moves from where it stands, and is no matter to what looks.
    let mut wrong = with_total(&image, 500);
    assert_eq!(wrong.ask(THIRTEEN).unwrap().copies, 1);
    wrong.insert(0).unwrap();
    assert_eq!(wrong.tail(), tail(501, 2));
    wrong.delete(0).unwrap();
    assert_eq!(wrong.tail(), tail(500, 3));
    assert_eq!(wrong.check(), Err(Refusal::Miscounted));
    assert_eq!(with_unsound(&wrong, 2).check(), Err(Refusal::Unsound(2)));
    // The first's total before the second's buckets.
    let unsound = with_unsound(&image, 3);
    let mut target = Image::new(3).unwrap();
    assert_eq!(target.merge(&wrong, &unsound), Err(Refusal::Miscounted));
    assert_eq!(target.merge(&unsound, &wrong), Err(Refusal::Unsound(3)));
    assert_eq!(target.merge(&image, &wrong), Err(Refusal::Miscounted));
    assert_eq!(target, Image::new(3).unwrap());
}

#[test]
fn top_of_the_change_count() {
    let image = holding([THIRTEEN]);
    let mut last = with_changes(&image, u64::MAX - 1);
    last.insert(0).unwrap();
    assert_eq!(last.tail(), tail(2, u64::MAX));
    assert_eq!(last.check(), Ok(()));
    assert_eq!(last.count(0).unwrap().copies, 1);
    // Before 3, 4, 5 and 12.
    let top = with_changes(&image, u64::MAX);
    let full = with_changes(&holding([THIRTEEN; 72]), u64::MAX);
    for top in [
        last.clone(),
        top.clone(),
        with_unsound(&top, 13),
        with_total(&top, 0),
        with_total(&top, SLOTS),
        full,
    ] {
        for hash in [THIRTEEN, THIRTEEN + 1] {
            assert_eq!(refused(&top, |image| image.insert(hash)), Refusal::Spent);
            assert_eq!(refused(&top, |image| image.delete(hash)), Refusal::Spent);
        }
    }
    // A merge and a move start the count anew.
    let mut target = Image::new(3).unwrap();
    assert_eq!(target.merge(&last, &top), Ok(()));
    assert_eq!(target.tail(), tail(3, 0));
    let again = last.detach().unwrap().attach().unwrap();
    assert_eq!(again.tail(), tail(2, 0));
}

#[test]
fn texts() {
    let text = |refusal: Refusal| refusal.to_string();
    assert_eq!(text(Refusal::BadTail), "11: the tail is bad");
    assert_eq!(
        text(Refusal::Miscounted),
        "12: the total is not that of the members"
    );
    assert_eq!(text(Refusal::Spent), "13: the change count is at its top");
    assert_eq!(
        text(Refusal::Changed),
        "14: the image has changed since the walk began"
    );
}
