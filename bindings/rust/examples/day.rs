//! A day of readings: 96 quarter hours of 20 houses are filed, walked, asked for, taken out, moved
//! to the old form and back, and merged with another day, a house's day is asked for in one row,
//! and lines of an occupancy page are printed. Prints the same as the example in C.

use breadcrumb::{Changed, Entry, Image, Place, Refusal, Tail};

const B: usize = 20;
const HOUSES: u64 = 20;
const QUARTERS: u64 = 96;

/// SplitMix64's finaliser.
fn hash_of(house: u64, quarter: u64) -> u64 {
    let mut z = house << 32 | quarter;
    z = (z ^ (z >> 30)).wrapping_mul(0xBF58476D1CE4E5B9);
    z = (z ^ (z >> 27)).wrapping_mul(0x94D049BB133111EB);
    z ^ (z >> 31)
}

fn file_day(from: u64) -> Result<Image, Refusal> {
    let mut image = Image::new(B)?;
    let mut behind = 0;
    for house in 0..HOUSES {
        for quarter in from..from + QUARTERS {
            let changed = image.insert(hash_of(house, quarter))?;
            behind += (changed != Changed::Front) as u32;
        }
    }
    image.check()?;
    let readings = HOUSES * QUARTERS;
    println!("filed {readings} readings, {behind} times with overflow");
    Ok(image)
}

/// What the tail of an image tells, without a walk.
fn print_tail<Bytes: AsRef<[u8]>>(name: &str, image: &Image<Bytes>) -> Result<(), Refusal> {
    let Tail { total, changes } = image.tail()?;
    println!("{name}: total {total}, change count {changes}");
    Ok(())
}

/// Walks the pages of an image, each of which brings the change count that the walk began with.
fn list<Bytes: AsRef<[u8]>>(name: &str, image: &Image<Bytes>) -> Result<(), Refusal> {
    let changes = image.changes()?;
    let (mut next, mut members, mut last, mut pages) = (0, 0, 0, 0);
    while next < 8 * B as u64 {
        let mut out = [0; 100];
        let page = image.page(next, changes, &mut out)?;
        members += page.how_many;
        last = out[..page.how_many].last().copied().unwrap_or(last);
        next = page.next;
        pages += 1;
    }
    println!("{name}: {members} members on {pages} pages, the last {last}");
    Ok(())
}

/// The number and the slot of a place.
fn place(place: Place) -> (u64, u64) {
    match place {
        Place::None => (0, 0),
        Place::Front(slot) => (1, slot),
        Place::First(slot) => (2, slot),
        Place::Second(slot) => (3, slot),
    }
}

/// Files a reading between two pages of a walk, which must then begin anew.
fn file_between_pages(image: &mut Image, hash: u64) -> Result<(), Refusal> {
    let mut out = [0; 100];
    let changes = image.changes()?;
    let next = image.page(0, changes, &mut out)?.next;
    image.insert(hash)?;
    if image.page(next, changes, &mut out) == Err(Refusal::Changed) {
        println!("filed between two pages, the second is refused: 14");
    }
    list("walked anew", image)
}

/// Asks for one reading, files it again in the middle of a walk, and takes it out.
fn try_reading(image: &mut Image, hash: u64) -> Result<(), Refusal> {
    let asked = image.ask(hash)?;
    let (number, slot) = place(asked.place);
    let reads = asked.reads;
    println!("house 7, quarter 30: place {number}, slot {slot}, {reads} reads");
    file_between_pages(image, hash)?;
    let copies = image.count(hash)?.copies;
    let there = image.ask(hash)?.copies;
    println!("filed twice: {copies} copies, {there} of them where the ask ended");
    image.delete(hash)?;
    image.delete(hash)?;
    if image.delete(hash) == Err(Refusal::Absent) {
        println!("taken out a third time: 5");
    }
    Ok(())
}

/// All quarter hours of a house in one row.
fn ask_day<Bytes: AsRef<[u8]>>(image: &Image<Bytes>, house: u64) -> Result<(), Refusal> {
    let ask = |quarter| Entry::new(hash_of(house, quarter));
    let mut row: Vec<Entry> = (0..QUARTERS).map(ask).collect();
    if image.row(&mut row) == Err(Refusal::Descending) {
        println!("house {house}, not sorted: 10");
    }
    // Entries in the order of their hashes are in the order of their front buckets.
    row.sort_by_key(|entry| entry.hash);
    let total = image.row(&mut row)?;
    let (mut filed, mut alone) = (0, 0);
    for asked in row.iter().map(Entry::asked) {
        filed += (asked.place != Place::None) as u32;
        alone += asked.reads;
    }
    println!("house {house} in one row: {filed} of {QUARTERS} filed");
    println!("reads in the row: {total}, one by one: {alone}");
    Ok(())
}

fn main() -> Result<(), Refusal> {
    let mut today = file_day(0)?;
    let tomorrow = file_day(QUARTERS)?;
    list("today", &today)?;

    let (number, _) = place(today.ask(hash_of(99, 30))?.place);
    println!("house 99, quarter 30: place {number}");
    try_reading(&mut today, hash_of(7, 30))?;
    print_tail("today", &today)?;

    let old = today.detach()?;
    let length = old.bytes().len();
    let same = if today.bytes().starts_with(old.bytes()) {
        "yes"
    } else {
        "no"
    };
    println!("old form: {length} bytes, the same buckets: {same}");
    print_tail("moved there and back", &old.attach()?)?;

    // The target may be lent bytes of any content.
    let mut bytes = vec![0; today.bytes().len()];
    let mut both = Image::over(&mut bytes[..]);
    both.merge(&today, &tomorrow)?;
    list("both days", &both)?;
    print_tail("both days", &both)?;
    ask_day(&both, 7)?;
    // The first lines of page 3.
    for line in both.occupancy_pages()?.lines().skip(3 * 24).take(4) {
        println!("{line}");
    }
    bytes[..2].fill(0xFF);
    if let Err(Refusal::Unsound(table)) = Image::over(&bytes[..]).check() {
        println!("damaged: 3 in bucket {table}");
    }
    Ok(())
}
