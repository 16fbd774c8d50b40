//! The eight calls of document 01 on byte slices, and of document 02 the row of asks, the occupancy
//! page, the tail's numbers and the moves between the old form and the new.

use crate::bucket::{self, Bytes, Member};
use crate::fingerprint::Fingerprint;
use crate::map::Home;
use crate::shape::{Shape, BACKYARD_SLOTS, BUCKET, FRONT_SLOTS};
use crate::tail::Tail;

/// A refusal: its number, and the table number that comes with 3 and 8.
#[derive(Clone, Copy, PartialEq, Eq, Debug)]
pub struct Refusal {
    pub number: u8,
    pub table: Option<u64>,
}

/// Where an ask ended, with the lowest slot of the fingerprint there.
#[derive(Clone, Copy, PartialEq, Eq, Debug)]
pub enum Place {
    None,
    Front(u64),
    First(u64),
    Second(u64),
}

#[derive(Clone, Copy, PartialEq, Eq, Debug)]
pub struct Asked {
    pub reads: u64,
    pub place: Place,
    /// The equal copies in the one bag where the ask ended; 0 for none.
    pub copies: u64,
}

/// The answer of a row: what each of its asks gives, and the total.
#[derive(Clone, PartialEq, Eq, Debug)]
pub struct Rowed {
    pub asked: Vec<Asked>,
    pub total: u64,
}

#[derive(Clone, Copy, PartialEq, Eq, Debug)]
pub struct Counted {
    pub copies: u64,
    pub reads: u64,
}

#[derive(Clone, Copy, PartialEq, Eq, Debug)]
pub struct Paged {
    pub how_many: u64,
    pub next: u64,
}

/// Lines of an occupancy page, and the columns of a line before its newline.
pub const LINES: u64 = 24;
pub const COLUMNS: usize = 41;
/// Bytes of an occupancy page.
pub const OCCUPANCY_BYTES: usize = LINES as usize * (COLUMNS + 1);

/// A bag of fingerprints of one front bucket, ascending.
pub type Bag = Vec<Fingerprint>;

fn refused<T>(number: u8) -> Result<T, Refusal> {
    Err(Refusal {
        number,
        table: None,
    })
}

fn refused_at<T>(number: u8, table: u64) -> Result<T, Refusal> {
    Err(Refusal {
        number,
        table: Some(table),
    })
}

/// What there is, or else the refusal of this number.
fn or_refused<T>(found: Option<T>, number: u8) -> Result<T, Refusal> {
    match found {
        Some(found) => Ok(found),
        None => refused(number),
    }
}

fn sized(image: &[u8]) -> Result<Shape, Refusal> {
    or_refused(Shape::of_length(image.len()), 1)
}

fn old_sized(old: &[u8]) -> Result<Shape, Refusal> {
    or_refused(Shape::of_old_length(old.len()), 1)
}

fn tailed(image: &[u8], shape: Shape) -> Result<Tail, Refusal> {
    or_refused(Tail::of_image(image, shape), 11)
}

/// The shape and the tail of an image, its length tested first.
fn opened(image: &[u8]) -> Result<(Shape, Tail), Refusal> {
    let shape = sized(image)?;
    Ok((shape, tailed(image, shape)?))
}

fn bytes_at(image: &[u8], table: u64) -> &Bytes {
    let at = table as usize * BUCKET;
    image[at..at + BUCKET].try_into().unwrap()
}

fn write_at(image: &mut [u8], table: u64, bytes: Bytes) {
    let at = table as usize * BUCKET;
    image[at..at + BUCKET].copy_from_slice(&bytes);
}

/// Reads Front(f).
pub fn read_front(image: &[u8], f: u64) -> Result<Bag, Refusal> {
    let Some(members) = bucket::decode_front(bytes_at(image, f)) else {
        return refused_at(3, f);
    };
    Ok(fingerprints(f, &members))
}

/// Reads backyard bucket j: the members of all the bags that share it.
pub fn read_backyard(image: &[u8], shape: Shape, j: u64) -> Result<Vec<Member>, Refusal> {
    let table = shape.table_number(j);
    match bucket::decode_backyard(bytes_at(image, table), j, shape) {
        Some(members) => Ok(members),
        None => refused_at(3, table),
    }
}

/// The members in the bucket with this table number, or nothing where it is unsound.
pub fn members_at(image: &[u8], shape: Shape, table: u64) -> Option<u64> {
    let members = match table.checked_sub(shape.fronts()) {
        Some(j) => read_backyard(image, shape, j).ok()?.len(),
        None => read_front(image, table).ok()?.len(),
    };
    Some(members as u64)
}

/// Whether the backyard bucket with this table number is unsound for this alone: a choice 0 crumb
/// whose front bucket has b0 = b1.
pub fn carries_choice_0(image: &[u8], shape: Shape, table: u64) -> bool {
    let backyard = table.checked_sub(shape.fronts());
    backyard.is_some_and(|j| bucket::carries_choice_0(bytes_at(image, table), j, shape))
}

/// A fingerprint as a bucket holds it.
pub fn member(g: Fingerprint, crumb: u64) -> Member {
    Member {
        mini: g.mini,
        tag: g.tag,
        crumb,
    }
}

fn fingerprints(f: u64, members: &[Member]) -> Bag {
    let fingerprint = |x: &Member| Fingerprint {
        front: f,
        mini: x.mini,
        tag: x.tag,
    };
    members.iter().map(fingerprint).collect()
}

/// The bag of f in its home: the members with f's crumb.
pub fn bag(members: &[Member], f: u64, home: Home) -> Bag {
    let own = members.iter().filter(|x| x.crumb == home.crumb);
    fingerprints(f, &own.copied().collect::<Vec<_>>())
}

fn copies(bag: &[Fingerprint], g: Fingerprint) -> u64 {
    bag.iter().filter(|&&x| x == g).count() as u64
}

fn lowest_slot(bag: &[Member], x: Member) -> Option<u64> {
    bag.iter().position(|&y| y == x).map(|slot| slot as u64)
}

/// Every bucket empty, total and change count 0.
pub fn fresh(image: &mut [u8]) -> Result<(), Refusal> {
    let shape = sized(image)?;
    for f in 0..shape.fronts() {
        write_at(image, f, bucket::encode_front(&[]));
    }
    for j in 0..shape.backyards() {
        write_at(image, shape.table_number(j), bucket::encode_backyard(&[]));
    }
    Tail::FRESH.write(image);
    Ok(())
}

/// What an accepted insert or delete does to the buckets: its answer, and the new bytes of each
/// bucket that changes, by table number.
pub struct Change {
    pub answer: u64,
    buckets: Vec<(u64, Bytes)>,
}

impl Change {
    /// A change of Front(f) alone.
    fn of_front(f: u64, front: &[Fingerprint]) -> Change {
        Change {
            answer: 0,
            buckets: vec![(f, front_bytes(front))],
        }
    }

    /// A change of a backyard bucket.
    fn of_backyard(shape: Shape, j: u64, members: &[Member]) -> Change {
        Change {
            answer: 1 + j,
            buckets: vec![(shape.table_number(j), bucket::encode_backyard(members))],
        }
    }

    /// The same, and a change of Front(f).
    fn and_front(mut self, f: u64, front: &[Fingerprint]) -> Change {
        self.buckets.push((f, front_bytes(front)));
        self
    }

    /// Makes the change: its answer.
    fn write(self, image: &mut [u8]) -> u64 {
        for (table, bytes) in self.buckets {
            write_at(image, table, bytes);
        }
        self.answer
    }
}

fn front_bytes(front: &[Fingerprint]) -> Bytes {
    let members: Vec<Member> = front.iter().map(|&g| member(g, 0)).collect();
    bucket::encode_front(&members)
}

/// The answer is 0, or 1 + the backyard bucket that took the overflow.
pub fn insert(image: &mut [u8], hash: u64) -> Result<u64, Refusal> {
    let (shape, tail) = opened(image)?;
    let changes = or_refused(tail.changes.checked_add(1), 13)?;
    let change = inserted(image, shape, Fingerprint::of_hash(hash, shape))?;
    if tail.total == shape.slots() {
        return refused(12);
    }
    let total = tail.total + 1;
    Tail { total, changes }.write(image);
    Ok(change.write(image))
}

/// An insert as far as the buckets go.
pub fn inserted(image: &[u8], shape: Shape, g: Fingerprint) -> Result<Change, Refusal> {
    let f = g.front;
    let mut front = read_front(image, f)?;
    let was_full = front.len() == FRONT_SLOTS;
    front.push(g);
    front.sort();
    if !was_full {
        return Ok(Change::of_front(f, &front));
    }
    let (first, second) = (shape.first_home(f), shape.second_home(f));
    let bucket0 = read_backyard(image, shape, first.bucket)?;
    let bucket1 = read_backyard(image, shape, second.bucket)?;
    let (n0, n1) = (bucket0.len(), bucket1.len());
    if n0 == BACKYARD_SLOTS && n1 == BACKYARD_SLOTS {
        return refused(4);
    }
    let largest = front.pop().unwrap();
    let (home, mut members) = match n0 < n1 {
        true => (first, bucket0),
        false => (second, bucket1),
    };
    members.push(member(largest, home.crumb));
    members.sort();
    Ok(Change::of_backyard(shape, home.bucket, &members).and_front(f, &front))
}

/// The answer is 0, or 1 + the backyard bucket that a member left.
pub fn delete(image: &mut [u8], hash: u64) -> Result<u64, Refusal> {
    let (shape, tail) = opened(image)?;
    let changes = or_refused(tail.changes.checked_add(1), 13)?;
    let change = deleted(image, shape, Fingerprint::of_hash(hash, shape))?;
    let total = or_refused(tail.total.checked_sub(1), 12)?;
    Tail { total, changes }.write(image);
    Ok(change.write(image))
}

/// A delete as far as the buckets go.
pub fn deleted(image: &[u8], shape: Shape, g: Fingerprint) -> Result<Change, Refusal> {
    let f = g.front;
    let mut front = read_front(image, f)?;
    let was_full = front.len() == FRONT_SLOTS;
    let in_front = front.contains(&g);
    let behind = was_full && g > front[FRONT_SLOTS - 1];
    if !in_front && !behind {
        return refused(5);
    }
    if in_front {
        let slot = front.iter().position(|&x| x == g).unwrap();
        front.remove(slot);
    }
    if !was_full {
        return Ok(Change::of_front(f, &front));
    }
    let (home0, home1) = (shape.first_home(f), shape.second_home(f));
    let bucket0 = read_backyard(image, shape, home0.bucket)?;
    let bucket1 = read_backyard(image, shape, home1.bucket)?;
    let (n0, n1) = (bucket0.len(), bucket1.len());
    let (first, second) = (bag(&bucket0, f, home0), bag(&bucket1, f, home1));

    // The value that leaves the backyard: the smallest to refill the front, or g itself.
    let wanted = if in_front {
        first.iter().chain(&second).min().copied()
    } else {
        Some(g)
    };
    let Some(wanted) = wanted else {
        return Ok(Change::of_front(f, &front));
    };
    let (home, members) = match (first.contains(&wanted), second.contains(&wanted)) {
        (false, false) => return refused(5),
        (true, false) => (home0, bucket0),
        (false, true) => (home1, bucket1),
        (true, true) if n0 > n1 => (home0, bucket0),
        (true, true) => (home1, bucket1),
    };
    let change = taken(shape, home, members, wanted);
    if !in_front {
        return Ok(change);
    }
    front.push(wanted);
    front.sort();
    Ok(change.and_front(f, &front))
}

/// One copy of g leaves a bag that has it, one of those in a backyard bucket with these members.
fn taken(shape: Shape, home: Home, mut members: Vec<Member>, g: Fingerprint) -> Change {
    let slot = lowest_slot(&members, member(g, home.crumb)).unwrap();
    members.remove(slot as usize);
    Change::of_backyard(shape, home.bucket, &members)
}

/// The answer of an ask that ended in this bag, with the copies of g there, whatever other bags
/// hold.
fn ended(reads: u64, place: Place, bag: &[Fingerprint], g: Fingerprint) -> Asked {
    let copies = match place {
        Place::None => 0,
        _ => copies(bag, g),
    };
    Asked {
        reads,
        place,
        copies,
    }
}

/// The reads of a call that has read Front(f) and all that is behind it: a bucket that is b0 and b1
/// is not read a second time.
fn reads_with_behind(shape: Shape, f: u64) -> u64 {
    match shape.coincides(f) {
        true => 2,
        false => 3,
    }
}

/// Front, then b0, then b1; where b0 = b1 the one read tells of both.
pub fn ask(image: &[u8], hash: u64) -> Result<Asked, Refusal> {
    let (shape, _) = opened(image)?;
    let g = Fingerprint::of_hash(hash, shape);
    let f = g.front;
    let front = read_front(image, f)?;
    if let Some(slot) = front.iter().position(|&x| x == g) {
        return Ok(ended(1, Place::Front(slot as u64), &front, g));
    }
    if front.len() < FRONT_SLOTS || g < front[FRONT_SLOTS - 1] {
        return Ok(ended(1, Place::None, &front, g));
    }
    let home = shape.first_home(f);
    let members = read_backyard(image, shape, home.bucket)?;
    let first = bag(&members, f, home);
    if let Some(slot) = lowest_slot(&members, member(g, home.crumb)) {
        return Ok(ended(2, Place::First(slot), &first, g));
    }
    let home = shape.second_home(f);
    let members = read_backyard(image, shape, home.bucket)?;
    let second = bag(&members, f, home);
    let place = match lowest_slot(&members, member(g, home.crumb)) {
        Some(slot) => Place::Second(slot),
        None => Place::None,
    };
    Ok(ended(reads_with_behind(shape, f), place, &second, g))
}

/// Lone asks. A group is the neighbours with the same front bucket, and counts as its greatest
/// lone count of reads.
pub fn row(image: &[u8], hashes: &[u64]) -> Result<Rowed, Refusal> {
    let shape = sized(image)?;
    let front = |hash: &u64| Fingerprint::of_hash(*hash, shape).front;
    let fronts: Vec<u64> = hashes.iter().map(front).collect();
    if fronts.windows(2).any(|pair| pair[1] < pair[0]) {
        return refused(10);
    }
    tailed(image, shape)?;
    let mut asked = Vec::new();
    for &hash in hashes {
        asked.push(ask(image, hash)?);
    }
    let mut total = 0;
    let mut rest = &asked[..];
    for group in fronts.chunk_by(|x, y| x == y) {
        let (here, later) = rest.split_at(group.len());
        total += here.iter().map(|asked| asked.reads).max().unwrap();
        rest = later;
    }
    Ok(Rowed { asked, total })
}

pub fn count(image: &[u8], hash: u64) -> Result<Counted, Refusal> {
    let (shape, _) = opened(image)?;
    let g = Fingerprint::of_hash(hash, shape);
    let f = g.front;
    let front = read_front(image, f)?;
    if front.len() < FRONT_SLOTS || g < front[FRONT_SLOTS - 1] {
        return Ok(Counted {
            copies: copies(&front, g),
            reads: 1,
        });
    }
    let (first, second) = read_behind(image, shape, f)?;
    Ok(Counted {
        copies: copies(&front, g) + copies(&first, g) + copies(&second, g),
        reads: reads_with_behind(shape, f),
    })
}

/// First(f) and Second(f), b0 read before b1.
fn read_behind(image: &[u8], shape: Shape, f: u64) -> Result<(Bag, Bag), Refusal> {
    let (home0, home1) = (shape.first_home(f), shape.second_home(f));
    let bucket0 = read_backyard(image, shape, home0.bucket)?;
    let bucket1 = read_backyard(image, shape, home1.bucket)?;
    Ok((bag(&bucket0, f, home0), bag(&bucket1, f, home1)))
}

/// The members of front bucket f, ascending: those of Front, and where it holds 28 those of
/// First and Second too.
pub fn members(image: &[u8], shape: Shape, f: u64) -> Result<Bag, Refusal> {
    let mut all = read_front(image, f)?;
    if all.len() == FRONT_SLOTS {
        let (first, second) = read_behind(image, shape, f)?;
        all.extend(first);
        all.extend(second);
        all.sort();
    }
    Ok(all)
}

/// Lists whole front buckets from `start` on as far as they fit into the output. `changes` is the
/// change count that the walk began with.
pub fn page(image: &[u8], start: u64, changes: u64, out: &mut [u64]) -> Result<Paged, Refusal> {
    let (shape, tail) = opened(image)?;
    if changes != tail.changes {
        return refused(14);
    }
    if start > shape.fronts() {
        return refused(6);
    }
    let mut listed: Vec<u64> = Vec::new();
    let mut next = start;
    while next < shape.fronts() {
        let bucket = members(image, shape, next)?;
        if listed.len() + bucket.len() > out.len() {
            break;
        }
        listed.extend(bucket.iter().map(|g| g.number()));
        next += 1;
    }
    if next == start && start < shape.fronts() {
        return refused(7);
    }
    out[..listed.len()].copy_from_slice(&listed);
    Ok(Paged {
        how_many: listed.len() as u64,
        next,
    })
}

/// How full front bucket f is: its number, its members in front, those behind, and a bar.
fn occupancy_line(image: &[u8], shape: Shape, f: u64) -> Result<String, Refusal> {
    let front = read_front(image, f)?.len();
    let behind = members(image, shape, f)?.len() - front;
    let bar = "#".repeat(front) + &".".repeat(FRONT_SLOTS - front);
    Ok(format!("{f:6} {front:2} {behind:2} {bar}"))
}

/// Writes the lines of 24 front buckets, blank ones past the last.
pub fn occupancy(image: &[u8], page: u64, out: &mut [u8]) -> Result<(), Refusal> {
    let (shape, _) = opened(image)?;
    // 24 × page >= F, without a product that may be too large.
    if page >= shape.fronts().div_ceil(LINES) {
        return refused(6);
    }
    let start = LINES * page;
    let mut text = String::new();
    for f in start..start + LINES {
        text += &match f < shape.fronts() {
            true => occupancy_line(image, shape, f)?,
            false => " ".repeat(COLUMNS),
        };
        text += "\n";
    }
    if out.len() < text.len() {
        return refused(7);
    }
    out[..text.len()].copy_from_slice(text.as_bytes());
    Ok(())
}

pub fn check(image: &[u8]) -> Result<(), Refusal> {
    let (shape, tail) = opened(image)?;
    checked(image, shape, tail)
}

/// The buckets are as they must be, and have as many members as the tail tells.
fn checked(image: &[u8], shape: Shape, tail: Tail) -> Result<(), Refusal> {
    match checked_buckets(image, shape)? == tail.total {
        true => Ok(()),
        false => refused(12),
    }
}

/// All buckets are sound, and no member of a backyard bucket is before its turn: the members in all
/// buckets.
pub fn checked_buckets(image: &[u8], shape: Shape) -> Result<u64, Refusal> {
    let mut fronts = Vec::new();
    for f in 0..shape.fronts() {
        fronts.push(read_front(image, f)?);
    }
    let mut backyards = Vec::new();
    for j in 0..shape.backyards() {
        backyards.push(read_backyard(image, shape, j)?);
    }
    for (j, bucket) in backyards.iter().enumerate() {
        for x in bucket {
            let f = shape.front_of(j as u64, x.crumb).unwrap();
            let g = fingerprints(f, &[*x])[0];
            let front = &fronts[f as usize];
            if front.len() < FRONT_SLOTS || front.iter().any(|&y| y > g) {
                return refused_at(8, shape.table_number(j as u64));
            }
        }
    }
    let in_front: usize = fronts.iter().map(Vec::len).sum();
    let behind: usize = backyards.iter().map(Vec::len).sum();
    Ok((in_front + behind) as u64)
}

pub fn merge(first: &[u8], second: &[u8], target: &mut [u8]) -> Result<(), Refusal> {
    let shape = sized(first)?;
    let others = [sized(second)?, sized(target)?];
    if others != [shape; 2] {
        return refused(2);
    }
    let (tail0, tail1) = (tailed(first, shape)?, tailed(second, shape)?);
    checked(first, shape, tail0)?;
    checked(second, shape, tail1)?;
    fresh(target)?;
    for f in 0..shape.fronts() {
        for source in [first, second] {
            for g in members(source, shape, f)? {
                match inserted(target, shape, g) {
                    Ok(change) => change.write(target),
                    Err(full) => {
                        fresh(target)?;
                        return Err(full);
                    }
                };
            }
        }
    }
    let total = tail0.total + tail1.total;
    Tail { total, changes: 0 }.write(target);
    Ok(())
}

/// Writes the total, then the change count.
pub fn tail(image: &[u8], out: &mut [u64]) -> Result<(), Refusal> {
    let (_, tail) = opened(image)?;
    let [total, changes, ..] = out else {
        return refused(7);
    };
    (*total, *changes) = (tail.total, tail.changes);
    Ok(())
}

/// The move to the new form: the old bytes, then a tail with the members, change count 0.
pub fn attach(old: &[u8], target: &mut [u8]) -> Result<(), Refusal> {
    let shape = old_sized(old)?;
    if sized(target)? != shape {
        return refused(2);
    }
    let total = checked_buckets(old, shape)?;
    target[..old.len()].copy_from_slice(old);
    Tail { total, changes: 0 }.write(target);
    Ok(())
}

/// The move to the old form: the bytes before the tail.
pub fn detach(image: &[u8], target: &mut [u8]) -> Result<(), Refusal> {
    let shape = sized(image)?;
    if old_sized(target)? != shape {
        return refused(2);
    }
    let tail = tailed(image, shape)?;
    checked(image, shape, tail)?;
    target.copy_from_slice(&image[..shape.old_length()]);
    Ok(())
}

#[cfg(test)]
mod tests {
    use super::*;
    use crate::prepare::{fresh_image, hash_of};
    use crate::random::Random;
    use crate::shape::{MINIS, TAGS};

    const SHAPE: Shape = Shape { b: 3 };

    fn hash(front: u64, tag: u64) -> u64 {
        let g = Fingerprint {
            front,
            mini: 0,
            tag,
        };
        hash_of(g, SHAPE, &mut Random::new(front + tag))
    }

    /// Front buckets 13 and 18 (b0 = b1) with 40 members each, tags from 0 up.
    fn image() -> Vec<u8> {
        let mut image = fresh_image(SHAPE.b);
        for tag in 0..40 {
            for front in [13, 18] {
                insert(&mut image, hash(front, tag)).unwrap();
            }
        }
        image
    }

    #[test]
    fn copies_where_the_ask_ended() {
        let mut image = fresh_image(SHAPE.b);
        // Of 13, tag 1 fills the front to 28, with one copy more in Second and one in First; tag 2
        // has two copies in each.
        for (tag, how_many) in [(0, 3), (1, 27), (2, 4)] {
            for _ in 0..how_many {
                insert(&mut image, hash(13, tag)).unwrap();
            }
        }
        let told = |tag| {
            let asked = ask(&image, hash(13, tag)).unwrap();
            (
                asked.place,
                asked.copies,
                count(&image, hash(13, tag)).unwrap().copies,
            )
        };
        assert_eq!(told(0), (Place::Front(0), 3, 3));
        assert_eq!(told(1), (Place::Front(3), 25, 27));
        assert_eq!(told(2), (Place::First(1), 2, 4));
        assert_eq!(told(3), (Place::None, 0, 0));
    }

    #[test]
    fn rows() {
        let image = image();
        // Of 13, tag 0 is in front (1 read), 29 in First (2), 28 in Second (3), 40 nowhere (3).
        let total = |asks: &[(u64, u64)]| {
            let hashes: Vec<u64> = asks.iter().map(|&(front, tag)| hash(front, tag)).collect();
            let row = row(&image, &hashes).unwrap();
            let lone = hashes.iter().map(|&hash| ask(&image, hash).unwrap());
            assert_eq!(row.asked, lone.collect::<Vec<_>>());
            row.total
        };
        assert_eq!(total(&[]), 0);
        assert_eq!(total(&[(5, 0)]), 1);
        assert_eq!(total(&[(13, 0), (13, 28), (13, 29)]), 3);
        assert_eq!(total(&[(13, 29), (13, 0)]), 2);
        // Of 18, tag 28 is in Second and 40 nowhere, with 2 reads either way.
        assert_eq!(total(&[(18, 0), (18, 28), (18, 40)]), 2);
        assert_eq!(total(&[(5, 0), (13, 29), (13, 0), (18, 0), (18, 40)]), 5);
        assert_eq!(total(&[(9, 0), (13, 28), (18, 28)]), 6);
    }

    /// A front bucket with b0 = b1 takes 50 members. Those behind it are all in Second, at 2 reads.
    #[test]
    fn where_the_backyards_coincide() {
        for (b, f) in [(1, 0), (3, 0), (3, 9), (3, 18), (9, 51), (48, 57)] {
            let shape = Shape { b };
            let mut image = fresh_image(b);
            let hash = |tag| {
                let g = Fingerprint {
                    front: f,
                    mini: 3,
                    tag,
                };
                hash_of(g, shape, &mut Random::new(tag))
            };
            let bucket = shape.first_home(f).bucket;
            for tag in 0..50 {
                let behind = (1 + bucket) * (tag >= 28) as u64;
                assert_eq!(insert(&mut image, hash(tag)), Ok(behind));
            }
            assert_eq!(change(&image, insert, hash(50)), 4);
            for tag in 0..60 {
                let (place, reads) = match tag {
                    0..28 => (Place::Front(tag), 1),
                    28..50 => (Place::Second(tag - 28), 2),
                    _ => (Place::None, 2),
                };
                let copies = (tag < 50) as u64;
                let asked = Asked {
                    reads,
                    place,
                    copies,
                };
                assert_eq!(ask(&image, hash(tag)), Ok(asked));
                // The largest in front may have copies behind.
                let reads = if tag < 27 { 1 } else { 2 };
                assert_eq!(count(&image, hash(tag)), Ok(Counted { copies, reads }));
            }
            assert_eq!(check(&image), Ok(()));
        }
    }

    /// A choice 0 crumb where b0 = b1 makes the bucket unsound for every call that reads it, also
    /// for 13's sake.
    #[test]
    fn choice_0_where_the_backyards_coincide() {
        let mut image = image();
        for tag in 0..30 {
            insert(&mut image, hash(9, tag)).unwrap();
        }
        let table = SHAPE.table_number(1);
        let mut members = read_backyard(&image, SHAPE, 1).unwrap();
        let own = members.iter_mut().find(|x| x.crumb == 9);
        own.expect("a member behind 9").crumb = 1;
        members.sort();
        write_at(&mut image, table, bucket::encode_backyard(&members));
        let refusal = Refusal {
            number: 3,
            table: Some(table),
        };
        for f in [9, 13] {
            for tag in [39, 50] {
                assert_eq!(ask(&image, hash(f, tag)), Err(refusal));
                assert_eq!(count(&image, hash(f, tag)), Err(refusal));
                assert_eq!(row(&image, &[hash(5, 0), hash(f, tag)]), Err(refusal));
            }
            for tag in [0, 39] {
                assert_eq!(insert(&mut image.clone(), hash(f, tag)), Err(refusal));
                assert_eq!(delete(&mut image.clone(), hash(f, tag)), Err(refusal));
            }
            assert_eq!(page(&image, f, 110, &mut [0; 99]), Err(refusal));
            assert!(ask(&image, hash(f, 0)).is_ok());
        }
        assert_eq!(occupancy(&image, 0, &mut [0; 1008]), Err(refusal));
        assert_eq!(check(&image), Err(refusal));
        let (old, mut target) = (&image[..SHAPE.old_length()], fresh_image(3));
        assert_eq!(attach(old, &mut target), Err(refusal));
        for (first, second) in [(&image, &fresh_image(3)), (&fresh_image(3), &image)] {
            assert_eq!(merge(first, second, &mut target), Err(refusal));
        }
        assert_eq!(target, fresh_image(3));
        assert_eq!(moved(detach, &image, 2176), (3, Some(table)));
        // 18 does not read it.
        assert!(ask(&image, hash(18, 39)).is_ok());
    }

    #[test]
    fn refused_rows() {
        let mut image = image();
        let refusal = |image: &[u8], hashes: &[u64]| {
            let refusal = row(image, hashes).unwrap_err();
            (refusal.number, refusal.table)
        };
        let ascending = [hash(5, 0), hash(13, 0), hash(13, 40), hash(18, 40)];
        let descending = [hash(13, 40), hash(18, 40), hash(13, 0)];
        assert_eq!(refusal(&image, &descending), (10, None));
        for (table, byte) in [(24 + 2, 63), (24 + 5, 63), (24 + 1, 63), (13, 0), (5, 0)] {
            image[64 * table + byte] ^= 1;
            assert_eq!(refusal(&image, &ascending), (3, Some(table as u64)));
            assert_eq!(refusal(&image, &descending), (10, None));
        }
        assert_eq!(refusal(&image[1..], &descending), (1, None));
        assert_eq!(refusal(&image[1..], &[]), (1, None));
    }

    /// The lines of an accepted page.
    fn lines(image: &[u8], page: u64) -> Vec<String> {
        let mut out = [7; OCCUPANCY_BYTES + 3];
        occupancy(image, page, &mut out).unwrap();
        let (text, rest) = out.split_at(OCCUPANCY_BYTES);
        assert_eq!(rest, [7; 3]);
        let text = std::str::from_utf8(text).unwrap();
        assert!(text.ends_with('\n'));
        text.lines().map(str::to_string).collect()
    }

    #[test]
    fn occupancy_pages() {
        let full = "#".repeat(28);
        let mut image = image();
        insert(&mut image, hash(7, 7)).unwrap();
        let page = lines(&image, 0);
        assert_eq!(page.len(), 24);
        assert_eq!(page[0], format!("     0  0  0 {}", ".".repeat(28)));
        assert_eq!(page[7], format!("     7  1  0 #{}", ".".repeat(27)));
        assert_eq!(page[13], format!("    13 28 12 {full}"));
        assert_eq!(page[18], format!("    18 28 12 {full}"));
        for tag in 30..40 {
            delete(&mut image, hash(13, tag)).unwrap();
        }
        assert_eq!(lines(&image, 0)[13], format!("    13 28  2 {full}"));
    }

    #[test]
    fn last_occupancy_pages() {
        let blank = " ".repeat(41);
        for (b, page, used) in [(1, 0, 8), (3, 0, 24), (4, 1, 8), (65536, 21845, 8)] {
            let image = fresh_image(b);
            let lines = lines(&image, page);
            let first = format!("{:6}  0  0 {}", 24 * page, ".".repeat(28));
            assert_eq!(lines[0], first);
            assert!(lines[..used].iter().all(|line| *line != blank));
            assert_eq!(lines[used..], vec![blank.clone(); 24 - used]);
            // 24 times the last two wraps to 8 and to 0.
            for past in [page + 1, u64::MAX, 768614336404564651, 1 << 61] {
                let refusal = occupancy(&image, past, &mut []).unwrap_err();
                assert_eq!(refusal.number, 6);
            }
        }
    }

    #[test]
    fn refused_occupancy_pages() {
        let mut image = image();
        let refusal = |image: &[u8], page: u64, length: usize| {
            let mut out = vec![7; length];
            let refusal = occupancy(image, page, &mut out).unwrap_err();
            assert_eq!(out, vec![7; length]);
            (refusal.number, refusal.table)
        };
        assert_eq!(refusal(&image, 0, 1007), (7, None));
        assert_eq!(refusal(&image, 1, 1007), (6, None));
        // In reading order from behind: an earlier one comes first.
        for table in [19, 24 + 2, 24 + 5, 24 + 1, 13, 5] {
            image[64 * table + 63] ^= 1;
            image[64 * table] ^= 1;
            assert_eq!(refusal(&image, 0, 1008), (3, Some(table as u64)));
            assert_eq!(refusal(&image, 0, 1007), (3, Some(table as u64)));
            assert_eq!(refusal(&image, 1, 1008), (6, None));
        }
        assert_eq!(refusal(&image[1..], 1, 0), (1, None));
    }

    /// Total and change count.
    fn told(image: &[u8]) -> (u64, u64) {
        let mut out = [7; 3];
        tail(image, &mut out).unwrap();
        assert_eq!(out[2], 7);
        (out[0], out[1])
    }

    /// The image with this total and this change count.
    fn with(mut image: Vec<u8>, total: u64, changes: u64) -> Vec<u8> {
        Tail { total, changes }.write(&mut image);
        image
    }

    #[test]
    fn totals_and_change_counts() {
        let mut image = image();
        assert_eq!(told(&image), (80, 80));
        delete(&mut image, hash(13, 39)).unwrap();
        assert_eq!(told(&image), (79, 81));
        assert!(delete(&mut image, hash(13, 39)).is_err());
        assert_eq!(told(&image), (79, 81));
        let mut target = vec![7; image.len()];
        merge(&image, &fresh_image(3), &mut target).unwrap();
        assert_eq!((told(&target), check(&target)), ((79, 0), Ok(())));
        // Together too many: the target is fresh, its tail too.
        let full = merge(&image, &image, &mut target).unwrap_err();
        assert_eq!((full.number, target), (4, fresh_image(3)));
        for short in [0, 1] {
            let refusal = tail(&image, &mut vec![7; short]).unwrap_err();
            assert_eq!(refusal.number, 7);
        }
    }

    /// The number of a change, and that a refused one keeps every byte.
    fn change(image: &[u8], call: fn(&mut [u8], u64) -> Result<u64, Refusal>, hash: u64) -> u8 {
        let mut after = image.to_vec();
        let Err(refusal) = call(&mut after, hash) else {
            return 0;
        };
        assert_eq!(after, image);
        refusal.number
    }

    #[test]
    fn order_of_a_change() {
        let (slots, top) = (SHAPE.slots(), u64::MAX);
        // 13 has 28 in front and 12 behind, 18 too; 5 is empty.
        let (front, behind, absent) = (hash(13, 0), hash(13, 39), hash(5, 0));
        // The numbers of an insert, a delete, one of an absent value, and of both on an unsound
        // bucket.
        for (total, changes, numbers) in [
            (0, 0, [0, 12, 5, 3]),
            (1, top - 1, [0, 0, 5, 3]),
            (slots - 1, 0, [0, 0, 5, 3]),
            (slots, 0, [12, 0, 5, 3]),
            (slots, top, [13; 4]),
            (0, top, [13; 4]),
            (slots + 1, top, [11; 4]),
        ] {
            let image = with(image(), total, changes);
            let number = |call, hash| change(&image, call, hash);
            for hash in [front, behind] {
                assert_eq!([number(insert, hash), number(delete, hash)], numbers[..2]);
            }
            assert_eq!(number(delete, absent), numbers[2]);
            let mut unsound = image.clone();
            unsound[13 * BUCKET] ^= 1;
            assert_eq!(change(&unsound, insert, front), numbers[3]);
            assert_eq!(change(&unsound, delete, front), numbers[3]);
        }
        // Both backyard buckets of 13 hold 22.
        let mut full = image();
        while insert(&mut full, front).is_ok() {}
        for (changes, number) in [(0, 4), (top - 1, 4), (top, 13)] {
            let image = with(full.clone(), slots, changes);
            assert_eq!(change(&image, insert, front), number);
        }
    }

    /// The number of a page that is refused, and that it keeps the output.
    fn page_number(image: &[u8], start: u64, changes: u64, length: usize) -> (u8, Option<u64>) {
        let mut out = vec![7; length];
        let Err(refusal) = page(image, start, changes, &mut out) else {
            return (0, None);
        };
        assert_eq!(out, vec![7; length]);
        (refusal.number, refusal.table)
    }

    #[test]
    fn order_of_a_page() {
        let top = u64::MAX;
        // Start, length, and the number with the right count: 13 and 18 have 40 members each.
        let pages = [
            (0, 40, 0),
            (24, 0, 0),
            (13, 39, 7),
            (25, 99, 6),
            (top, 0, 6),
        ];
        for told in [0, 1, 80, (1 << 32) - 1, 1 << 32, 1 << 63, top - 1, top] {
            let image = with(image(), 80, told);
            let mut unsound = image.clone();
            unsound[13 * BUCKET] ^= 1;
            let mut bad = unsound.clone();
            bad[SHAPE.old_length() + 16] = 2;
            for (start, length, number) in pages {
                let right = page_number(&image, start, told, length);
                assert_eq!(right, (number, None));
            }
            assert_eq!(page_number(&unsound, 13, told, 99), (3, Some(13)));
            let (less, more) = (told.wrapping_sub(1), told.wrapping_add(1));
            for brought in [told, less, more, 0, top, told ^ 1 << 32, told ^ 1 << 63] {
                for (start, length, _) in pages {
                    let refusal = |image: &[u8]| page_number(image, start, brought, length);
                    if brought != told {
                        assert_eq!(refusal(&image), (14, None));
                        assert_eq!(refusal(&unsound), (14, None));
                    }
                    assert_eq!(refusal(&bad), (11, None));
                    assert_eq!(refusal(&bad[1..]), (1, None));
                    assert_eq!(refusal(&bad[..SHAPE.old_length()]), (1, None));
                }
            }
        }
    }

    /// A walk in pages of 40 entries, with what comes between them: what it listed, or the number of
    /// the page that was refused.
    fn walk(image: &mut [u8], between: impl Fn(&mut [u8])) -> Result<Vec<u64>, u8> {
        let (_, changes) = told(image);
        let (mut listed, mut next) = (Vec::new(), 0);
        while next < SHAPE.fronts() {
            let mut out = [0; 40];
            let paged = page(image, next, changes, &mut out).map_err(|why| why.number)?;
            listed.extend(&out[..paged.how_many as usize]);
            next = paged.next;
            between(image);
        }
        Ok(listed)
    }

    /// What a walk of `image()` lists.
    fn listing() -> Vec<u64> {
        let all = |f: u64| (0..40).map(move |tag| f * MINIS * TAGS + tag);
        all(13).chain(all(18)).collect()
    }

    #[test]
    fn undisturbed_walks() {
        let quiet = |start: Vec<u8>, between: &dyn Fn(&mut [u8])| {
            let mut image = start.clone();
            assert_eq!(walk(&mut image, between), Ok(listing()));
            assert_eq!(image, start);
        };
        let (filed, absent) = (hash(13, 0), hash(13, 40));
        quiet(image(), &|_| {});
        quiet(image(), &|image| {
            assert_eq!(delete(image, absent).unwrap_err().number, 5);
        });
        quiet(with(image(), SHAPE.slots(), 80), &|image| {
            assert_eq!(insert(image, filed).unwrap_err().number, 12);
        });
        quiet(with(image(), 0, 80), &|image| {
            assert_eq!(delete(image, filed).unwrap_err().number, 12);
        });
        quiet(with(image(), 80, u64::MAX), &|image| {
            assert_eq!(insert(image, filed).unwrap_err().number, 13);
            assert_eq!(delete(image, filed).unwrap_err().number, 13);
        });
        quiet(image(), &|image| {
            assert!(ask(image, filed).is_ok() && count(image, filed).is_ok());
            assert!(check(image).is_ok() && lines(image, 0).len() == 24);
            assert!(merge(image, &fresh_image(3), &mut fresh_image(3)).is_ok());
            assert!(merge(&fresh_image(2), &fresh_image(2), image).is_err());
            assert_eq!(page_number(image, 0, 79, 40), (14, None));
            assert_eq!(page_number(image, 13, 80, 40), (0, None));
        });
    }

    #[test]
    fn disturbed_walks() {
        // In a front bucket that is listed, in the next, and in one to come.
        for f in [0, 13, 18, 23] {
            let mut image = with(image(), 80, u64::MAX - 2);
            let inserted = walk(&mut image, |image| {
                insert(image, hash(f, 50)).unwrap();
            });
            let deleted = walk(&mut image, |image| {
                delete(image, hash(f, 50)).unwrap();
            });
            assert_eq!([inserted, deleted], [Err(14), Err(14)]);
            assert_eq!(walk(&mut image, |_| {}), Ok(listing()));
        }
        // Undone: all but the count is as before.
        let mut changed = image();
        let undone = walk(&mut changed, |image| {
            insert(image, hash(5, 0)).unwrap();
            delete(image, hash(5, 0)).unwrap();
        });
        assert_eq!(undone, Err(14));
        assert_eq!(changed, with(image(), 80, 82));
    }

    /// Pages with different counts, each right in its time: the members at no one time.
    #[test]
    fn pages_that_make_no_walk() {
        let mut image = image();
        let first = page(&image, 0, 80, &mut [0; 40]).unwrap();
        assert_eq!((first.how_many, first.next), (40, 18));
        insert(&mut image, hash(5, 0)).unwrap();
        assert_eq!(page_number(&image, 18, 80, 40), (14, None));
        let second = page(&image, 18, 81, &mut [0; 40]).unwrap();
        assert_eq!((second.how_many, second.next), (40, 24));
        // A count that starts anew comes to the old one again.
        fresh(&mut image).unwrap();
        assert_eq!(page_number(&image, 18, 80, 40), (14, None));
        for tag in 0..40 {
            insert(&mut image, hash(5, tag)).unwrap();
            delete(&mut image, hash(5, tag)).unwrap();
        }
        assert_eq!(page_number(&image, 18, 80, 40), (0, None));
    }

    #[test]
    fn order_of_a_merge() {
        let good = fresh_image(3);
        let mut bad = good.clone();
        bad[SHAPE.old_length() + 16] = 2;
        let mut unsound = good.clone();
        unsound[0] ^= 1;
        let mut early = good.clone();
        let one = [Member {
            mini: 0,
            tag: 0,
            crumb: 1,
        }];
        write_at(&mut early, 24, bucket::encode_backyard(&one));
        let wrong = with(good.clone(), 1, 0);
        let other = fresh_image(2);
        let cut = &good[1..];
        let images: [(&[u8], [u8; 7]); 7] = [
            // The number with each as the second: good, wrong, early, unsound, bad, other, cut.
            (&good, [0, 12, 8, 3, 11, 2, 1]),
            (&wrong, [12, 12, 12, 12, 11, 2, 1]),
            (&early, [8, 8, 8, 8, 11, 2, 1]),
            (&unsound, [3, 3, 3, 3, 11, 2, 1]),
            (&bad, [11, 11, 11, 11, 11, 2, 1]),
            (&other, [2, 2, 2, 2, 2, 2, 1]),
            (cut, [1; 7]),
        ];
        for (first, numbers) in &images {
            for ((second, _), number) in images.iter().zip(numbers) {
                let mut target = bad.clone();
                let refusal = merge(first, second, &mut target).err();
                assert_eq!(refusal.map_or(0, |refusal| refusal.number), *number);
                assert!(*number == 0 || target == bad);
            }
        }
        let refusal = merge(&good, &other, &mut bad[1..]).unwrap_err();
        assert_eq!(refusal.number, 1);
    }

    #[test]
    fn old_new_old() {
        let image = image();
        let (mut old, mut new, mut again) = (vec![7; 2176], vec![7; 2240], vec![7; 2176]);
        detach(&image, &mut old).unwrap();
        assert_eq!(old, image[..2176]);
        attach(&old, &mut new).unwrap();
        assert_eq!(new, with(image.clone(), 80, 0));
        detach(&new, &mut again).unwrap();
        assert_eq!(again, old);
    }

    /// The number of a move, and that a refused one keeps the target.
    fn moved(
        call: fn(&[u8], &mut [u8]) -> Result<(), Refusal>,
        source: &[u8],
        length: usize,
    ) -> (u8, Option<u64>) {
        let mut target = vec![7; length];
        let Err(refusal) = call(source, &mut target) else {
            return (0, None);
        };
        assert_eq!(target, vec![7; length]);
        (refusal.number, refusal.table)
    }

    #[test]
    fn order_of_moves() {
        let image = image();
        let mut early = image.clone();
        write_at(&mut early, 13, bucket::encode_front(&[]));
        let mut unsound = early.clone();
        unsound[64 * 33 + 63] = 1;
        for (source, refusal) in [
            (&image, (0, None)),
            (&early, (8, Some(25))),
            (&unsound, (3, Some(33))),
        ] {
            let old = &source[..2176];
            assert_eq!(moved(attach, old, 2240), refusal);
            for (length, number) in [(1664, 2), (2816, 2), (2176, 1), (2239, 1), (0, 1)] {
                assert_eq!(moved(attach, old, length), (number, None));
            }
            assert_eq!(moved(attach, source, 2240), (1, None));
            assert_eq!(moved(detach, old, 2176), (1, None));
            let right = if refusal.0 == 0 { 80 } else { 52 };
            assert_eq!(
                moved(detach, &with(source.clone(), right, 9), 2176),
                refusal
            );
            let wrong = if refusal.0 == 0 { (12, None) } else { refusal };
            assert_eq!(moved(detach, &with(source.clone(), 7, 9), 2176), wrong);
            let bad = with(source.clone(), 893, 9);
            assert_eq!(moved(detach, &bad, 2176), (11, None));
            for (length, number) in [(1600, 2), (2752, 2), (2240, 1), (2175, 1), (0, 1)] {
                assert_eq!(moved(detach, &bad, length), (number, None));
            }
        }
    }

    #[test]
    fn a_bad_tail_and_what_reads() {
        let good = image();
        let mut bad = good.clone();
        bad[SHAPE.old_length() + 63] = 1;
        let mut unsound = bad.clone();
        unsound[64 * 13] ^= 1;
        let (low, high) = (hash(13, 0), hash(18, 0));
        let row_of = |image: &[u8], hashes: &[u64]| row(image, hashes).err().map(|why| why.number);
        for image in [&bad, &unsound] {
            assert_eq!(ask(image, low).unwrap_err().number, 11);
            assert_eq!(count(image, low).unwrap_err().number, 11);
            assert_eq!(check(image).unwrap_err().number, 11);
            assert_eq!(tail(image, &mut []).unwrap_err().number, 11);
            for start in [13, 25] {
                for changes in [80, 81] {
                    let refusal = page(image, start, changes, &mut []).unwrap_err();
                    assert_eq!(refusal.number, 11);
                }
            }
            for page in [0, 1] {
                assert_eq!(occupancy(image, page, &mut []).unwrap_err().number, 11);
            }
            assert_eq!(row_of(image, &[low, high]), Some(11));
            assert_eq!(row_of(image, &[]), Some(11));
            assert_eq!(row_of(image, &[high, low]), Some(10));
        }
        // A wrong total, at the top change count.
        let wrong = with(good.clone(), 0, u64::MAX);
        assert_eq!(ask(&wrong, low), ask(&good, low));
        assert_eq!(count(&wrong, low), count(&good, low));
        assert_eq!(row(&wrong, &[low, high]), row(&good, &[low, high]));
        assert_eq!(lines(&wrong, 0), lines(&good, 0));
        assert_eq!(check(&wrong).unwrap_err().number, 12);
        assert_eq!(check(&wrong).unwrap_err().table, None);
        assert_eq!(check(&with(good, 80, u64::MAX)), Ok(()));
    }
}
