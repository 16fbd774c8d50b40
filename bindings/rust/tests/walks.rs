//! Walks over the members: undisturbed, disturbed, refused, and over images that they were not begun on.

use breadcrumb::{Entry, Image, Refusal, Walk};

/// A hash of the first front bucket, and one of the last.
const LOW: u64 = 1;
const HIGH: u64 = u64::MAX;

/// Members of the image that the walks go over: several pages.
const MEMBERS: u64 = 2000;

/// Hashes spread over the front buckets.
fn hash_of(n: u64) -> u64 {
    n.wrapping_mul(0x9E3779B97F4A7C15)
}

/// An image with so many members, B = 20.
fn holding(members: u64) -> Image {
    let mut image = Image::new(20).unwrap();
    for n in 0..members {
        image.insert(hash_of(n)).unwrap();
    }
    image
}

/// The same with the last front bucket filled until it takes no more.
fn crowded(members: u64) -> Image {
    let mut image = holding(members);
    while image.insert(HIGH) != Err(Refusal::Full) {}
    image
}

/// The next members of a walk, all of which must be there.
fn take(walk: &mut Walk, image: &Image, how_many: usize) -> Vec<u64> {
    let taken: Result<Vec<u64>, Refusal> = walk.over(image).take(how_many).collect();
    let taken = taken.expect("no refusal");
    assert_eq!(taken.len(), how_many);
    taken
}

/// What is left of a walk: its members and, if there is one, the refusal, behind which nothing may
/// come.
fn rest(walk: &mut Walk, image: &Image) -> (Vec<u64>, Option<Refusal>) {
    let mut members = Vec::new();
    let mut refused = None;
    for step in walk.over(image) {
        assert_eq!(refused, None);
        match step {
            Ok(member) => members.push(member),
            Err(refusal) => refused = Some(refusal),
        }
    }
    assert_eq!(walk.next(image), None);
    assert_eq!(walk.over(image).next(), None);
    (members, refused)
}

/// The members by pages as short as any bucket allows.
fn paged(image: &Image) -> Vec<u64> {
    let (changes, mut next, mut members) = (image.changes().unwrap(), 0, Vec::new());
    let fronts = (image.bytes().len() as u64 - 512) / 576 * 8;
    while next < fronts {
        let mut out = [0; 72];
        let page = image.page(next, changes, &mut out).unwrap();
        members.extend_from_slice(&out[..page.how_many]);
        next = page.next;
    }
    members
}

#[test]
fn undisturbed() {
    assert_eq!(crowded(0).total(), Ok(72));
    for image in [
        holding(0),
        holding(1),
        holding(MEMBERS),
        crowded(0),
        // The last front bucket has a page of its own.
        crowded(200),
        crowded(MEMBERS),
    ] {
        let members = image.list().unwrap();
        assert_eq!(members.len() as u64, image.total().unwrap());
        assert!(members.is_sorted());
        assert_eq!(members, paged(&image));
        let mut walk = image.walk().unwrap();
        assert_eq!(rest(&mut walk, &image), (members, None));
    }
}

#[test]
fn lent_bytes() {
    let image = holding(MEMBERS);
    let lent = Image::over(image.bytes());
    let mut walk = lent.walk().unwrap();
    let mut members = Vec::new();
    while let Some(member) = walk.next(&lent) {
        members.push(member.unwrap());
    }
    assert_eq!(Ok(members), image.list());
}

#[test]
fn stopped_and_resumed() {
    let image = holding(MEMBERS);
    let mut walk = image.walk().unwrap();
    let mut members = Vec::new();
    for how_many in [0, 1, 2, 200, 255, 256, 257, 1] {
        members.extend(take(&mut walk, &image, how_many));
    }
    // A copy of the walk goes on by itself.
    let mut copy = walk.clone();
    let (left, refused) = rest(&mut walk, &image);
    assert_eq!(rest(&mut copy, &image), (left.clone(), refused));
    members.extend(left);
    assert_eq!((Ok(members), refused), (image.list(), None));
}

/// Goes on with a walk after a change: it must yield what stood before, then be refused with 14,
/// and a walk begun anew must list what stands now.
fn disturbed(before: usize, change: impl Fn(&mut Image)) {
    let mut image = holding(MEMBERS);
    let members = image.list().unwrap();
    let mut walk = image.walk().unwrap();
    let mut walked = take(&mut walk, &image, before);
    change(&mut image);
    let (left, refused) = rest(&mut walk, &image);
    assert_eq!(refused, Some(Refusal::Changed));
    walked.extend(left);
    // At most the page that was read before the change.
    assert!(walked.len() <= before + 256 && members.starts_with(&walked));
    let mut anew = image.walk().unwrap();
    let (all, refused) = rest(&mut anew, &image);
    assert_eq!((all.len() as u64, refused), (image.total().unwrap(), None));
    assert_eq!(all, paged(&image));
}

#[test]
fn disturbed_by_changes() {
    for before in [0, 1, 256, 1000] {
        for hash in [LOW, hash_of(7), HIGH] {
            disturbed(before, |image| {
                image.insert(hash).unwrap();
            });
            // The members are the same again, but the count has moved.
            disturbed(before, |image| {
                image.insert(hash).unwrap();
                image.delete(hash).unwrap();
            });
        }
        disturbed(before, |image| {
            image.delete(hash_of(7)).unwrap();
        });
        disturbed(before, |image| {
            image.delete(hash_of(7)).unwrap();
            image.insert(hash_of(7)).unwrap();
        });
    }
}

#[test]
fn undisturbed_by_the_rest() {
    let mut image = crowded(MEMBERS);
    let members = image.list().unwrap();
    let mut target = Image::new(20).unwrap();
    let mut walk = image.walk().unwrap();
    let mut walked = Vec::new();
    for _ in 0..8 {
        walked.extend(take(&mut walk, &image, 200));
        assert_eq!(image.insert(HIGH), Err(Refusal::Full));
        assert_eq!(image.delete(LOW), Err(Refusal::Absent));
        image.ask(HIGH).unwrap();
        image.row(&mut [Entry::new(HIGH)]).unwrap();
        image.count(HIGH).unwrap();
        image.check().unwrap();
        image.tail().unwrap();
        image.occupancy_pages().unwrap();
        image.detach().unwrap();
        assert_eq!(target.merge(&image, &holding(0)), Ok(()));
        let mut other = image.walk().unwrap();
        assert_eq!(take(&mut other, &image, 300), members[..300]);
        assert_eq!(image.list().as_ref(), Ok(&members));
    }
    let (left, refused) = rest(&mut walk, &image);
    walked.extend(left);
    assert_eq!((walked, refused), (members, None));
}

#[test]
fn changed_after_the_last_page() {
    let mut image = holding(100);
    let members = image.list().unwrap();
    let mut walk = image.walk().unwrap();
    let first = take(&mut walk, &image, 1);
    image.insert(LOW).unwrap();
    let (left, refused) = rest(&mut walk, &image);
    assert_eq!((&first[..], &left[..]), members.split_at(1));
    assert_eq!(refused, None);
    // Nothing more comes, whatever is filed.
    image.insert(HIGH).unwrap();
    assert_eq!(walk.next(&image), None);
}

#[test]
fn refused_walks() {
    let image = holding(MEMBERS);
    let bytes = image.bytes();
    let short = Image::over(&bytes[1..]);
    assert_eq!(short.walk().err(), Some(Refusal::WrongLength));
    assert_eq!(short.list(), Err(Refusal::WrongLength));
    let mut bad = bytes.to_vec();
    bad[bytes.len() - 1] = 1;
    assert_eq!(Image::over(&bad).walk().err(), Some(Refusal::BadTail));
    // The members before the page with the unsound bucket are yielded.
    let mut unsound = bytes.to_vec();
    unsound[64 * 100..64 * 101].fill(0);
    let unsound = Image::over(unsound);
    assert_eq!(unsound.list(), Err(Refusal::Unsound(100)));
    let mut walk = unsound.walk().unwrap();
    let (members, refused) = rest(&mut walk, &unsound);
    assert_eq!(refused, Some(Refusal::Unsound(100)));
    assert!(members.len() > 512 && image.list().unwrap().starts_with(&members));
}

#[test]
fn over_other_images() {
    let image = holding(MEMBERS);
    // Few buckets, none of them filed, and the same change count.
    let mut small = Image::new(1).unwrap();
    for _ in 0..MEMBERS / 2 {
        small.insert(LOW).unwrap();
        small.delete(LOW).unwrap();
    }
    assert_eq!(small.changes(), image.changes());
    let refused = |before, other: &Image| {
        let mut walk = image.walk().unwrap();
        take(&mut walk, &image, before);
        rest(&mut walk, other).1
    };
    assert_eq!(refused(0, &small), None);
    assert_eq!(refused(1000, &small), Some(Refusal::PastTheEnd));
    assert_eq!(refused(1000, &holding(0)), Some(Refusal::Changed));
    for length in [0, 511, 512, 1087, 1089] {
        let other = Image::over(vec![0; length]);
        assert_eq!(refused(0, &other), Some(Refusal::WrongLength));
        assert_eq!(refused(1000, &other), Some(Refusal::WrongLength));
    }
}

#[test]
fn over_a_count_started_anew() {
    let (first, second) = (holding(MEMBERS), holding(0));
    let mut image = Image::new(20).unwrap();
    image.merge(&first, &second).unwrap();
    let mut walk = image.walk().unwrap();
    take(&mut walk, &image, 1000);
    // Unnoticed, which is why a walk must not go on; it ends nevertheless.
    image.fresh().unwrap();
    assert_eq!(rest(&mut walk, &image).1, None);
}
