//! Random histories: calls on images that are whole, damaged, or sound but never checked, with good
//! tails and bad ones, moves between the forms, walks with other calls between their pages, and front
//! buckets whose two backyard buckets coincide.

use crate::bucket::Member;
use crate::calls::{inserted, members, read_backyard};
use crate::fingerprint::Fingerprint;
use crate::prepare::{members_in, Player};
use crate::random::Random;
use crate::shape::{Shape, BUCKET};
use crate::stored::Line;

#[derive(Clone, Copy, PartialEq, Eq, Debug)]
pub enum Kind {
    /// Calls on one fresh image.
    Plain,
    /// Two histories merged into a third, which goes on.
    Merging,
    /// Buckets damaged between the calls.
    Damaged,
    /// Sound buckets of any content.
    Unchecked,
    /// A few members of a history moved before their turn.
    Early,
    /// Wrong lengths.
    Lengths,
    /// Bad tails, wrong totals, and change counts near the top.
    Tails,
    /// Moves between the forms: of whole, damaged and unchecked images, into right and wrong lengths.
    Moves,
    /// Walks by turns, with changes and other calls between their pages.
    Walks,
    /// Front buckets with b0 = b1 and others that share their backyard bucket, filled; choice 0 crumbs
    /// put there.
    Coinciding,
}

pub const KINDS: [Kind; 10] = [
    Kind::Plain,
    Kind::Merging,
    Kind::Damaged,
    Kind::Unchecked,
    Kind::Early,
    Kind::Lengths,
    Kind::Tails,
    Kind::Moves,
    Kind::Walks,
    Kind::Coinciding,
];

/// The few front buckets and (mini-bucket, tag) pairs that a history keeps to, so that copies,
/// overflows and deletes of members are common.
struct Pool {
    shape: Shape,
    fronts: Vec<u64>,
    values: Vec<(u64, u64)>,
}

impl Pool {
    fn new(shape: Shape, random: &mut Random) -> Pool {
        let first = random.below(shape.fronts());
        let mut fronts = vec![first];
        for _ in 0..random.below(4) {
            fronts.push(match random.below(3) {
                // One that shares a backyard bucket with the first.
                0 => first / 8 * 8 + random.below(8),
                1 => {
                    let home = shape.second_home(first);
                    shape
                        .front_of(home.bucket, random.below(16))
                        .unwrap_or(first)
                }
                _ => random.below(shape.fronts()),
            });
        }
        if random.one_in(4) {
            fronts.push(*random.pick(&shape.coinciding()));
        }
        let mut values = vec![(0, 0), (35, 65535)];
        for _ in 0..3 + random.below(60) {
            let tag = match random.below(4) {
                0 => random.below(3),
                1 => 255 + random.below(3),
                _ => random.below(65536),
            };
            let mini = if random.one_in(2) {
                random.below(36)
            } else {
                random.below(3) * 17
            };
            values.push((mini, tag));
        }
        Pool {
            shape,
            fronts,
            values,
        }
    }

    /// One front bucket with b0 = b1, some that share its backyard bucket, and maybe another.
    fn coinciding(shape: Shape, random: &mut Random) -> Pool {
        let coinciding = shape.coinciding();
        let f = *random.pick(&coinciding);
        let mut fronts = vec![f, f];
        for _ in 0..1 + random.below(3) {
            let crumb = random.below(16);
            let sharing = shape.front_of(shape.second_home(f).bucket, crumb);
            fronts.push(sharing.unwrap_or(f));
        }
        if random.one_in(3) {
            fronts.push(*random.pick(&coinciding));
        }
        Pool {
            fronts,
            ..Pool::new(shape, random)
        }
    }

    fn fingerprint(&self, random: &mut Random) -> Fingerprint {
        let front = if random.one_in(20) {
            random.below(self.shape.fronts())
        } else {
            *random.pick(&self.fronts)
        };
        let (mini, tag) = *random.pick(&self.values);
        Fingerprint { front, mini, tag }
    }

    /// The table number of a bucket that the pool's calls are likely to read.
    fn table(&self, random: &mut Random) -> u64 {
        let f = *random.pick(&self.fronts);
        match random.below(7) {
            0 | 1 => f,
            2 | 3 => self.shape.table_number(self.shape.first_home(f).bucket),
            4 | 5 => self.shape.table_number(self.shape.second_home(f).bucket),
            _ => random.below(self.shape.fronts() + self.shape.backyards()),
        }
    }
}

/// A random call on image x.
fn call(player: &mut Player, x: usize, pool: &Pool, inserts: u64) {
    let g = pool.fingerprint(&mut player.random);
    match player.random.below(inserts + 50) {
        0..=9 => player.look(x, g),
        10..=29 => {
            player.delete(x, g);
        }
        30..=31 => {
            player.check(x);
        }
        32..=42 => page(player, x, pool, g.front),
        43..=46 => {
            let hash = player.random.bits();
            player.play(Line::Ask { x, hash });
        }
        47..=49 => {
            // A run of copies.
            for _ in 0..player.random.below(12) {
                player.insert(x, g);
            }
        }
        _ => {
            player.insert(x, g);
        }
    }
}

/// A page of image x, mostly from about this front bucket on.
fn page(player: &mut Player, x: usize, pool: &Pool, front: u64) {
    let changes = brought(player, x);
    let fronts = pool.shape.fronts();
    let random = &mut player.random;
    let near = front + random.below(2);
    let start = match random.below(8) {
        0 => random.below(fronts),
        1 => fronts - random.below(2),
        2 if random.one_in(3) => fronts + 1 + random.bits() % 3,
        3 if random.one_in(3) => u64::MAX - random.below(2),
        4 => near.saturating_sub(random.below(4)),
        _ => near,
    };
    let lengths = [0, 1, 27, 28, 29, 40, 49, 50, 51, 72, 73, 100, 144, 200];
    let length = *random.pick(&lengths);
    player.page_with(x, start, changes, length);
}

/// The change count that a page of image x brings: mostly the right one, else one beside it, the
/// one that the page before brought, one of the ends, or one that differs in a bit.
fn brought(player: &mut Player, x: usize) -> u64 {
    let (right, kept) = (player.changes(x), player.images.changes);
    let random = &mut player.random;
    if !random.one_in(5) {
        return right;
    }
    let (less, more) = (right.wrapping_sub(1), right.wrapping_add(1));
    let bit = right ^ 1 << random.below(64);
    *random.pick(&[less, more, kept, 0, u64::MAX, bit])
}

fn calls(player: &mut Player, x: usize, pool: &Pool, how_many: usize) {
    // Some histories grow, some stay level.
    let inserts = *player.random.pick(&[20, 60, 100]);
    for _ in 0..how_many {
        call(player, x, pool, inserts);
    }
}

/// One change of a bucket that may make it unsound.
fn damage(player: &mut Player, x: usize, table: u64) {
    let mut bytes = player.bucket(x, table);
    let random = &mut player.random;
    let any = random.below(64) as usize;
    match random.below(9) {
        0 => bytes = [0; BUCKET],
        1 => bytes[any] ^= 1 << random.below(8),
        2 => bytes[any] = random.bits() as u8,
        3 => bytes[63] = 1 + random.below(255) as u8,
        4 => bytes[random.below(8) as usize] ^= 1 << random.below(8),
        // A one and a zero of the word change places.
        5 => {
            let word = u64::from_le_bytes(bytes[..8].try_into().unwrap());
            let (p, q) = (random.below(64), random.below(64));
            let swapped = (word >> p ^ word >> q) & 1;
            bytes[..8].copy_from_slice(&(word ^ swapped << p ^ swapped << q).to_le_bytes());
        }
        // Two tags change places.
        6 => {
            let (s, t) = (random.below(22) as usize, random.below(22) as usize);
            bytes.swap(8 + 2 * s, 8 + 2 * t);
            bytes.swap(9 + 2 * s, 9 + 2 * t);
        }
        // A crumb.
        7 => bytes[52 + random.below(11) as usize] ^= 1 << random.below(8),
        _ => {
            for byte in &mut bytes {
                *byte = random.bits() as u8;
            }
        }
    }
    player.put(x, table, bytes);
}

/// Sound members for a backyard bucket, any crumbs that are valid there.
fn any_backyard(player: &mut Player, pool: &Pool, j: u64) -> Vec<Member> {
    let valid: Vec<u64> = (0..16)
        .filter(|&crumb| pool.shape.front_of(j, crumb).is_some())
        .collect();
    if valid.is_empty() {
        return Vec::new();
    }
    let likely = |&&crumb: &&u64| {
        let f = pool.shape.front_of(j, crumb).unwrap();
        pool.fronts.contains(&f)
    };
    let likely: Vec<u64> = valid.iter().filter(likely).copied().collect();
    let random = &mut player.random;
    let few = random.below(23);
    let how_many = *random.pick(&[0, 1, 5, 21, 22, few]);
    let mut members = Vec::new();
    for _ in 0..how_many {
        let (mini, tag) = *random.pick(&pool.values);
        let crumb = if likely.is_empty() || random.one_in(5) {
            *random.pick(&valid)
        } else {
            *random.pick(&likely)
        };
        members.push(Member { mini, tag, crumb });
    }
    members
}

fn any_front(player: &mut Player, pool: &Pool) -> Vec<Member> {
    let random = &mut player.random;
    let few = random.below(29);
    let how_many = *random.pick(&[28, 28, 28, 27, few]);
    let member = |_| {
        let (mini, tag) = *random.pick(&pool.values);
        Member {
            mini,
            tag,
            crumb: 0,
        }
    };
    (0..how_many).map(member).collect()
}

/// One change of a tail: a bad one, another total or another change count.
fn spoil(player: &mut Player, x: usize) {
    let shape = player.shape(x);
    let slots = shape.slots();
    let members = members_in(&player.images.image[x], shape).unwrap_or(slots / 2);
    let random = &mut player.random;
    let (any, near) = (random.bits(), random.below(3));
    match random.below(12) {
        0 => {
            let layout = *random.pick(&[0, 2, 3, 255]);
            player.put_tail_byte(x, 16, layout);
        }
        1 => {
            let within = 17 + random.below(47) as usize;
            let at = *random.pick(&[17, 24, 63, within]);
            player.put_tail_byte(x, at, 1 << near);
        }
        2 => {
            let total = *random.pick(&[slots + 1, slots + 2, 1 << 32, 1 << 63, u64::MAX, any]);
            player.put_total(x, total);
        }
        3..=5 => {
            let total = *random.pick(&[0, 0, 1, slots - 1, slots, slots]);
            player.put_total(x, total);
        }
        6 => player.put_total(x, (members + near).saturating_sub(1)),
        7..=9 => player.put_changes(x, u64::MAX - near),
        _ => player.put_changes(x, any),
    }
}

/// Sound buckets of any content for one front bucket of the pool, in front or behind.
fn scramble(player: &mut Player, x: usize, pool: &Pool) {
    let f = *player.random.pick(&pool.fronts);
    if player.random.one_in(2) {
        let members = any_front(player, pool);
        player.put_front(x, f, members);
    } else {
        let home = pool.shape.second_home(f);
        let members = any_backyard(player, pool, home.bucket);
        player.put_backyard(x, home.bucket, members);
    }
}

/// A damaged or a scrambled bucket.
fn harm(player: &mut Player, x: usize, pool: &Pool) {
    if player.random.one_in(2) {
        let table = pool.table(&mut player.random);
        damage(player, x, table);
    } else {
        scramble(player, x, pool);
    }
}

/// Inserts into one front bucket, mostly more than it holds in front.
fn fill(player: &mut Player, x: usize, pool: &Pool) {
    let front = *player.random.pick(&pool.fronts);
    for _ in 0..player.random.below(80) {
        let (mini, tag) = *player.random.pick(&pool.values);
        player.insert(x, Fingerprint { front, mini, tag });
    }
}

/// A delete of a member of some front bucket, where it has one.
fn delete_a_member(player: &mut Player, x: usize, pool: &Pool) {
    let f = *player.random.pick(&pool.fronts);
    let there = members(&player.images.image[x], pool.shape, f).unwrap_or_default();
    let g = match there[..] {
        [] => pool.fingerprint(&mut player.random),
        _ => *player.random.pick(&there),
    };
    player.delete(x, g);
}

/// The tail's numbers into an output of any length.
fn tail(player: &mut Player, x: usize) {
    let length = player.random.below(5) as usize;
    player.tail(x, length);
}

/// Calls and merges on image 0 with a spoiled tail, some with harmed buckets, beside image 1, of
/// which only the tail is spoiled.
fn tails(player: &mut Player, pool: &Pool, how_many: usize) {
    player.new_image(2, pool.shape.length());
    calls(player, 0, pool, how_many / 3);
    fill(player, 0, pool);
    player.copy(0, 1);
    for _ in 0..how_many / 10 {
        for _ in 0..1 + player.random.below(2) {
            spoil(player, 0);
        }
        if player.random.one_in(2) {
            harm(player, 0, pool);
        }
        delete_a_member(player, 0, pool);
        calls(player, 0, pool, 5);
        delete_a_member(player, 0, pool);
        player.check(0);
        tail(player, 0);
        if player.random.one_in(2) {
            let good = player.tail_bytes(1);
            spoil(player, 1);
            for (x, y) in [(0, 1), (1, 0), (1, 1)] {
                player.merge(x, y, 2);
            }
            player.put_tail(1, good);
        }
        if player.random.one_in(2) {
            player.copy(1, 0);
        }
    }
}

/// Moves from image 0 and from old image 1, which starts as its copy, into image 2 of right and
/// wrong lengths.
fn moves(player: &mut Player, pool: &Pool, how_many: usize) {
    let shape = pool.shape;
    for _ in 0..how_many / 20 {
        player.fresh(0, shape.b);
        match player.random.below(8) {
            0 => {}
            1 => calls(player, 0, pool, 10),
            _ => fill(player, 0, pool),
        }
        player.new_image(1, shape.old_length());
        player.detach(0, 1);
        for _ in 0..3 {
            match player.random.below(8) {
                0 | 1 => harm(player, 0, pool),
                2 | 3 => harm(player, 1, pool),
                4 | 5 => spoil(player, 0),
                _ => {}
            }
            move_both(player, pool);
        }
    }
}

/// Both moves into image 2. Where one makes an image of the new form, the calls go on with it, and
/// it moves back.
fn move_both(player: &mut Player, pool: &Pool) {
    target(player, pool.shape, Shape::old_length);
    player.detach(0, 2);
    target(player, pool.shape, Shape::length);
    if player.attach(1, 2) == 0 {
        calls(player, 2, pool, 3);
        player.check(2);
        tail(player, 2);
        player.detach(2, 1);
    }
    if player.random.one_in(8) {
        player.attach(0, 2);
        player.detach(1, 2);
    }
}

/// Image 2 as the target of a move: mostly of the length for this shape in the right form, or for
/// another shape. It may hold anything.
fn target(player: &mut Player, shape: Shape, length: fn(Shape) -> usize) {
    let (more, less) = (shape.b + 1, shape.b.max(2) - 1);
    let random = &mut player.random;
    let b = *random.pick(&[more, less]);
    let right = length(shape);
    let wrong = [0, 64, right - 1, right + 1, right - 64, right + 64];
    let length = match random.below(8) {
        0 => *random.pick(&wrong),
        1 | 2 => length(Shape { b }),
        _ => right,
    };
    let word = random.bits();
    let holds_something = random.one_in(3);
    player.new_image(2, length);
    if holds_something && length >= 1024 {
        for at in [0, 512, length - 8] {
            player.play(Line::Poke { x: 2, at, word });
        }
    }
}

/// A walk of image 0: the change count that it began with, and the front bucket that it has come
/// to.
struct Walk {
    changes: u64,
    next: u64,
}

impl Walk {
    fn begin(player: &Player) -> Walk {
        let changes = player.changes(0);
        Walk { changes, next: 0 }
    }

    /// The next page. After the last one, or a refusal, the walk begins anew; or it tries once more,
    /// or takes the count that is right by now, which makes no walk.
    fn step(&mut self, player: &mut Player, fronts: u64) {
        let length = *player.random.pick(&[30, 50, 72, 100, 200]);
        let answer = player.page_with(0, self.next, self.changes, length);
        match (answer >> 56, player.random.below(4)) {
            (0, _) if answer >> 32 < fronts => self.next = answer >> 32,
            (7, _) | (14, 0) => {}
            (14, 1) => self.changes = player.changes(0),
            _ => *self = Walk::begin(player),
        }
    }
}

/// Two walks of image 0 by turns. Image 1 has some of its members, and image 2 is a target.
fn walks(player: &mut Player, pool: &Pool, how_many: usize) {
    let shape = pool.shape;
    calls(player, 0, pool, how_many / 4);
    player.copy(0, 1);
    player.new_image(2, shape.length());
    fill(player, 0, pool);
    let mut walks = [Walk::begin(player), Walk::begin(player)];
    for _ in 0..how_many / 2 {
        let turn = player.random.below(2) as usize;
        walks[turn].step(player, shape.fronts());
        between(player, pool);
    }
}

/// What comes between two pages of a walk: mostly nothing that changes image 0, else a change, one
/// that is undone at once, or another start for image 0.
fn between(player: &mut Player, pool: &Pool) {
    let g = pool.fingerprint(&mut player.random);
    match player.random.below(24) {
        0 | 1 => call(player, 0, pool, 50),
        2 => delete_a_member(player, 0, pool),
        3 => {
            player.insert(0, g);
            player.delete(0, g);
        }
        4 | 5 => start_anew(player, pool),
        6 | 7 => {
            player.merge(0, 1, 2);
        }
        8 | 9 => refused_change(player, pool),
        10..=12 => player.look(0, g),
        13 => {
            player.check(0);
        }
        14 => tail(player, 0),
        15 | 16 => page(player, 0, pool, g.front),
        _ => {}
    }
}

/// Image 0 fresh, merged anew, moved to the old form and back, near the top change count, or with a
/// total at its bound.
fn start_anew(player: &mut Player, pool: &Pool) {
    let near = player.random.below(3);
    match player.random.below(6) {
        0 => {
            player.play(Line::Fresh { x: 0 });
            fill(player, 0, pool);
        }
        1 => {
            player.merge(1, 1, 0);
        }
        2 => {
            player.new_image(2, pool.shape.old_length());
            player.detach(0, 2);
            player.attach(2, 0);
            player.new_image(2, pool.shape.length());
        }
        3 => player.put_changes(0, u64::MAX - near),
        4 => player.put_total(0, 0),
        _ => player.put_total(0, pool.shape.slots()),
    }
}

/// An insert that is full, or a delete of a value that is not there.
fn refused_change(player: &mut Player, pool: &Pool) {
    let front = *player.random.pick(&pool.fronts);
    let (mini, tag) = (20, 65534);
    let g = Fingerprint { front, mini, tag };
    match inserted(&player.images.image[0], pool.shape, g) {
        Ok(_) => player.delete(0, g),
        Err(_) => player.insert(0, g),
    };
}

/// Image 0 with front buckets of b0 = b1 filled. Again and again one of these gets a choice 0 crumb,
/// for calls, merges and moves; image 1 stays sound, and image 2 is a target.
fn coinciding(player: &mut Player, pool: &Pool, how_many: usize) {
    for _ in 0..2 {
        fill(player, 0, pool);
        calls(player, 0, pool, how_many / 8);
    }
    for _ in 0..how_many / 40 {
        player.copy(0, 1);
        if player.random.one_in(3) {
            scramble(player, 0, pool);
        }
        carry_choice_0(player, 0, pool);
        around(player, pool);
        player.check(0);
        merged_with_choice_0(player, pool);
        moved_with_choice_0(player, pool);
        player.copy(1, 0);
        around(player, pool);
        delete_a_member(player, 0, pool);
        calls(player, 0, pool, 4);
    }
}

/// Gives one member behind the pool's first front bucket, which has b0 = b1, a choice 0 crumb: mostly
/// one of its own. Nothing else makes the bucket unsound.
fn carry_choice_0(player: &mut Player, x: usize, pool: &Pool) {
    let (f, shape) = (pool.fronts[0], pool.shape);
    let (first, second) = (shape.first_home(f), shape.second_home(f));
    let Ok(mut there) = read_backyard(&player.images.image[x], shape, first.bucket) else {
        return;
    };
    let is_own = |&at: &usize| there[at].crumb == second.crumb;
    let own: Vec<usize> = (0..there.len()).filter(is_own).collect();
    let random = &mut player.random;
    let at = match own[..] {
        [] if there.is_empty() => return,
        [] => random.below(there.len() as u64) as usize,
        _ if random.one_in(5) => random.below(there.len() as u64) as usize,
        _ => *random.pick(&own),
    };
    there[at].crumb = first.crumb;
    player.put_backyard(x, first.bucket, there);
}

/// Calls on every front bucket of the pool: members in front and behind, and others.
fn around(player: &mut Player, pool: &Pool) {
    for &front in &pool.fronts {
        let (mini, tag) = *player.random.pick(&pool.values);
        for (mini, tag) in [(mini, tag), (35, 65535)] {
            let g = Fingerprint { front, mini, tag };
            player.look(0, g);
            match player.random.below(3) {
                0 => player.insert(0, g),
                1 => player.delete(0, g),
                _ => 0,
            };
        }
        page(player, 0, pool, front);
    }
}

/// Merges of image 0 with image 1 and with itself, and the calls go on with what they leave.
fn merged_with_choice_0(player: &mut Player, pool: &Pool) {
    player.new_image(2, pool.shape.length());
    for (x, y) in [(0, 1), (1, 0), (1, 1)] {
        player.merge(x, y, 2);
    }
    calls(player, 2, pool, 3);
}

/// Image 0 to the old form; then image 1, and back from there, mostly with a choice 0 crumb.
fn moved_with_choice_0(player: &mut Player, pool: &Pool) {
    player.new_image(2, pool.shape.old_length());
    player.detach(0, 2);
    player.detach(1, 2);
    if !player.random.one_in(3) {
        carry_choice_0(player, 2, pool);
    }
    player.attach(2, 0);
    player.check(0);
}

fn merges(player: &mut Player, pool: &Pool) {
    for (x, y, z) in [(0, 1, 2), (0, 0, 2), (1, 0, 2)] {
        player.merge(x, y, z);
    }
    calls(player, 2, pool, 15);
    player.check(2);
}

/// Every call on an image of a wrong length, an old image among these, then merges with one of
/// another shape.
fn lengths(player: &mut Player, pool: &Pool, how_many: usize) {
    let b = pool.shape.b;
    let (old, good) = (pool.shape.old_length(), pool.shape.length());
    let near = good + player.random.below(1200) as usize - 600;
    let near = near.min(Shape { b: 112 }.length());
    for wrong in [0, 1, 63, 64, 511, 512, 576, old, good - 1, good + 1, near] {
        player.new_image(1, wrong);
        player.play(Line::Fresh { x: 1 });
        calls(player, 1, pool, 3);
        player.check(1);
        player.page(1, pool.shape.fronts() + 1, 4);
        tail(player, 1);
        player.fresh(2, b);
        for (x, y, z) in [(0, 0, 1), (0, 1, 2), (1, 0, 2), (1, 1, 2)] {
            player.merge(x, y, z);
        }
    }
    calls(player, 0, pool, how_many / 4);
    let other = Shape { b: b % 112 + 1 };
    player.fresh(1, other.b);
    player.put_byte(1, 0, 0, 0);
    spoil(player, 1);
    for (x, y, z) in [(0, 0, 1), (0, 1, 2), (1, 0, 2), (1, 1, 2)] {
        player.merge(x, y, z);
    }
}

/// Plays a history of about so many calls on images of one shape.
pub fn play(player: &mut Player, kind: Kind, b: u64, how_many: usize) {
    let shape = Shape { b };
    let pool = match kind {
        Kind::Coinciding => Pool::coinciding(shape, &mut player.random),
        _ => Pool::new(shape, &mut player.random),
    };
    player.fresh(0, b);
    match kind {
        Kind::Plain => {
            calls(player, 0, &pool, how_many);
            player.tail(0, 2);
        }
        Kind::Merging => {
            let other = Pool::new(shape, &mut player.random);
            player.fresh(1, b);
            player.new_image(2, shape.length());
            merges(player, &pool);
            calls(player, 0, &pool, how_many / 3);
            player.merge(0, 1, 2);
            let shared = player.random.one_in(2);
            calls(player, 1, if shared { &pool } else { &other }, how_many / 3);
            merges(player, &pool);
            calls(player, 2, &pool, how_many / 4);
        }
        Kind::Damaged => {
            player.new_image(2, shape.length());
            calls(player, 0, &pool, how_many / 2);
            player.copy(0, 1);
            for _ in 0..how_many / 12 {
                for _ in 0..1 + player.random.below(2) {
                    let table = pool.table(&mut player.random);
                    damage(player, 0, table);
                }
                calls(player, 0, &pool, 5);
                match player.random.below(6) {
                    0 => player.merge(0, 1, 2),
                    1 => player.merge(1, 0, 2),
                    _ => 0,
                };
                if player.random.one_in(2) {
                    player.copy(1, 0);
                }
            }
        }
        Kind::Unchecked => {
            for x in 0..2 {
                player.fresh(x, b);
                for &f in &pool.fronts {
                    let members = any_front(player, &pool);
                    player.put_front(x, f, members);
                    for home in [shape.first_home(f), shape.second_home(f)] {
                        let members = any_backyard(player, &pool, home.bucket);
                        player.put_backyard(x, home.bucket, members);
                    }
                }
                player.check(x);
            }
            player.fresh(2, b);
            merges(player, &pool);
            calls(player, 0, &pool, how_many);
        }
        Kind::Early => {
            calls(player, 0, &pool, how_many * 2 / 3);
            player.copy(0, 1);
            for _ in 0..how_many / 20 {
                scramble(player, 0, &pool);
                player.check(0);
                calls(player, 0, &pool, 4);
            }
            player.fresh(2, b);
            merges(player, &pool);
        }
        Kind::Lengths => lengths(player, &pool, how_many),
        Kind::Tails => tails(player, &pool, how_many),
        Kind::Moves => moves(player, &pool, how_many),
        Kind::Walks => walks(player, &pool, how_many),
        Kind::Coinciding => coinciding(player, &pool, how_many),
    }
}

#[cfg(test)]
mod tests {
    use super::*;
    use crate::branches;
    use crate::stored::Images;
    use std::collections::BTreeSet;

    #[test]
    fn every_branch_of_tails_walks_and_coinciding() {
        let mut met = BTreeSet::new();
        let mut numbers = BTreeSet::new();
        let mut before = Images::default();
        let mut observer = |line: Line, answer: u64, images: &Images| {
            if line.is_call() {
                met.extend(branches::of(&before, line, answer >> 56));
                numbers.insert(answer >> 56);
            }
            before = images.clone();
        };
        let mut player = Player::new(1, &mut observer);
        for round in 0..40 {
            for kind in KINDS {
                play(&mut player, kind, 1 + round % 8, 200);
            }
        }
        let all = branches::TAILS.iter().chain(branches::WALKS);
        let all = all.chain(branches::COINCIDING);
        let all = all.map(|name| name.to_string());
        let missing: Vec<String> = all.filter(|name| !met.contains(name)).collect();
        assert!(missing.is_empty(), "missing: {missing:#?}");
        assert_eq!(numbers, (0..=8).chain(11..=14).collect());
    }
}
