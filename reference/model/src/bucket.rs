//! The 64 bytes of a bucket, decoded to its members and encoded again.

use crate::shape::{Shape, BACKYARD_SLOTS, BUCKET, FRONT_SLOTS, MINIS};

/// A member as its bucket knows it, in the order of the bucket. The crumb of a member of a
/// front bucket is 0.
#[derive(Clone, Copy, PartialEq, Eq, PartialOrd, Ord, Debug)]
pub struct Member {
    pub mini: u64,
    pub tag: u64,
    pub crumb: u64,
}

/// The bytes of a bucket.
pub type Bytes = [u8; BUCKET];

/// Bit number `bit` of the word in bytes 0 to 7.
fn bit_of(bytes: &Bytes, bit: usize) -> u8 {
    bytes[bit / 8] / 2u8.pow(bit as u32 % 8) % 2
}

/// The mini-bucket of each member, in order: the zeros before the last of 36 ones.
fn minis_of(bytes: &Bytes) -> Option<Vec<u64>> {
    let mut minis = Vec::new();
    let mut ones = 0;
    for bit in 0..64 {
        if bit_of(bytes, bit) == 1 {
            ones += 1;
        } else if ones < MINIS {
            minis.push(ones);
        }
    }
    (ones == MINIS).then_some(minis)
}

fn tag_of(bytes: &Bytes, slot: usize) -> u64 {
    bytes[8 + 2 * slot] as u64 + 256 * bytes[9 + 2 * slot] as u64
}

fn crumb_of(bytes: &Bytes, slot: usize) -> u64 {
    let byte = bytes[52 + slot / 2] as u64;
    match slot % 2 {
        0 => byte % 16,
        _ => byte / 16,
    }
}

fn ascends(members: &[Member]) -> bool {
    members.windows(2).all(|pair| pair[0] <= pair[1])
}

/// The members of a front bucket, or nothing where it is unsound.
pub fn decode_front(bytes: &Bytes) -> Option<Vec<Member>> {
    let minis = minis_of(bytes)?;
    if minis.len() > FRONT_SLOTS {
        return None;
    }
    let member = |(slot, &mini)| Member {
        mini,
        tag: tag_of(bytes, slot),
        crumb: 0,
    };
    let members: Vec<Member> = minis.iter().enumerate().map(member).collect();
    // Unused bytes are 0 exactly when the members give these bytes again.
    (ascends(&members) && encode_front(&members) == *bytes).then_some(members)
}

/// The members of backyard bucket j, or nothing where it is unsound.
pub fn decode_backyard(bytes: &Bytes, j: u64, shape: Shape) -> Option<Vec<Member>> {
    let members = decode_any_crumbs(bytes)?;
    let valid = members.iter().all(|x| shape.front_of(j, x.crumb).is_some());
    valid.then_some(members)
}

/// Whether backyard bucket j is unsound for this alone: a choice 0 crumb whose front bucket has
/// b0 = b1.
pub fn carries_choice_0(bytes: &Bytes, j: u64, shape: Shape) -> bool {
    let was_valid = |x: &Member| shape.way_back(j, x.crumb).is_some();
    let before = decode_any_crumbs(bytes).filter(|members| members.iter().all(was_valid));
    before.is_some() && decode_backyard(bytes, j, shape).is_none()
}

/// The members of a backyard bucket that is sound as far as its crumbs need not be valid.
fn decode_any_crumbs(bytes: &Bytes) -> Option<Vec<Member>> {
    let minis = minis_of(bytes)?;
    if minis.len() > BACKYARD_SLOTS {
        return None;
    }
    let member = |(slot, &mini)| Member {
        mini,
        tag: tag_of(bytes, slot),
        crumb: crumb_of(bytes, slot),
    };
    let members: Vec<Member> = minis.iter().enumerate().map(member).collect();
    // Unused bytes and halves are 0 exactly when the members give these bytes again.
    (ascends(&members) && encode_backyard(&members) == *bytes).then_some(members)
}

/// The word and the tags of these members, everything else 0.
fn encode_word_and_tags(members: &[Member]) -> Bytes {
    let mut bits = Vec::new();
    for mini in 0..MINIS {
        let here = members.iter().filter(|x| x.mini == mini).count();
        bits.extend(vec![0; here]);
        bits.push(1);
    }
    let mut bytes = [0; BUCKET];
    for (bit, value) in bits.into_iter().enumerate() {
        bytes[bit / 8] += value * 2u8.pow(bit as u32 % 8);
    }
    for (slot, member) in members.iter().enumerate() {
        bytes[8 + 2 * slot] = (member.tag % 256) as u8;
        bytes[9 + 2 * slot] = (member.tag / 256) as u8;
    }
    bytes
}

/// The bytes of a front bucket with these members, at most 28 and ascending.
pub fn encode_front(members: &[Member]) -> Bytes {
    encode_word_and_tags(members)
}

/// The bytes of a backyard bucket with these members, at most 22 and ascending.
pub fn encode_backyard(members: &[Member]) -> Bytes {
    let mut bytes = encode_word_and_tags(members);
    for (slot, member) in members.iter().enumerate() {
        let weight = if slot % 2 == 0 { 1 } else { 16 };
        bytes[52 + slot / 2] += member.crumb as u8 * weight;
    }
    bytes
}

#[cfg(test)]
mod tests {
    use super::*;

    fn word(bytes: &Bytes) -> u64 {
        u64::from_le_bytes(bytes[..8].try_into().unwrap())
    }

    fn one(mini: u64) -> Member {
        Member {
            mini,
            tag: 0,
            crumb: 0,
        }
    }

    #[test]
    fn words() {
        assert_eq!(word(&encode_front(&[])), (1 << 36) - 1);
        assert_eq!(word(&encode_front(&[one(0)])), (1 << 37) - 2);
        assert_eq!(word(&encode_front(&[one(35)])), (1 << 36) + (1 << 35) - 1);
    }

    #[test]
    fn zero_bytes_are_unsound() {
        assert_eq!(decode_front(&[0; 64]), None);
        assert_eq!(decode_backyard(&[0; 64], 0, Shape { b: 1 }), None);
    }

    #[test]
    fn members_by_leading_zeros() {
        for n in 0..=28 {
            let members: Vec<Member> = (0..n).map(|i| one(i % 36)).collect();
            let bytes = encode_front(&members);
            assert_eq!(28 - word(&bytes).leading_zeros() as u64, n);
            assert_eq!(decode_front(&bytes), Some(members));
        }
    }

    #[test]
    fn a_backyard_bucket_holds_22() {
        let shape = Shape { b: 2 };
        let full = encode_backyard(&[one(7); 22]);
        assert_eq!(decode_backyard(&full, 1, shape), Some(vec![one(7); 22]));
        let over = encode_front(&[one(7); 23]);
        assert_eq!(decode_backyard(&over, 1, shape), None);
    }

    /// With B = 3, crumb 1 in backyard bucket 1 is that of front bucket 9; in bucket 0 that of 1.
    #[test]
    fn choice_0_where_the_backyards_coincide() {
        let shape = Shape { b: 3 };
        let with = |crumb| Member { crumb, ..one(7) };
        let told = |j, members: &[Member]| {
            let bytes = encode_backyard(members);
            let sound = decode_backyard(&bytes, j, shape).is_some();
            (sound, carries_choice_0(&bytes, j, shape))
        };
        let (sound, unsound) = ((true, false), (false, false));
        for others in [vec![], vec![with(0), with(2), with(9)]] {
            let carrying = |crumb| {
                let mut members = [&others[..], &[with(crumb)]].concat();
                members.sort();
                members
            };
            assert_eq!(told(1, &others), sound);
            assert_eq!(told(1, &carrying(1)), (false, true));
            assert_eq!(told(0, &carrying(1)).0, others.is_empty());
            assert_eq!(told(1, &carrying(5)), sound);
            // Choice 1, past B; then a bucket that descends as well.
            assert_eq!(told(1, &carrying(11)), unsound);
            assert_eq!(told(1, &[with(2), with(1)]), unsound);
        }
        assert_eq!(told(8, &[with(1)]), unsound);
    }
}
