//! A walk over the members that notices a change: a reading is filed in the middle of a walk, which
//! then ends with a refusal, and a second walk lists them all.

use breadcrumb::{Image, Refusal, Walk};

const B: usize = 20;
const READINGS: u64 = 2000;

/// Readings spread over the front buckets.
fn hash_of(reading: u64) -> u64 {
    reading.wrapping_mul(0x9E3779B97F4A7C15)
}

/// Goes on with a walk to its end: how many members it yielded.
fn finish(walk: &mut Walk, image: &Image) -> Result<usize, Refusal> {
    let mut members = 0;
    for member in walk.over(image) {
        match member {
            Ok(_) => members += 1,
            Err(refusal) => {
                println!("{members} members later, {refusal}");
                return Err(refusal);
            }
        }
    }
    Ok(members)
}

fn main() -> Result<(), Refusal> {
    let mut image = Image::new(B)?;
    for reading in 0..READINGS {
        image.insert(hash_of(reading))?;
    }

    // The image is lent to the walk only as long as each iterator lives.
    let mut walk = image.walk()?;
    let first: Vec<u64> = walk.over(&image).take(300).collect::<Result<_, _>>()?;
    println!("{} members, up to {}", first.len(), first[first.len() - 1]);

    // Looking does not disturb the walk; filing does, once its next page is read.
    image.ask(hash_of(7))?;
    image.insert(hash_of(READINGS))?;
    println!("one more reading is filed");
    let mut walked = finish(&mut walk, &image);
    println!("and then: {:?}", walk.next(&image));

    // Whoever wants all members as they stand now begins anew, as often as it takes.
    while walked == Err(Refusal::Changed) {
        println!("the walk begins anew");
        walk = image.walk()?;
        walked = finish(&mut walk, &image);
    }
    println!("{} members", walked?);
    Ok(())
}
