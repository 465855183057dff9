//! One thread stages a blob while another still steers by the old terrain; then
//! this one publishes it under the lock. Whoever looks at the terrain under that
//! lock finds the old one or the new, and never a part of each; a blob that is
//! refused changes nothing of it.
//!
//!     cargo run --example stage < image.lerc2

use lerc2::{publish, read_header, stage, Header, Published, Refusal, Staged};
use std::io::Read;
use std::process::ExitCode;
use std::sync::RwLock;
use std::thread;

/// What the unit steers by, behind a lock of the caller's own. Its room is there
/// from the start.
struct Terrain {
    mask: Vec<u8>,
    image: Vec<u64>,
}

/// A cell of the terrain before any blob.
const OLD: u64 = u64::MAX;

impl Terrain {
    fn with_room_for(header: &Header) -> Terrain {
        Terrain {
            mask: vec![0; header.mask_length()],
            image: vec![OLD; header.cells()],
        }
    }
}

/// What the loader hands over. Spare and list were its own until then.
struct Ready<'a> {
    blob: &'a [u8],
    staged: Staged,
    spare: Vec<u8>,
    list: Vec<usize>,
}

/// The loader: all of the checking. The terrain is lent for reading alone, under
/// a guard that the unit's own looks do not wait for: the kept mask for blobs
/// that reuse it, the image for its room.
fn load<'a>(terrain: &RwLock<Terrain>, blob: &'a [u8]) -> Result<Ready<'a>, Refusal> {
    let header = read_header(blob)?;
    let (mut spare, mut list) = (vec![0; header.mask_length()], vec![0; header.blocks()]);
    let terrain = terrain.read().expect("no thread failed");
    let (kept, image) = (&terrain.mask, &terrain.image);
    let staged = stage(blob, false, kept, &mut spare, &mut list, image)?;
    Ok(Ready {
        blob,
        staged,
        spare,
        list,
    })
}

/// The unit's own: all of the writing, while nobody looks.
fn take(terrain: &RwLock<Terrain>, ready: &Ready) -> Result<Published, Refusal> {
    let terrain = &mut *terrain.write().expect("no thread failed");
    let (blob, staged, spare, list) = (ready.blob, &ready.staged, &ready.spare, &ready.list);
    let (kept, image) = (&mut terrain.mask, &mut terrain.image);
    publish(blob, false, staged, kept, spare, list, image)
}

/// Steers by what is there: how many cells are not the old ones.
fn look(terrain: &RwLock<Terrain>) -> usize {
    let terrain = terrain.read().expect("no thread failed");
    terrain.image.iter().filter(|&&word| word != OLD).count()
}

/// Steers by the old terrain until the loader is done, then takes the new one.
fn steer(terrain: &RwLock<Terrain>, blob: &[u8]) -> Result<Published, Refusal> {
    let before = look(terrain);
    thread::scope(|scope| {
        let loader = scope.spawn(|| load(terrain, blob));
        while !loader.is_finished() {
            assert_eq!(look(terrain), before);
        }
        let ready = loader.join().expect("no thread failed")?;
        take(terrain, &ready)
    })
}

/// Fails where the blob is refused, with its number, its place and a sentence.
fn main() -> Result<ExitCode, Box<dyn std::error::Error>> {
    if !lerc2::float_ready() {
        return Err("the float unit rounds otherwise or flushes small numbers".into());
    }
    let mut blob = Vec::new();
    std::io::stdin().read_to_end(&mut blob)?;
    let told = |refusal: Refusal| {
        println!("{refusal}: {}", refusal.where_to_look());
        ExitCode::FAILURE
    };
    let header = match read_header(&blob) {
        Ok(header) => header,
        Err(refusal) => return Ok(told(refusal)),
    };
    let terrain = RwLock::new(Terrain::with_room_for(&header));

    // A blob that ends one byte early is refused where it is staged; an answer
    // that was spoilt since, where it is published. The terrain is the old one
    // after either.
    let cut = &blob[..blob.len().saturating_sub(1)];
    if let Err(refusal) = steer(&terrain, cut) {
        println!("one byte short: {refusal}: {}", refusal.where_to_look());
    }
    if let Ok(mut ready) = load(&terrain, &blob) {
        ready.staged.end += 1;
        if let Err(refusal) = take(&terrain, &ready) {
            println!("a spoilt answer: {refusal}: {}", refusal.where_to_look());
        }
    }
    assert_eq!(look(&terrain), 0);

    let published = match steer(&terrain, &blob) {
        Ok(published) => published,
        Err(refusal) => return Ok(told(refusal)),
    };
    let terrain = terrain.into_inner()?;
    for (cell, &word) in terrain.image.iter().enumerate().take(10) {
        let pixel = cell / header.depth as usize;
        if lerc2::is_valid(&terrain.mask, pixel) {
            println!("cell {cell}: {}", header.kind.number(word));
        } else {
            println!("cell {cell}: not valid");
        }
    }
    println!("{} of {} cells", published.words, header.cells());
    Ok(ExitCode::SUCCESS)
}
