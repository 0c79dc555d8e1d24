//! Opens a page and says what it holds, or where it stops being a page.
//!
//!     cargo run --example open FILE
use std::error::Error;
use std::{env, fs};
use yexwalu::{page_stops, Heap};

fn main() -> Result<(), Box<dyn Error>> {
    let path = env::args_os().nth(1).ok_or("open FILE")?;
    let text = fs::read(path)?;
    let heap = match Heap::open(&text) {
        Ok(heap) => heap,
        Err(why) => {
            let hint = page_stops(&text).map(|place| format!(", {place}")).unwrap_or_default();
            return Err(format!("{why}{hint}").into());
        }
    };
    println!("{} slots, {} objects", heap.slots()?, heap.live()?);
    for object in heap.view()? {
        println!("slot {}, handle {}: {:?}, {:?}", object.slot(), object.handle(), object.kind(), object.data().unwrap_or_default());
    }
    Ok(())
}
