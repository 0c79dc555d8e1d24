//! Makes a heap and saves it as a page, a file of text.
//!
//!     cargo run --example save FILE
use std::error::Error;
use std::path::PathBuf;
use std::{env, fs};
use yexwalu::{Heap, Kind};

fn main() -> Result<(), Box<dyn Error>> {
    let path = PathBuf::from(env::args_os().nth(1).ok_or("save FILE")?);
    let mut heap = Heap::new(1, 64, 4096)?;
    let hall = heap.alloc(Kind::Bytes, b"reverberation")?;
    // 24 bytes that are no handles, then handles
    let mut list = vec![0; 24];
    list.extend(hall.0.to_le_bytes());
    heap.alloc(Kind::Handles, &list)?;
    heap.seal()?;
    let page = heap.write_page()?;
    assert_eq!(page.len(), heap.page_length()?);
    fs::write(&path, &page)?;
    println!("{}: {} bytes", path.display(), page.len());
    Ok(())
}
