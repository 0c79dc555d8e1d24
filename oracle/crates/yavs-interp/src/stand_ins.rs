//! What heap.rs and roots.rs name of the interpreter, besides each other. They look for these modules at the top of the crate. bench/ has this file too.

pub mod exec {
    /// Stand-in: `{space: u8, index: u24, offset: u32}`.
    pub fn split(a: u64) -> (u8, u32, u32) {
        ((a >> 56) as u8, ((a >> 32) & 0xff_ffff) as u32, a as u32)
    }
}
pub mod reflect {
    /// Stand-in: mirrors are left out.
    pub fn mirror_handles(_: &yavs_ir::Program, _: &[u8], _: &mut Vec<u64>) -> bool {
        true
    }
}
pub mod state {
    pub struct BlockRef<'a>(pub &'a [u8]);
    pub struct Block(pub Vec<u8>);
    impl serde::Serialize for BlockRef<'_> {
        fn serialize<S: serde::Serializer>(&self, s: S) -> Result<S::Ok, S::Error> {
            s.bytes(self.0)
        }
    }
    impl<'de> serde::Deserialize<'de> for Block {
        fn from_opt(v: Option<Vec<u8>>) -> Option<Self> {
            v.map(Block)
        }
    }
}
