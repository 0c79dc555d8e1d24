//! The type table that objects are shown by, where one is given.
use crate::input::plain;
use crate::seen::Object;
use yexwalu::{CheckedTable, Handle, Heap, Kind, Refusal, TypeId, TypeTable};

/// A type table and the names of its types.
#[derive(Default)]
pub struct Types {
    // checked once for all objects
    table: Option<CheckedTable>,
    names: Vec<String>,
}

impl Types {
    /// The table of a text.
    pub fn read(text: &[u8]) -> Result<Types, Refusal> {
        let (table, names) = TypeTable::read_text(text)?;
        let types = names.split(|b| *b == b'\n').take(table.types.len() / 4);
        Ok(Types { names: types.map(|name| plain(&String::from_utf8_lossy(name))).collect(), table: Some(table.checked()?) })
    }

    /// The table, where one was given.
    pub fn table(&self) -> Option<&TypeTable> {
        self.table.as_deref()
    }

    /// The handles that an object shows. Those of an object of a type are found by the table alone, and where it shows nothing there are none.
    pub fn handles(&self, heap: &Heap, object: &Object) -> Result<Vec<Handle>, Refusal> {
        match (object.kind, &self.table, object.data) {
            (Kind::Typed(ty), Some(table), Some(data)) => table.object_handles(ty, data),
            (Kind::Typed(_), ..) => Ok(Vec::new()),
            // no type is looked at
            _ => heap.slot_handles(&TypeTable::new(), object.slot),
        }
    }

    /// The name of a type, if it has one.
    pub fn name(&self, ty: TypeId) -> &str {
        self.names.get(ty as usize).map_or("", String::as_str)
    }
}
