//! Two pages beside each other: whether they hold the same model, and which comes first.
use crate::types::Types;
use std::cmp::Ordering;
use yexwalu::{Handle, Heap, Refusal, TypeTable};

/// The handles of a list as it is given: decimals between commas. None where it is no such list.
pub fn handles(list: &str) -> Option<Vec<Handle>> {
    // a number may not have a sign
    let number = |word: &str| word.bytes().all(|b| b.is_ascii_digit()).then(|| word.parse().ok())?.map(Handle);
    list.split(',').map(number).collect()
}

/// Where the comparison of a page starts: the handles that were given, or those that the page has sealed, in their order. None where there are neither.
pub fn roots(heap: &Heap, given: Option<&[Handle]>) -> Result<Option<Vec<Handle>>, Refusal> {
    if let Some(given) = given {
        return Ok(Some(given.to_vec()));
    }
    let sealed = heap.view()?.sealed();
    Ok((!sealed.is_empty()).then(|| sealed.to_vec()))
}

/// A page: its heap, and where the comparison starts.
pub type Side = (Heap, Vec<Handle>);

/// What is printed: the proved order of the two, which is equal just where they hold the same model.
pub fn verdict(types: &Types, a: &Side, b: &Side) -> Result<&'static str, Refusal> {
    Ok(match ordered(types, a, b)? {
        Ordering::Less => "different: less",
        Ordering::Equal => "same",
        Ordering::Greater => "different: greater",
    })
}

/// Is it this page that is refused? It is, where it can't be compared with itself.
pub fn refuses(types: &Types, side: &Side) -> bool {
    ordered(types, side, side).is_err()
}

fn ordered(types: &Types, a: &Side, b: &Side) -> Result<Ordering, Refusal> {
    let none = TypeTable::new();
    a.0.order(types.table().unwrap_or(&none), &a.1, &b.0, &b.1)
}
