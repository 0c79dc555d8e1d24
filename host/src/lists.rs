//! Lists of numbers as lists of what they are, where they lie: a host keeps a list as numbers or as handles and slots, and nothing is copied.

// For a type that is its number: `repr(transparent)`, with one public field, so that each number is one of it.
macro_rules! lists {
    ($name:ident, $number:ty, $what:literal) => {
        impl $name {
            #[doc = concat!("Numbers as ", $what, ", where they lie.\n\n```\nuse yexwalu::", stringify!($name), ";\nassert_eq!(", stringify!($name), "::list(&[7, 8])[1], ", stringify!($name), "(8));\n```")]
            pub fn list(numbers: &[$number]) -> &[$name] {
                // SAFETY: the type is its number, so so many of them lie there, and stay borrowed as they were.
                unsafe { std::slice::from_raw_parts(numbers.as_ptr().cast(), numbers.len()) }
            }

            #[doc = concat!("As `list`, for an output that a call fills with ", $what, ".\n\n```\nuse yexwalu::", stringify!($name), ";\nlet mut out = [0; 2];\n", stringify!($name), "::list_mut(&mut out)[1] = ", stringify!($name), "(8);\nassert_eq!(out, [0, 8]);\n```")]
            pub fn list_mut(numbers: &mut [$number]) -> &mut [$name] {
                // SAFETY: as above; whatever is written there is a number.
                unsafe { std::slice::from_raw_parts_mut(numbers.as_mut_ptr().cast(), numbers.len()) }
            }

            #[doc = concat!("The numbers of a list of ", $what, ", where they lie.\n\n```\nuse yexwalu::", stringify!($name), ";\nassert_eq!(", stringify!($name), "::numbers(&[", stringify!($name), "(7)]), [7]);\n```")]
            pub fn numbers(list: &[$name]) -> &[$number] {
                // SAFETY: as above.
                unsafe { std::slice::from_raw_parts(list.as_ptr().cast(), list.len()) }
            }
        }
    };
}

pub(crate) use lists;
