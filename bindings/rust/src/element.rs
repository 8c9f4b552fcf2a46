use crate::call::Type;
use crate::refusal::Refusal;

/// A number that is an element of a collective, as its little-endian bytes.
pub trait Element: Copy + sealed::Bytes {
    /// Its type in a [`Call`](crate::Call).
    const TYPE: Type;
    /// How many bytes it has.
    const BYTES: usize;
}

mod sealed {
    pub trait Bytes {
        fn put(self, bytes: &mut Vec<u8>);
        /// `bytes` has as many as one element.
        fn get(bytes: &[u8]) -> Self;
    }
}

macro_rules! elements {
    ($($number:ident is $ty:ident),*) => {$(
        impl Element for $number {
            const TYPE: Type = Type::$ty;
            const BYTES: usize = size_of::<$number>();
        }

        impl sealed::Bytes for $number {
            fn put(self, bytes: &mut Vec<u8>) {
                bytes.extend_from_slice(&self.to_le_bytes());
            }

            fn get(bytes: &[u8]) -> $number {
                $number::from_le_bytes(bytes.try_into().expect("the bytes of one element"))
            }
        }
    )*};
}

// tools/words: elements
elements!(i8 is I8, i16 is I16, i32 is I32, i64 is I64, u8 is U8, u16 is U16, u32 is U32, u64 is U64);
// tools/words: end of elements

/// The bytes of elements, as a post or a start takes them.
///
/// ```
/// assert_eq!(worzsunab::bytes_of(&[1_i16, -1]), [1, 0, 255, 255]);
/// ```
pub fn bytes_of<T: Element>(values: &[T]) -> Vec<u8> {
    let mut bytes = Vec::with_capacity(values.len() * T::BYTES);
    for value in values {
        value.put(&mut bytes);
    }
    bytes
}

/// The elements that bytes of an outcome are.
///
/// # Errors
///
/// BadLength where some bytes are left: the last element wants as many as its type has, and has got those.
///
/// ```
/// assert_eq!(worzsunab::values_of(&[1, 0, 255, 255]), Ok(vec![1_i16, -1]));
/// ```
pub fn values_of<T: Element>(bytes: &[u8]) -> Result<Vec<T>, Refusal> {
    let elements = bytes.chunks_exact(T::BYTES);
    match elements.remainder().len() {
        0 => Ok(elements.map(T::get).collect()),
        got => Err(Refusal::BadLength { want: T::BYTES as u32, got }),
    }
}
