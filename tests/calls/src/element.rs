//! The numbers that buffers are made of, as bytes.

/// A number of a buffer. The bytes are in the order of both machines that the kit knows, the lowest first.
pub trait Element: Copy {
    const SIZE: usize;

    fn bytes(self) -> Vec<u8>;

    fn of(bytes: &[u8]) -> Self;
}

macro_rules! element {
    ($($number:ty),*) => {$(
        impl Element for $number {
            const SIZE: usize = size_of::<$number>();

            fn bytes(self) -> Vec<u8> {
                self.to_le_bytes().to_vec()
            }

            fn of(bytes: &[u8]) -> $number {
                <$number>::from_le_bytes(bytes.try_into().expect("an element has its size"))
            }
        }
    )*};
}

element!(u8, u16, u32, u64, i64);

/// All elements as bytes, one after the other.
pub fn flat<T: Element>(elements: &[T]) -> Vec<u8> {
    elements.iter().flat_map(|&element| element.bytes()).collect()
}

/// What stands in a buffer before anything is written: bytes that count up from the first, so that none is the one beside it.
pub fn filled<T: Element>(length: usize, first: u8) -> Vec<T> {
    let bytes: Vec<u8> = (0..length * T::SIZE)
        .map(|place| first.wrapping_add(place as u8))
        .collect();
    bytes.chunks_exact(T::SIZE).map(T::of).collect()
}
