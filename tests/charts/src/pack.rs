/// Packs fields, each with its width in bits, without gaps and most significant bit first.
pub fn pack(fields: &[(u32, u64)]) -> [u8; 8] {
    let mut word = 0;
    let mut filled = 0;
    for &(width, value) in fields {
        assert!(value < 1 << width, "{value} does not fit into {width} bits");
        word = word << width | value;
        filled += width;
    }
    assert_eq!(filled, 64, "the fields fill 64 bits");
    word.to_be_bytes()
}
