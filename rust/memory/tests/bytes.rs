//! Memory as bytes: the same memory as its words, no byte more and none less.

use lyra2_memory::Memory;

#[test]
fn the_bytes_are_those_of_the_words() {
    for words in [0, 1, 7, 4096, (2 << 20) / 8 + 3] {
        let mut memory = Memory::zeros(words).expect("a few megabytes");
        assert_eq!(memory.bytes(), vec![0; 8 * words]);
        for (place, byte) in memory.bytes_mut().iter_mut().enumerate() {
            *byte = (place % 251) as u8;
        }
        let bytes: Vec<u8> = memory.iter().flat_map(|word| word.to_le_bytes()).collect();
        assert_eq!(memory.bytes(), bytes);
        assert!(bytes
            .iter()
            .enumerate()
            .all(|(place, byte)| *byte == (place % 251) as u8));
        if let Some(word) = memory.last_mut() {
            *word = 0x0102_0304_0506_0708;
            let end = &memory.bytes()[8 * (words - 1)..];
            assert_eq!(end, [8, 7, 6, 5, 4, 3, 2, 1]);
        }
    }
}
