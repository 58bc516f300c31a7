//! Numbers as texts, and numbers by lot.
use super::rattle_std::itoa::Buffer;
use super::rattle_std::random::{Pcg32, Rng, RngExt, SliceRandom};
use super::{Drawn, OPERATIONS};

#[test]
fn numbers_are_written_as_rust_writes_them() {
    let mut drawn = Drawn::of(1);
    let edges = (0..64).flat_map(|bit| [(1u64 << bit) - 1, 1 << bit]).chain([u64::MAX]);
    let tens = (0..20).flat_map(|power| [10u64.pow(power) - 1, 10u64.pow(power)]);
    let others = (0..10_000).map(|number| drawn.below(u64::MAX) >> (number % 60));
    for number in edges.chain(tens).chain(others) {
        assert_eq!(Buffer::new().format(number), number.to_string());
        assert_eq!(Buffer::new().format(number as u32), (number as u32).to_string());
        assert_eq!(Buffer::new().format(number as usize), (number as usize).to_string());
    }
}

#[test]
fn the_generator_gives_the_numbers_of_its_author() {
    // O'Neill's demo of PCG-XSH-RR with 64 bits of state: the seed 42 and the stream 54.
    let mut numbers = Pcg32::new(42, 54);
    let wanted = [0xa15c_02b7, 0x7b47_f409, 0xba1d_3330, 0x83d2_f293, 0xbfa4_784b, 0xcbed_606e];
    assert_eq!(wanted.map(|_| numbers.next_u32()), wanted);
}

/// The generator by which the crate `rand` tests that its numbers stay the same from version to version. The numbers
/// that are wanted below are those of its tests.
fn numbers_of_rand(seed: u64) -> Pcg32 {
    Pcg32::new(seed, 11_634_580_027_462_260_723)
}

#[test]
fn words_are_those_of_rand() {
    let mut numbers = numbers_of_rand(807);
    assert_eq!([numbers.next_u32(), numbers.next_u32()], [2_220_326_409, 2_575_017_975]);
    assert_eq!(numbers_of_rand(807).next_u64(), 11_059_617_991_457_472_009);
    // A range of all numbers of a type takes a word as it is, or its lower part.
    let mut numbers = numbers_of_rand(807);
    assert_eq!([(); 3].map(|()| numbers.random_range(0..=u8::MAX)), [9, 247, 111]);
    assert_eq!(numbers_of_rand(807).random_range(0..=u32::MAX), 2_220_326_409);
    assert_eq!(numbers_of_rand(807).random_range(0..=usize::MAX), 11_059_617_991_457_472_009);
}

#[test]
fn numbers_of_ranges_are_those_of_rand() {
    // -105 to 111 there.
    let mut numbers = numbers_of_rand(897);
    assert_eq!([(); 3].map(|()| numbers.random_range(0..=216u8)), [6, 57, 212]);
    let mut numbers = numbers_of_rand(897);
    assert_eq!([(); 3].map(|()| numbers.random_range(0..217u32)), [6, 57, 212]);
    let mut numbers = numbers_of_rand(897);
    assert_eq!([(); 3].map(|()| numbers.random_range(0..=216usize)), [6, 57, 212]);
    // 131521 to 6542165 there, by words of 64 bits, which only an end of more than 32 bits takes here.
    let (begin, count) = (1usize << 40, 6_542_166 - 131_521);
    let wanted = [1_838_724, 5_384_489].map(|number| begin + number - 131_521);
    let mut numbers = numbers_of_rand(897);
    assert_eq!([(); 2].map(|()| numbers.random_range(begin..begin + count)), wanted);
    let mut numbers = numbers_of_rand(897);
    assert_eq!([(); 2].map(|()| numbers.random_range(begin..=begin + count - 1)), wanted);
    // The places that are chosen there in lists of 14 and of 13 items.
    let mut numbers = numbers_of_rand(413);
    assert_eq!([numbers.random_range(0..14usize), numbers.random_range(0..13)], [11, 3]);
}

#[test]
fn numbers_of_long_ranges_take_a_second_word() {
    // A number takes one word, or two where the first leaves open whether to round up. All cases are among these, which
    // were calculated apart from this.
    let mut numbers = numbers_of_rand(1);
    let wanted = [409_650_719, 679_234_276, 228_267_651, 1_249_490_429, 1_106_454_280, 542_297_693, 2_506_000_196];
    assert_eq!(wanted.map(|_| numbers.random_range(0..3_000_000_001u32)), wanted);
    let mut numbers = numbers_of_rand(1);
    let wanted = [12_836_549_686_713_628_581, 5_762_257_540_714_888_594, 3_546_022_674_158_649_698];
    assert_eq!(wanted.map(|_| numbers.random_range(0..3usize << 62)), wanted);
}

#[test]
fn shuffles_are_those_of_rand() {
    let mut list: Vec<u32> = (0..13).collect();
    list.shuffle(&mut numbers_of_rand(414));
    assert_eq!(list, [5, 11, 0, 8, 7, 12, 6, 4, 9, 3, 1, 2, 10]);
}

#[test]
#[should_panic = "no number is in an empty range"]
fn an_empty_range_gives_no_number() {
    let begin = 3usize;
    Pcg32::new(1, 1).random_range(begin..begin);
}

#[test]
fn a_range_gives_each_of_its_numbers_about_as_often() {
    let mut numbers = Pcg32::new(1, 1);
    let mut counts = [0u64; 10];
    for _ in 0..OPERATIONS {
        counts[numbers.random_range(0..10usize)] += 1;
        assert!((3..=5).contains(&numbers.random_range(3..=5u32)));
        assert_eq!(numbers.random_range(7..=7u8), 7);
    }
    assert!(counts.iter().all(|&count| count.abs_diff(OPERATIONS / 10) < OPERATIONS / 100), "{counts:?}");
}

#[test]
fn a_shuffle_gives_each_order_about_as_often() {
    let mut numbers = Pcg32::new(2, 2);
    let mut counts = [[0u64; 4]; 4];
    for _ in 0..OPERATIONS {
        let mut list = [0, 1, 2, 3];
        list.shuffle(&mut numbers);
        for (place, item) in list.into_iter().enumerate() {
            counts[place][item] += 1;
        }
    }
    let wanted = OPERATIONS / 4;
    assert!(counts.iter().flatten().all(|&count| count.abs_diff(wanted) < wanted / 25), "{counts:?}");
    let mut long: Vec<usize> = (0..10_000).collect();
    long.shuffle(&mut numbers);
    assert!(long.iter().enumerate().filter(|(place, item)| place == *item).count() < 20);
    long.sort_unstable();
    assert!(long.into_iter().eq(0..10_000));
}
