//! A million packed divisions, and every byte in every place, against decimal text and the machine's division.
//!
//! Would catch a packed quotient or remainder with a wrong digit, half bytes or bytes in a wrong order, the two exchanged, a half byte above
//! 9 that is let through, a wrong place of it, a zero divisor that is refused before it or not at all, values beside a refusal, and a byte
//! that is read or written outside the two operands. Bytes and numbers are made from each other through decimal text, and the numbers are
//! divided by the machine. The draws are from the fixed seed below.
use host::calls::{divide_packed, Packed};
use host::draw::Draw;

const SEED: u64 = 0x5EED_1000;
const END: u64 = 10_000_000_000_000_000;

/// The sixteen digits as text, each pair of them written as hexadecimal: a byte.
fn packed(number: u64) -> [u8; 8] {
    let text = format!("{number:016}");
    std::array::from_fn(|i| u8::from_str_radix(&text[2 * i..2 * i + 2], 16).unwrap())
}

/// Both operands as the text of their 32 half bytes.
fn text(dividend: &[u8; 8], divisor: &[u8; 8]) -> String {
    dividend.iter().chain(divisor).map(|byte| format!("{byte:02x}")).collect()
}

/// The answer, from the text of the operands: a letter in it is a half byte above 9, and two of its characters are a byte.
fn expected(dividend: &[u8; 8], divisor: &[u8; 8]) -> Packed {
    let text = text(dividend, divisor);
    if let Some(at) = text.find(|c: char| !c.is_ascii_digit()) {
        return Packed { refusal: 15, place: at as u64 / 2, ..Packed::default() };
    }
    let (a, b): (u64, u64) = (text[..16].parse().unwrap(), text[16..].parse().unwrap());
    match b {
        0 => Packed { refusal: 5, ..Packed::default() },
        _ => Packed { quotient: packed(a / b), remainder: packed(a % b), ..Packed::default() },
    }
}

fn check(dividend: [u8; 8], divisor: [u8; 8]) {
    assert_eq!(divide_packed(&dividend, &divisor), expected(&dividend, &divisor), "{}", text(&dividend, &divisor));
}

/// A number below 10^16 of any length in digits.
fn any(draw: &mut Draw) -> u64 {
    draw.below(END) / 10u64.pow(draw.below(17) as u32)
}

#[test]
fn drawn_numbers() {
    let mut draw = Draw::new(SEED);
    for _ in 0..200_000 {
        let (a, b) = (any(&mut draw), any(&mut draw));
        check(packed(a), packed(b));
        check(packed(a), packed(b.max(1)));
        check(packed(END - 1 - a), packed(b.max(1)));
        // a multiple of the divisor, and one less than it
        let exact = b.max(1) * (a / b.max(1));
        check(packed(exact), packed(b.max(1)));
        check(packed(exact.saturating_sub(1)), packed(b.max(1)));
    }
}

#[test]
fn ends() {
    let numbers = [0, 1, 2, 9, 10, 99, 100, 9_999_999_999_999, END / 10 - 1, END / 10, END - 2, END - 1];
    for a in numbers {
        for b in numbers {
            check(packed(a), packed(b));
        }
    }
}

/// Each byte of each operand as each of the 256, the others zeros, so that each digit's weight is seen alone.
#[test]
fn every_byte_alone() {
    for place in 0..8 {
        for byte in 0..=255 {
            let mut one = [0; 8];
            one[place] = byte;
            for other in [packed(0), packed(1), packed(7), packed(END - 1)] {
                check(one, other);
                check(other, one);
            }
        }
    }
}

/// A half byte above 9 in each of the 32 places, alone, with a zero divisor, and with others behind it.
#[test]
fn each_half_byte_above_9() {
    let mut draw = Draw::new(SEED + 1);
    for half in 0..32 {
        for digit in 10..16 {
            for b in [0, 1, 1 + draw.below(END - 1)] {
                let mut bytes = [packed(draw.below(END)), packed(b)].concat();
                let put = |bytes: &mut [u8], half: usize, digit: u8| {
                    let shift = 4 * (1 - half % 2);
                    bytes[half / 2] = bytes[half / 2] & !(15 << shift) | digit << shift;
                };
                put(&mut bytes, half, digit);
                for _ in 0..4 {
                    let (a, b) = (bytes[..8].try_into().unwrap(), bytes[8..].try_into().unwrap());
                    let want = Packed { refusal: 15, place: half as u64 / 2, ..Packed::default() };
                    assert_eq!(divide_packed(&a, &b), want, "{}", text(&a, &b));
                    put(&mut bytes, half + draw.below(32 - half as u64) as usize, 10 + draw.below(6) as u8);
                }
            }
        }
    }
}

/// Bytes of any kind: several half bytes above 9, or few, or none.
#[test]
fn drawn_bytes() {
    let mut draw = Draw::new(SEED + 2);
    let mut seen = [0; 17];
    for _ in 0..200_000 {
        let rare = draw.below(40);
        let mut operand = || {
            std::array::from_fn(|_| if draw.below(40) < rare { draw.bits() as u8 } else { packed(draw.below(100))[7] })
        };
        let (a, b) = (operand(), operand());
        check(a, b);
        let want = expected(&a, &b);
        seen[if want.refusal == 15 { want.place as usize } else { 16 }] += 1;
    }
    assert!(seen.iter().all(|&times| times > 500), "{seen:?}");
}

/// The two operands at any address, side by side among canaries, and as the same eight bytes.
#[test]
fn operands_at_any_address() {
    let mut draw = Draw::new(SEED + 3);
    for offset in 0..18 {
        for (a, b) in [(any(&mut draw), 1 + any(&mut draw) / 2), (END - 1, 0)] {
            for wrong in [0, 0xA0] {
                let mut space = [0xFF; 64];
                space[offset..offset + 8].copy_from_slice(&packed(a));
                space[offset + 8..offset + 16].copy_from_slice(&packed(b));
                space[offset + 10] |= wrong;
                let before = space;
                let part = |at: usize| <&[u8; 8]>::try_from(&space[at..at + 8]).unwrap();
                let (dividend, divisor) = (part(offset), part(offset + 8));
                assert_eq!(divide_packed(dividend, divisor), expected(dividend, divisor), "offset {offset}");
                assert_eq!(divide_packed(dividend, dividend), expected(dividend, dividend), "offset {offset}");
                assert_eq!(space, before, "a byte changed, offset {offset}");
            }
        }
    }
}
