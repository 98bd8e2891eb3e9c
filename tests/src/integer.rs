//! The integer operations, by their operation bytes.

extern "C" {
    fn deqbaryn_integer(byte: u8, a: u32, b: u32, psw: u32) -> u64;
}

/// Document 01's names of operations 1 to 38, in its order.
pub const NAMES: [&str; 38] = [
    "ADD", "SUB", "RSUB", "ADDX", "ADDC", "SUBX", "SUBC", "ADDS", "ADDS.U", "SUBS", "SUBS.U", "MUL", "AND", "OR",
    "XOR", "NAND", "NOR", "XNOR", "ANDN", "ORN", "SH", "SHA", "MIN", "MIN.U", "MAX", "MAX.U", "ABS", "ABSDIF", "EQ",
    "NE", "LT", "LT.U", "GE", "GE.U", "CLZ", "CLO", "CLS", "MOV",
];

/// The result word and PSW afterwards.
pub fn compute(name: &str, a: u32, b: u32, psw: u32) -> (u32, u32) {
    let place = NAMES.iter().position(|n| *n == name).unwrap_or_else(|| panic!("no operation {name}"));
    let answer = unsafe { deqbaryn_integer(place as u8 + 1, a, b, psw) };
    (answer as u32, (answer >> 32) as u32)
}

/// The answer for an operation byte, as the library gives it.
pub fn answer(byte: u8, a: u32, b: u32, psw: u32) -> u64 {
    unsafe { deqbaryn_integer(byte, a, b, psw) }
}
