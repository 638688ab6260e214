// Shared by the tests: the district on the test card.
#![allow(dead_code)]

use reference::district::District;
use reference::file;

pub const CARD: &str = "06 00 01 00 02 02 02 01 01 01
    04 00 02 00 82 00 00 00
    01 00 03 00 14
    07 00 04 00 E8 03 00 00 05 50 28
    07 00 04 00 B8 0B 00 00 0F 5A 46
    04 00 05 00 00 00 00 00
    0B 00 06 00 01 64 00 64 00 64 00 14 00 00 05
    0B 00 06 00 01 64 00 64 00 C8 00 14 00 00 0F
    00 00 07 00";

pub const CARD_LISTING: &str = "1 2\n2 1\nbenefit 8250000\nceiling 8438555\nsteps 1 0 0\n";

pub const CARD_PAGE: &str = concat!(
    "NO MILES  FT ST        BENEFIT        R1        R2        R3        R4          \n",
    " 1  1.00  20  2        5250000        60                                        \n",
    " 2  2.00  20  1        3000000        40                                        \n",
    "                       8250000       100                                        \n",
    "                                     130                                        \n",
);

pub fn card_bytes() -> Vec<u8> {
    CARD.split_whitespace().map(|byte| u8::from_str_radix(byte, 16).unwrap()).collect()
}

pub fn card() -> District {
    file::decode(&card_bytes()).unwrap()
}
