//! Values for the fields of report files, good ones and ones that cannot stand
//! there.

/// Identifiers in form: of 3 and of 17 bytes, in either case, in digits and
/// letters, of every system and of none.
pub const IDENTIFIERS: [&str; 8] = [
    "PP1",
    "ppa",
    "ZS1",
    "ET0000000000000",
    "PP0000000001",
    "zZ000000000000000",
    "ZDABCDEFGHIJKLMNO",
    "abcdefghijklmnopq",
];

/// Texts that are no identifiers: of 0, 1, 2, 18 and 40 bytes, without two
/// letters in front, and with a byte that is neither letter nor digit.
pub const NO_IDENTIFIERS: [&[u8]; 22] = [
    b"",
    b"P",
    b"PP",
    b"PP0000000000000000",
    b"PPabcdefghijklmnopqrstuvwxyz0123456789ab",
    b"P11",
    b"1P1",
    b"111",
    b"PP|",
    b"PP1|",
    b"PP1\r\n",
    b"PP1\n",
    b" PP1",
    b"PP1 ",
    b"PP-1",
    b"PP_1",
    b"PP.1",
    b"PP1\0",
    b"\0\0\0",
    b"PP@",
    b"PP\xC5\x81",
    b"\xFF\xFF\xFF",
];

/// Creation times at the ends of what is real, and one between.
pub const TIMES: [u64; 8] = [
    20_000_101_000_000,
    20_000_229_235_959,
    20_201_007_130_000,
    20_201_231_235_959,
    20_210_228_000_059,
    20_240_229_005_900,
    20_960_229_230_000,
    20_991_231_235_959,
];

/// Numbers that are no creation time: missing, a date or a time alone, with
/// digits too few or too many, of other years, with a month, a day, an hour, a
/// minute or a second that there is not, and at the ends of the numbers.
pub const NO_TIMES: [u64; 30] = [
    0,
    1,
    130_000,
    20_201_007,
    201_007_130_000,
    2_020_100_713_000,
    202_010_071_300_000,
    2_020_100_713_000_000,
    120_201_007_130_000,
    10_101_000_000,
    19_991_231_235_959,
    21_000_101_000_000,
    99_991_231_235_959,
    20_200_007_130_000,
    20_201_307_130_000,
    20_209_907_130_000,
    20_201_000_130_000,
    20_201_032_130_000,
    20_200_431_130_000,
    20_200_230_130_000,
    20_210_229_130_000,
    20_201_007_240_000,
    20_201_007_990_000,
    20_201_007_136_000,
    20_201_007_139_900,
    20_201_007_130_060,
    20_201_007_130_099,
    20_201_007_130_000 + (1 << 63),
    1 << 63,
    u64::MAX,
];

/// Each day of months 0 to 13 and days 0 to 32 of some years, and each hour,
/// minute and second from 00 to 99.
pub fn days_and_times() -> Vec<u64> {
    let mut all = Vec::new();
    for year in [0, 1999, 2000, 2004, 2020, 2021, 2096, 2099, 2100, 2400] {
        for (month, day) in (0..=13).flat_map(|month| (0..=32).map(move |day| (month, day))) {
            all.push((year * 10_000 + month * 100 + day) * 1_000_000 + 120_000);
        }
    }
    for number in 0..100 {
        let times = [number * 10_000, 230_059 + number * 100, number];
        all.extend(times.map(|time| 20_201_007_000_000 + time));
    }
    all
}
