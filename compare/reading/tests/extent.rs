//! Values without and with collections around them.

use reading::Extent::{self, Cut, End, Without};
use reading::extent;

/// The extent of a value given as its type code and bytes, in hex; the end
/// counts the bytes behind the code.
fn of(value: &str) -> Extent {
    let value = bytes(value);
    extent(value[0], &value[1..], 0)
}

fn bytes(hex: &str) -> Vec<u8> {
    let hex: String = hex.split_whitespace().collect();
    (0..hex.len() / 2)
        .map(|at| u8::from_str_radix(&hex[2 * at..2 * at + 2], 16).expect("hex"))
        .collect()
}

/// A value that ends with its last byte: one more byte is not taken, and each
/// shorter form is cut.
fn ends(value: &str) {
    let value = bytes(value);
    let (code, rest) = (value[0], &value[1..]);
    assert_eq!(extent(code, rest, 0), End(rest.len()));
    assert_eq!(extent(code, &[rest, &[0xff]].concat(), 0), End(rest.len()));
    for length in 0..rest.len() {
        assert_eq!(extent(code, &rest[..length], 0), Cut, "{length}");
    }
}

#[test]
fn no_data_takes_nothing() {
    assert_eq!(of("00"), End(0));
    assert_eq!(of("00 ff"), End(0));
}

#[test]
fn fixed_sizes() {
    ends("08 11");
    ends("0a 112233");
    ends("0f 1122334455667788");
    ends("19 1122");
    ends("24 1122334455");
    ends("2e 11223344556677");
    ends("31 1122");
    ends("38 1122");
    ends("39 11223344");
    ends("3a 1122334455667788");
    ends("e2 11223344");
    ends("e9 1122");
    ends("ea 11223344");
    ends("f0 1122334455667788");
    ends("f1 00112233445566778899aabbccddeeff");
}

#[test]
fn all_bit_patterns_have_an_extent() {
    ends("10 02");
    ends("10 ff");
    ends("20 ff");
    ends("28 80");
    ends("30 ff");
    ends("39 ffffffff");
}

#[test]
fn codes_of_no_type() {
    for code in [
        "01", "07", "11", "32", "3b", "40", "45", "4d", "52", "df", "f2", "fe", "ff",
    ] {
        assert_eq!(of(code), Without);
        assert_eq!(of(&format!("{code} 0000000000")), Without);
    }
}

#[test]
fn strings() {
    ends("41 00");
    ends("41 03 000102");
    ends("42 02 4142");
    ends("42 02 ffff");
    ends(&format!("41 fe {}", "5a".repeat(0xfe)));
    assert_eq!(of("41"), Cut);
    assert_eq!(of("42 05 41424344"), Cut);
}

#[test]
fn string_of_length_ff() {
    ends("41 ff");
    ends("42 ff");
    assert_eq!(of("41 ff 0000"), End(1));
}

#[test]
fn long_strings() {
    ends("43 0000");
    ends("43 0300 000102");
    ends(&format!("44 ff00 {}", "41".repeat(0xff)));
    ends(&format!("43 0001 {}", "41".repeat(0x100)));
    assert_eq!(of("43 00ff"), Cut);
    assert_eq!(of("44 feff 00"), Cut);
}

#[test]
fn long_string_of_length_ffff() {
    ends("43 ffff");
    ends("44 ffff");
    assert_eq!(of("44 ffff 0000"), End(2));
}

#[test]
fn series_of_fixed_elements() {
    for code in ["48", "50", "51"] {
        ends(&format!("{code} 20 0000"));
        ends(&format!("{code} 20 0200 0102"));
        ends(&format!("{code} f1 0100 {}", "07".repeat(16)));
    }
    assert_eq!(of("48 21 feff 0000"), Cut);
}

#[test]
fn no_elements_no_element_type() {
    ends("48 07 0000");
    ends("50 ff 0000");
    ends("51 ff ffff");
    assert_eq!(of("48 07 0100"), Without);
    assert_eq!(of("48 ff 0100 00"), Without);
    assert_eq!(
        of("48 ff 01"),
        Cut,
        "the count is missing before the type counts"
    );
}

#[test]
fn count_ffff() {
    ends("48 20 ffff");
    ends("4c ffff");
    assert_eq!(of("48 20 ffff 01"), End(3));
}

#[test]
fn elements_of_no_bytes() {
    ends("48 00 feff");
    // a step for each element would take very long here
    for _ in 0..1_000_000 {
        assert_eq!(extent(0x48, &[0x00, 0xfe, 0xff], 0), End(3));
    }
}

#[test]
fn series_of_strings() {
    ends("48 41 0300 00 ff 020102");
    ends("48 43 0200 ffff 0100aa");
    assert_eq!(of("48 41 feff ff"), Cut);
}

#[test]
fn structures() {
    ends("4c 0000");
    ends("4c 0100 00");
    ends("4c 0200 2001 4102aabb");
    ends("4c 0300 1002 41ff 44ffff");
    assert_eq!(of("4c 0200 2001 07"), Without);
    assert_eq!(of("4c 0200 2001 ff"), Without);
}

#[test]
fn array_of_structures_as_a_member() {
    ends("4c 0200 48 4c 0200 0100 2001 0200 00 210203 20 07");
}

#[test]
fn first_trouble_counts() {
    assert_eq!(
        of("4c 0200 07"),
        Without,
        "then the second member is missing"
    );
    assert_eq!(
        of("4c 0200 21 00"),
        Cut,
        "then the second member is missing"
    );
    assert_eq!(of("4c 0200 4105 07"), Cut, "the 07 belongs to the string");
    assert_eq!(of("48 48 0200 070100"), Without);
}

/// `levels` arrays in each other, the innermost as given, without its code.
fn arrays(levels: usize, innermost: &str) -> String {
    format!("48 {} {innermost}", "48 0100".repeat(levels - 1))
}

#[test]
fn fifteen_levels() {
    ends(&arrays(1, "20 0000"));
    ends(&arrays(2, "20 0100 07"));
    ends(&arrays(15, "20 0000"));
    ends(&arrays(15, "20 0100 07"));
    assert_eq!(of(&arrays(16, "20 0000")), Without);
    assert_eq!(of(&arrays(16, "20 0100 07")), Without);
    assert_eq!(
        of(&arrays(16, "")),
        Without,
        "the level is met before the cut"
    );
}

#[test]
fn level_fifteen_without_elements() {
    ends(&arrays(15, "48 0000"));
    ends(&arrays(15, "4c ffff"));
    assert_eq!(of(&arrays(15, "4c 0100 0000")), Without);
}

#[test]
fn plain_values_are_no_level() {
    ends(&arrays(15, "41 0100 0107"));
    ends(&format!("{} 4c 0100 20 07", "4c 0100".repeat(14)));
    let deeper = format!("{} 4c 0100 48 20 0000", "4c 0100".repeat(14));
    assert_eq!(of(&deeper), Without);
}

#[test]
fn levels_fall_in_each_branch() {
    let branch = arrays(14, "20 0100 07");
    ends(&format!("4c 0200 {branch} {branch}"));
    let deeper = arrays(15, "20 0100 07");
    assert_eq!(of(&format!("4c 0200 {branch} {deeper}")), Without);
}

#[test]
fn other_starts() {
    let frame = bytes("0000 41 02 aabb 21 0102");
    assert_eq!(extent(0x41, &frame, 3), End(6));
    assert_eq!(extent(0x21, &frame, 7), End(9));
    assert_eq!(extent(0x21, &frame, 8), Cut);
    assert_eq!(extent(0x00, &frame, 9), End(9));
    assert_eq!(extent(0x20, &frame, 9), Cut);
    assert_eq!(extent(0x20, &frame, usize::MAX), Cut);
}
