//! Commands 06 and 08 over the bench store.

mod common;

use common::{CLUSTER, Served, bytes, reply, says};
use reading::table::{Config, ENTRIES, Entry, Key, SIGNED, UNSIGNED};

fn entry(cluster: u16, attribute: u16, config: (u16, u16, u64)) -> Entry {
    let (minimum, maximum, change) = config;
    Entry {
        key: Key { cluster, attribute },
        config: Config {
            minimum,
            maximum,
            change,
            mark: SIGNED,
        },
        last: Some((7, 7)),
    }
}

/// T over these entries.
fn over(table: Vec<Entry>) -> Served {
    let store = common::bench();
    Served { store, table }
}

#[test]
fn direction_comes_before_the_lookup_in_configure() {
    assert_eq!(says("000006 0109003c00", 64), reply("180007 8c010900"));
    assert_eq!(says("000006 010900 3c", 64), "4");
    assert_eq!(says("000008 010900", 64), reply("180009 86010900"));
    assert_eq!(says("000008 010500", 64), reply("180009 8c010500"));
    assert_eq!(says("000008 000100", 64), reply("180009 8c000100"));
    assert_eq!(says("000008 000500", 64), reply("180009 8b000500"));
}

#[test]
fn configure_in_order() {
    // not found, not reportable, other type, maximum below minimum
    assert_eq!(
        says("000006 000900 20 0a003c00 01", 64),
        reply("180007 86000900")
    );
    assert_eq!(
        says("000006 000100 20 0a003c00 01", 64),
        reply("180007 8c000100")
    );
    assert_eq!(
        says("000006 000500 21 0a003c00 0100", 64),
        reply("180007 8d000500")
    );
    assert_eq!(
        says("000006 000500 29 3c000a00 0100", 64),
        reply("180007 87000500")
    );
    // an unknown type has no change field, and is another type
    assert_eq!(
        says("000006 000500 07 0a003c00", 64),
        reply("180007 8d000500")
    );
    // a change field one byte short comes before any status
    assert_eq!(says("000006 000900 29 0a003c00 01", 64), "4");
    assert_eq!(says("000006", 64), reply("180007 00"));
    assert_eq!(says("000006", 3), "5");
}

#[test]
fn maximum_0_with_minimum_1_is_configured() {
    let mut served = over(Vec::new());
    let frame = "000006 000500 29 01000000 0100";
    assert_eq!(served.says(frame, 64), reply("180007 00"));
    assert_eq!(served.table.len(), 1);
}

#[test]
fn what_clears() {
    for intervals in ["0000 ffff", "ffff 0000", "ffff ffff"] {
        let first = entry(CLUSTER, 5, (1, 2, 3));
        let others = [entry(5, CLUSTER, (0, 0, 0)), entry(CLUSTER, 0, (4, 5, 6))];
        let mut served = over(vec![first, others[0], others[1]]);
        let frame = format!("000006 000500 29 {intervals} 0000");
        assert_eq!(served.says(&frame, 64), reply("180007 00"));
        assert_eq!(served.table, [others[1], others[0]], "the last in the hole");
        assert_eq!(served.says(&frame, 64), reply("180007 00"), "again");
        assert_eq!(served.table.len(), 2);
    }
}

#[test]
fn a_full_table() {
    let full: Vec<Entry> = (0..ENTRIES as u16)
        .map(|id| entry(CLUSTER, 8 + id, (0, 0, 0)))
        .collect();
    let mut served = over(full.clone());
    let frame = "000006 000500 29 0a003c00 3200";
    assert_eq!(served.says(frame, 64), reply("180007 89000500"));
    assert_eq!(served.table, full);
    served.table[3].key.attribute = 5;
    assert_eq!(served.says(frame, 64), reply("180007 00"));
    assert_eq!(served.table[3].last, None, "the last report is forgotten");
    served.table.push(full[0]);
    assert_eq!(served.says(frame, 64), "8");
}

/// What a value of this type is configured as, with this change field.
fn configured(code: u8, field: &str) -> Config {
    let size = reading::fixed_size(code).expect("fixed");
    let [low, high] = u16::try_from(size).expect("short").to_le_bytes();
    let head = [0x21, 0xfc, 1, 0, 1, 0, code, 2, 12, 0, low, high];
    let mut served = Served {
        store: [&head[..], &vec![0; size]].concat(),
        table: Vec::new(),
    };
    let frame = format!("000006 000100 {code:02x} 00000000 {field}");
    assert_eq!(served.says(&frame, 64), reply("180007 00"));
    served.table[0].config
}

/// Of every type of fixed length that an attribute may have.
#[test]
fn marks() {
    let stored = |&code: &u8| reading::fixed_size(code).is_some_and(|size| size > 0);
    for code in (0..=255).filter(stored) {
        let field = "00".repeat(reading::change_width(code));
        let int = (0x28..=0x2f).contains(&code);
        let expected = if int { SIGNED } else { UNSIGNED };
        assert_eq!(configured(code, &field).mark, expected, "{code:02x}");
    }
}

#[test]
fn changes() {
    let change = |code: u8, field: &str| configured(code, field).change;
    assert_eq!(change(0x28, "80"), 128, "bench frame 12");
    assert_eq!(change(0x20, "80"), 128);
    assert_eq!(change(0x29, "38ff"), 200);
    assert_eq!(change(0x2f, "0000000000000080"), 1 << 63);
    assert_eq!(change(0x2e, "ffffffffffffff"), 1);
    assert_eq!(change(0x27, "ffffffffffffffff"), u64::MAX);
    assert_eq!(change(0x39, "0000803f"), 0);
    assert_eq!(change(0x38, "ffff"), 0);
    assert_eq!(change(0xe2, "000000ff"), 0xff00_0000);
    assert_eq!(change(0x18, ""), 0, "no field");
}

#[test]
fn read_configuration_cuts_the_change() {
    let mut served = over(vec![
        entry(CLUSTER, 5, (0x0102, 0x0304, 0x1122_3344)),
        entry(CLUSTER, 0, (1, 2, 0x1_0000_0003)),
    ]);
    let record = "00 000500 29 0201 0403 4433";
    let frame = "000008 000500";
    assert_eq!(served.says(frame, 14), reply(&format!("180009 {record}")));
    assert_eq!(served.says(frame, 13), reply("180009"));
    assert_eq!(served.says(frame, 2), "5");
    let both = format!("180009 {record} 00 000000 23 0100 0200 03000000");
    assert_eq!(served.says("000008 000500 000000", 27), reply(&both));
    // the rest is not read
    assert_eq!(served.says("000008 000500 00", 13), reply("180009"));
    assert_eq!(served.says("000008 000500 00", 14), "4");
    assert_eq!(served.says("000008 00", 3), "4");
}

#[test]
fn done_up_to_what_does_not_fit() {
    let mut served = over(Vec::new());
    let frame = "000006 000500 29 0a003c00 3200 000900 20 0a003c00 01 000000 23 0a003c00 01000000";
    assert_eq!(served.says(frame, 6), "5");
    assert_eq!(served.table.len(), 1);
    assert_eq!(served.says(frame, 7), reply("180007 86000900"));
    assert_eq!(served.table.len(), 2);
    assert_eq!(served.store, bytes(&common::hex(&common::bench())));
}
