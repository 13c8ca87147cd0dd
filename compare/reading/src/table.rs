//! The reporting table: its bytes towards C, its changes, and what an ask says.

/// A table has room for this many entries,
pub const ENTRIES: usize = 128;

/// and had for this many before document 02's request 7.
pub const FORMER_ENTRIES: usize = 16;

/// An entry's bytes.
pub const SLOT: usize = 30;

/// The mark of an entry whose numbers compare with their sign: the Int types.
pub const SIGNED: u8 = 0;

/// That of all others: their numbers are taken as 64 bits without a sign.
pub const UNSIGNED: u8 = 1;

/// A table's bytes: the count, then the slots.
pub const SIZE: usize = 1 + ENTRIES * SLOT;

#[derive(Debug, Clone, Copy, PartialEq, Eq)]
pub struct Key {
    pub cluster: u16,
    pub attribute: u16,
}

#[derive(Debug, Clone, Copy, PartialEq, Eq)]
pub struct Config {
    pub minimum: u16,
    pub maximum: u16,
    pub change: u64,
    /// How its numbers compare: document 02, request 6.
    pub mark: u8,
}

#[derive(Debug, Clone, Copy, PartialEq, Eq)]
pub struct Entry {
    pub key: Key,
    pub config: Config,
    /// Time and value of the last report.
    pub last: Option<(u32, i64)>,
}

/// The first sentence of the layout that some bytes break.
#[derive(Debug, Clone, Copy, PartialEq, Eq)]
pub enum Broken {
    Length,
    /// More entries than there is room for.
    Count,
    /// A slot past the count is not all zero.
    Unused,
    /// A mark that is none,
    Mark,
    /// or a flag that is neither 0 nor 1.
    Flag,
    /// A time or a value under flag 0.
    Unreported,
}

impl Broken {
    pub const ALL: [Self; 6] = [
        Self::Length,
        Self::Count,
        Self::Unused,
        Self::Mark,
        Self::Flag,
        Self::Unreported,
    ];
}

/// The entries of a table's bytes, in their order.
pub fn entries(bytes: &[u8]) -> Result<Vec<Entry>, Broken> {
    if bytes.len() != SIZE {
        return Err(Broken::Length);
    }
    let count = usize::from(bytes[0]);
    if count > ENTRIES {
        return Err(Broken::Count);
    }
    let (used, unused) = bytes[1..].split_at(count * SLOT);
    // as one comparison: it is most of a table's bytes
    if *unused != [0; SIZE][..unused.len()] {
        return Err(Broken::Unused);
    }
    used.chunks(SLOT).map(entry).collect()
}

/// Whether the bytes keep every sentence of the layout.
pub fn is_table(bytes: &[u8]) -> bool {
    entries(bytes).is_ok()
}

fn entry(slot: &[u8]) -> Result<Entry, Broken> {
    let mark = slot[16];
    if !is_mark(mark) {
        return Err(Broken::Mark);
    }
    let time = u32::from_le_bytes(field(slot, 18));
    let value = i64::from_le_bytes(field(slot, 22));
    let last = match slot[17] {
        0 if (time, value) == (0, 0) => None,
        0 => return Err(Broken::Unreported),
        1 => Some((time, value)),
        _ => return Err(Broken::Flag),
    };
    Ok(Entry {
        key: Key {
            cluster: u16::from_le_bytes(field(slot, 0)),
            attribute: u16::from_le_bytes(field(slot, 2)),
        },
        config: Config {
            minimum: u16::from_le_bytes(field(slot, 4)),
            maximum: u16::from_le_bytes(field(slot, 6)),
            change: u64::from_le_bytes(field(slot, 8)),
            mark,
        },
        last,
    })
}

/// Whether a byte is a mark.
pub fn is_mark(byte: u8) -> bool {
    byte == SIGNED || byte == UNSIGNED
}

fn field<const N: usize>(slot: &[u8], at: usize) -> [u8; N] {
    *slot[at..]
        .first_chunk()
        .expect("every field is in the slot")
}

/// The bytes of a table of these entries, which are no more than it holds.
pub fn to_bytes(entries: &[Entry]) -> Vec<u8> {
    assert!(entries.len() <= ENTRIES, "there is no room for so many");
    let mut bytes = vec![0; SIZE];
    bytes[0] = u8::try_from(entries.len()).expect("a table is short");
    for (slot, entry) in bytes[1..].chunks_mut(SLOT).zip(entries) {
        write_slot(slot, entry);
    }
    bytes
}

fn write_slot(slot: &mut [u8], entry: &Entry) {
    let (time, value) = entry.last.unwrap_or((0, 0));
    slot[0..2].copy_from_slice(&entry.key.cluster.to_le_bytes());
    slot[2..4].copy_from_slice(&entry.key.attribute.to_le_bytes());
    slot[4..6].copy_from_slice(&entry.config.minimum.to_le_bytes());
    slot[6..8].copy_from_slice(&entry.config.maximum.to_le_bytes());
    slot[8..16].copy_from_slice(&entry.config.change.to_le_bytes());
    slot[16] = entry.config.mark;
    slot[17] = entry.last.is_some().into();
    slot[18..22].copy_from_slice(&time.to_le_bytes());
    slot[22..30].copy_from_slice(&value.to_le_bytes());
}

/// Whether there was room. Configuring again forgets the last report.
pub fn configure(entries: &mut Vec<Entry>, key: Key, config: Config) -> bool {
    configure_within(ENTRIES, entries, key, config)
}

/// In a table with room for so many.
pub fn configure_within(limit: usize, entries: &mut Vec<Entry>, key: Key, config: Config) -> bool {
    let entry = Entry {
        key,
        config,
        last: None,
    };
    match place(entries, key) {
        Some(place) => entries[place] = entry,
        None if entries.len() < limit => entries.push(entry),
        None => return false,
    }
    true
}

/// The last entry moves into the hole.
pub fn clear(entries: &mut Vec<Entry>, key: Key) {
    let Some(place) = place(entries, key) else {
        return;
    };
    if let Some(last) = entries.pop()
        && place < entries.len()
    {
        entries[place] = last;
    }
}

/// The place of the first entry of `key`.
pub fn place(entries: &[Entry], key: Key) -> Option<usize> {
    entries.iter().position(|entry| entry.key == key)
}

/// What decides an ask.
#[derive(Debug, Clone, Copy, PartialEq, Eq)]
pub enum Reason {
    NoEntry,
    /// The maximum is ffff.
    Disabled,
    NeverMarked,
    BelowMinimum,
    AtMaximum,
    NotMoved,
    MovedTooLittle,
    MovedEnough,
}

impl Reason {
    pub fn is_due(self) -> bool {
        matches!(
            self,
            Self::NeverMarked | Self::AtMaximum | Self::MovedEnough
        )
    }
}

/// Whether `value` is to be reported at `now`, by its reason.
pub fn ask(entries: &[Entry], key: Key, now: u32, value: i64) -> Reason {
    let Some(place) = place(entries, key) else {
        return Reason::NoEntry;
    };
    let Entry { config, last, .. } = entries[place];
    if config.maximum == 0xffff {
        return Reason::Disabled;
    }
    let Some((time, reported)) = last else {
        return Reason::NeverMarked;
    };
    // a clock that went back has not moved
    let elapsed = (i64::from(now) - i64::from(time)).max(0);
    if elapsed < config.minimum.into() {
        return Reason::BelowMinimum;
    }
    if config.maximum != 0 && elapsed >= config.maximum.into() {
        return Reason::AtMaximum;
    }
    match moved(config.mark, value, reported) {
        0 => Reason::NotMoved,
        moved if moved < config.change.into() => Reason::MovedTooLittle,
        _ => Reason::MovedEnough,
    }
}

/// How far two values of this mark are apart: at most 2^64 - 1.
pub fn moved(mark: u8, value: i64, reported: i64) -> u128 {
    let wide = |number: i64| match mark {
        UNSIGNED => i128::from(number.cast_unsigned()),
        _ => i128::from(number),
    };
    (wide(value) - wide(reported)).unsigned_abs()
}
