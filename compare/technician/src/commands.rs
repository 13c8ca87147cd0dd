//! What a frame asks for, by its header alone.

use reading::{FrameType, header};

#[derive(Debug, Clone, Copy, PartialEq, Eq)]
pub enum Command {
    /// One of the seven, by its code.
    Served(u8),
    OtherGlobal,
    Cluster,
    ShortOrReserved,
}

impl Command {
    pub const ALL: [Self; 10] = [
        Self::Served(0x00),
        Self::Served(0x02),
        Self::Served(0x03),
        Self::Served(0x05),
        Self::Served(0x06),
        Self::Served(0x08),
        Self::Served(0x0c),
        Self::OtherGlobal,
        Self::Cluster,
        Self::ShortOrReserved,
    ];

    pub fn of(request: &[u8]) -> Self {
        let Some(header) = header(request) else {
            return Self::ShortOrReserved;
        };
        let served = Self::Served(header.command);
        match header.frame_type {
            FrameType::Global if Self::ALL.contains(&served) => served,
            FrameType::Global => Self::OtherGlobal,
            FrameType::Cluster => Self::Cluster,
            FrameType::Reserved => Self::ShortOrReserved,
        }
    }

    pub fn name(self) -> &'static str {
        match self {
            Self::Served(0x00) => "00 read",
            Self::Served(0x02) => "02 write",
            Self::Served(0x03) => "03 write undivided",
            Self::Served(0x05) => "05 write without response",
            Self::Served(0x06) => "06 configure reporting",
            Self::Served(0x08) => "08 read reporting configuration",
            Self::Served(_) => "0c discover",
            Self::OtherGlobal => "other global commands",
            Self::Cluster => "cluster commands",
            Self::ShortOrReserved => "short or reserved frames",
        }
    }
}

#[cfg(test)]
mod tests {
    use super::*;

    #[test]
    fn every_frame_is_of_one() {
        for (frame, name) in [
            ("002a00", "00 read"),
            ("04ffff2a0c", "0c discover"),
            ("002a0b", "other global commands"),
            ("012a00", "cluster commands"),
            ("022a00", "short or reserved frames"),
            ("002a", "short or reserved frames"),
            ("", "short or reserved frames"),
        ] {
            assert_eq!(Command::of(&cases::unhex(frame)).name(), name, "{frame}");
        }
    }
}
