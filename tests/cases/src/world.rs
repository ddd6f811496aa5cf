use crate::Random;
use reference::flow::{Action, Entry, Exact, Key, Match, Packet, Prefix};
use reference::table::{Origin, TableOperation};

/// Where the values of a case come from. In a narrow world few values stand for each field, so that
/// matches often overlap, lie within each other or are equal; in a wide one all values occur, the
/// least and the largest often.
#[derive(Clone, Copy, Debug)]
pub struct World {
    /// Whether all values occur.
    pub wide: bool,
    /// How many switches there are, 1 to 16.
    pub switches: usize,
}

impl World {
    /// A random world.
    pub fn any(random: &mut Random) -> World {
        World { wide: random.one_in(3), switches: random.pick(&[1, 1, 2, 3, 16]) }
    }

    /// The number of a switch.
    pub fn switch(self, random: &mut Random) -> u8 {
        // The highest ones, so that 15 occurs.
        let number = 16 - self.switches + random.below(self.switches);
        u8::try_from(number).expect("at most 15")
    }

    fn number(self, random: &mut Random, few: &[u16]) -> u16 {
        if !self.wide {
            return random.pick(few);
        }
        match random.below(4) {
            0 => random.pick(&[0, 9, 10, 255, 256, 9_999, 10_000, 65_535]),
            _ => u16::try_from(random.below(65_536)).expect("below 65,536"),
        }
    }

    fn exact(self, random: &mut Random, few: &[u16]) -> Exact<u16> {
        let any = random.one_in(2);
        (!any).then(|| self.number(random, few))
    }

    fn address(self, random: &mut Random) -> u32 {
        if self.wide {
            random.bits() as u32
        } else {
            random.pick(&[0x0a00_0000, 0x0a01_0000, 0x0a01_0203, 0x0b00_0000])
        }
    }

    fn prefix(self, random: &mut Random) -> Prefix {
        let len = if self.wide {
            u8::try_from(random.below(33)).expect("at most 32")
        } else {
            random.pick(&[0, 0, 8, 16, 32])
        };
        let past = 32 - u32::from(len);
        let value = u64::from(self.address(random)) >> past << past;
        Prefix { value: u32::try_from(value).expect("an address"), len }
    }

    /// A match.
    pub fn matching(self, random: &mut Random) -> Match {
        let proto = self.exact(random, &[6, 17]);
        let vlan = if random.one_in(2) { self.exact(random, &[1, 2]) } else { None };
        Match {
            port: self.exact(random, &[1, 2]),
            vlan: vlan.map(|n| n % 4096),
            src: if self.wide || random.one_in(3) { self.prefix(random) } else { Prefix::ANY },
            dst: self.prefix(random),
            proto: proto.map(|n| u8::try_from(n % 256).expect("below 256")),
            sport: if random.one_in(3) { self.exact(random, &[4000]) } else { None },
            dport: self.exact(random, &[80]),
        }
    }

    /// A packet.
    pub fn packet(self, random: &mut Random) -> Packet {
        Packet {
            port: self.number(random, &[1, 2]),
            vlan: self.number(random, &[1, 2]) % 4096,
            src: self.address(random),
            dst: self.address(random),
            proto: u8::try_from(self.number(random, &[6, 17]) % 256).expect("below 256"),
            sport: self.number(random, &[4000, 5000]),
            dport: self.number(random, &[80, 81]),
        }
    }

    /// A key.
    pub fn key(self, random: &mut Random) -> Key {
        Key::new(self.number(random, &[5, 6]), self.matching(random))
    }

    /// An action.
    pub fn action(self, random: &mut Random) -> Action {
        match random.below(4) {
            0 => Action::Drop,
            1 => Action::Controller,
            _ => Action::Port(self.number(random, &[1, 2])),
        }
    }

    /// An entry.
    pub fn entry(self, random: &mut Random) -> Entry {
        Entry { key: self.key(random), action: self.action(random) }
    }

    /// An event that uses a table.
    pub fn operation(self, random: &mut Random) -> TableOperation {
        match random.below(11) {
            0 | 1 => TableOperation::Packet(Origin::Received, self.packet(random)),
            2 | 3 => TableOperation::Packet(Origin::SentOut, self.packet(random)),
            4 | 5 => TableOperation::Add(self.entry(random)),
            6 => TableOperation::CheckedAdd(self.entry(random)),
            7 => TableOperation::StrictModify(self.entry(random)),
            8 => TableOperation::Modify(self.entry(random)),
            9 => TableOperation::StrictDelete(self.key(random)),
            _ => TableOperation::Delete(self.matching(random)),
        }
    }
}
