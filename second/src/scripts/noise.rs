//! Lines that should be refused.

use super::Generator;
use crate::sizes::*;

/// Lines that are no commands, or name what no house has.
const BAD_LINES: [&str; 45] = [
    "",
    " ",
    "sites",
    "sites 2",
    "sites 1 1",
    "sites 1 0",
    "sites 2 0 5",
    "sites 3 0 9 9",
    "sites 8 0 1 2 3 4 5 6 7 8",
    "sites 8 0 256 512 768 1024 1280 1536 1792",
    "begin",
    "begin 0",
    "begin 9",
    "begin  1",
    " begin 1",
    "begin 1 ",
    "Begin 1",
    "begin -1",
    "begin +1",
    "begin 1\r",
    "begin\t1",
    "begin 0x1",
    "begin 18446744073709551616",
    "begin 1 2",
    "begin 1 0 0",
    "begin 1  1",
    "begin 1 1 ",
    "begin 1 x",
    "begin 1 -1",
    "begin 1 18446744073709551616",
    "enlist 4294967297",
    "write 1 4294967297 5",
    "write 1 4294967297 5 700",
    "write 1 4294967297 5 700 0 0",
    "write 1 4294967297 5 700 -1",
    "write 1 4294967297 5 700 18446744073709551616",
    "read 1 4294967297",
    "read 1 4294967297 x",
    "take 1",
    "take 0 1",
    "emit 1",
    "value 1",
    "é 1",
    "what 1",
    "value 0 1",
];

impl Generator {
    pub(super) fn noise(&mut self) {
        match self.random.below(9) {
            0 | 1 => self.bad_line(),
            2 => self.wrong_transaction(),
            3 => self.wrong_key(),
            4 => self.wrong_site(),
            5 => self.late_call(),
            6 => self.nothing_to_do(),
            7 => {
                let site = self.any_site();
                self.no_desk(site);
            }
            _ => self.leading_zeros(),
        }
    }

    fn bad_line(&mut self) {
        let line = BAD_LINES[self.random.below(BAD_LINES.len() as u64) as usize];
        let _ = self.line(line);
    }

    /// Numbers that no site holds, or not this one.
    fn strange_transaction(&mut self) -> u64 {
        let site = self.any_site();
        match self.random.below(7) {
            0 => 0,
            1 => self.random.below(100),
            2 => u64::MAX,
            3 => transaction_number(site, 0),
            4 => transaction_number(self.sites() + 1, 1),
            5 => transaction_number(site, self.random.between(1, self.site(site).serial + 2)),
            _ => transaction_number(site, LAST_SERIAL),
        }
    }

    fn wrong_transaction(&mut self) {
        let transaction = self.strange_transaction();
        let site = self.any_site();
        let key = self.key_of(site);
        match self.random.below(5) {
            0 => self.tell("commit", &[transaction]),
            1 => self.tell("abandon", &[transaction]),
            2 => self.tell("enlist", &[transaction, site]),
            3 => self.tell("read", &[site, transaction, key]),
            _ => self.write_any(site, transaction, key),
        }
    }

    /// Keys of another site, at the edges of ranges, and of none.
    fn wrong_key(&mut self) {
        let parts = self.parts(|_, _| true);
        let Some((site, transaction)) = self.random.pick(&parts) else { return };
        let other = self.other_site(site);
        let key = match self.random.below(6) {
            0 => KEYS,
            1 => u64::MAX,
            2 | 3 => {
                let range = self.range(site);
                self.random.edge(range)
            }
            _ => self.key_of(other),
        };
        match self.random.below(2) {
            0 => self.tell("read", &[site, transaction, key]),
            _ => self.write_any(site, transaction, key),
        }
    }

    fn wrong_site(&mut self) {
        let impossible = [0, self.sites() + 1, 9, u64::MAX][self.random.below(4) as usize];
        let site = self.any_site();
        let transaction = transaction_number(site, 1);
        let no_copy = [0, 9, u64::MAX][self.random.below(3) as usize];
        match self.random.below(9) {
            0 => self.tell("begin", &[impossible]),
            1 => self.tell("enlist", &[transaction, impossible]),
            2 => self.tell("read", &[impossible, transaction, 0]),
            3 => self.tell("take", &[site, impossible]),
            4 => self.tell("take", &[impossible, site]),
            5 => self.tell("install", &[impossible]),
            6 => self.tell("report", &[impossible]),
            7 => self.tell("merge", &[impossible]),
            _ => self.tell("replay", &[no_copy]),
        }
    }

    /// Calls that the stage of a part does not allow.
    fn late_call(&mut self) {
        let parts = self.parts(|_, part| part.is_prepared());
        let Some((site, transaction)) = self.random.pick(&parts) else { return };
        let key = self.key_of(site);
        let target = self.any_site();
        match self.random.below(5) {
            0 => self.tell("commit", &[transaction]),
            1 => self.tell("abandon", &[transaction]),
            2 => self.tell("enlist", &[transaction, target]),
            3 => self.tell("read", &[site, transaction, key]),
            _ => self.write_any(site, transaction, key),
        }
    }

    fn nothing_to_do(&mut self) {
        let (site, other, copy) = (self.any_site(), self.any_site(), self.random.between(1, 8));
        let key = if self.random.chance(30) { KEYS } else { self.random.below(KEYS) };
        match self.random.below(6) {
            0 => self.tell("take", &[site, other]),
            1 => self.tell("install", &[site]),
            2 => self.tell("merge", &[site]),
            3 => self.tell("emit", &[]),
            4 => self.tell("replay", &[copy]),
            _ => self.tell("value", &[copy, key]),
        }
    }

    /// A begin for a desk that is none: 2 also where 12 applies.
    pub(super) fn no_desk(&mut self, site: u64) {
        let desk = [2, 2, 3, 12, 1 << 32, u64::MAX][self.random.below(6) as usize];
        self.tell("begin", &[site, desk]);
    }

    fn leading_zeros(&mut self) {
        let desk = ["", " 00", " 001"][self.random.below(3) as usize];
        let line = format!("begin 00{}{desk}", self.any_site());
        let _ = self.line(&line);
    }
}
