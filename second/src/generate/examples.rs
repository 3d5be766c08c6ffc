//! Document 01, "Examples on the edges", as calls that can be read: first the
//! run-only ones, then a) to l).

use super::*;

const TOKEN: [u8; 16] = *b"a token of bytes";
const IDENTIFIER: [u8; 16] = *b"a unit's own id.";
const AUTHENTICATION: [u8; 20] = [0xaa; 20];
const GENERATION: [u8; 20] = [0xbb; 20];
const SEED: [u8; 20] = [0xcc; 20];

const NOSEC: u32 = 0;
const CAPKEY: u32 = 1;

const WRITE: [u8; 10] = [0x2a, 0, 0, 0, 0, 0x10, 0, 0, 1, 0];
const READ: [u8; 10] = [0x28, 0, 0, 0, 0, 0x10, 0, 0, 1, 0];

/// A descriptor of version 0 that allows everything for good.
fn descriptor() -> Descriptor {
    Descriptor::new(0, 0xf8, &IDENTIFIER)
}

/// A page of SECURITY PROTOCOL OUT under the authentication master key.
fn out(page: u16) -> Vec<u8> {
    let cdb = codes::page_cdb(codes::OUT, page, pages_out::total(page));
    descriptor().wrap(&cdb, &AUTHENTICATION, &TOKEN)
}

impl<W: Watch> World<W> {
    fn example(&mut self, unit: u32, clock: u64, command: &[u8]) -> Answer {
        self.call(Line::open(unit, clock, command, TOKEN))
    }

    fn example_unit(&mut self, unit: u32, method: u32, tag: u32) {
        let master = Pair::new(AUTHENTICATION, GENERATION);
        self.build(Build::new(unit, method, tag, IDENTIFIER, master));
    }

    /// The examples that are run only.
    pub fn run_only_examples(&mut self) {
        self.remark(
            "Unit 0 is NOSEC with tag 7. Seventeen bare writes get slots 0 to 15, then A4.",
        );
        self.example_unit(NOSEC, 0, 7);
        for _ in 0..17 {
            self.example(NOSEC, 0, &WRITE);
        }
        self.remark("Abort 3, and the next gets 3.");
        self.abort(3);
        self.example(NOSEC, 0, &WRITE);
        self.reset();
        self.remark("A write under tag 7 is parked in slot 0.");
        let mut tagged = descriptor();
        tagged.set(TAG, 7u8);
        self.example(NOSEC, 0, &tagged.wrap(&WRITE, &[0; 20], &TOKEN));
        self.remark("Set Attributes to tag 8 is parked in slot 1 and closes GOOD.");
        self.example(NOSEC, 0, &out(codes::SET_ATTRIBUTES));
        self.close(1, 0, lists::attributes(0, 8));
        self.remark("The write's close gives reason 12.");
        self.close(0, 0, vec![]);
    }

    /// Opens a command on the CAPKEY unit with a changed descriptor.
    fn lettered(&mut self, cdb: &[u8], clock: u64, at: usize, bytes: &[u8]) {
        let key = hmac_sha1(&GENERATION, &SEED);
        let command = descriptor().with(at, bytes).wrap(cdb, &key, &TOKEN);
        self.example(CAPKEY, clock, &command);
    }

    /// Examples a) to l), on a CAPKEY unit with tag 7 and working key 0.
    pub fn lettered_examples(&mut self) {
        self.remark("Unit 1 is CAPKEY with tag 7; Set Key gives it working key 0.");
        self.example_unit(CAPKEY, 1, 7);
        self.example(CAPKEY, 0, &out(codes::SET_KEY));
        self.close(0, 0, lists::key(0, &SEED));
        self.remark("a) expiration 1000, clock 1000; b) clock 1001; c) expiration 0");
        for (clock, expiration) in [
            (1000, [0x03, 0xe8]),
            (1001, [0x03, 0xe8]),
            (u64::MAX, [0, 0]),
        ] {
            self.lettered(&READ, clock, 10, &expiration);
        }
        self.remark("d) 2Eh with 40h; e) with C0h");
        let both = [0x2e, 0, 0, 0, 0, 0, 0, 0, 0, 0];
        for permissions in [0x40, 0xc0] {
            self.lettered(&both, 0, PERMISSIONS.start, &[permissions]);
        }
        self.abort(0);
        self.remark("f) tag 0 against unit tag 7; g) 7 against 0");
        self.lettered(&READ, 0, 0, &[]);
        self.example(CAPKEY, 0, &out(codes::SET_ATTRIBUTES));
        self.close(0, 0, lists::attributes(1, 0));
        self.lettered(&READ, 0, 39, &[7]);
        self.remaining_examples();
    }

    fn remaining_examples(&mut self) {
        self.remark("h) 28h with 10 and with 88 bytes; i) with 87; j) 7Fh");
        let wrapped = descriptor().wrap(&READ, &[0; 20], &TOKEN);
        self.example(NOSEC, 0, &READ);
        self.example(NOSEC, 0, &wrapped);
        self.example(NOSEC, 0, &wrapped[..87]);
        self.example(NOSEC, 0, &[0x7f; 10]);
        self.remark("k) IN 0000h, allocation 5; l) allocation 0");
        for allocation in [5, 0] {
            self.example(NOSEC, 0, &codes::page_cdb(codes::IN, 0x0000, allocation));
        }
    }
}
