//! Spoils drafts of commands, so that a reason applies, one or several at once:
//! document 01, "Order of judgement".

use super::*;

/// Whether a command of this case can be spoiled so that the reason applies.
/// Reasons 1 and 1b are the unit's, not the command's.
pub fn is_possible(reason: Reason, case: &Case) -> bool {
    match reason {
        2 | 3 => true,
        4 => case.row.page.is_some(),
        6 | 9 => case.is_strict(),
        7 | 8 | 10..=13 => !case.is_open(),
        14 => case.is_strict() && (case.is_master() || case.member.keeper.keys.mask() != 0xffff),
        15 => case.is_strict() && !case.versions().is_empty(),
        16 => case.row.code == codes::OUT,
        17 => case.inherent() == Some(17),
        _ => false,
    }
}

pub fn are_possible(reasons: &[Reason], case: &Case) -> bool {
    reasons.iter().all(|reason| is_possible(*reason, case))
}

/// The reason that comes first of those a command was spoiled for and the one
/// that the case has in it.
pub fn expected(case: &Case, faults: &[Reason]) -> Option<Reason> {
    let inherent = case.inherent();
    let mut all = REASONS.into_iter();
    all.find(|reason| faults.contains(reason) || inherent == Some(*reason))
}

/// A command with these faults and no others, but for the length and code,
/// which `line` spoils.
pub fn spoiled(case: &Case, faults: &[Reason], clock: u64, rng: &mut Rng) -> Draft {
    let in_wrapping = faults.iter().any(|fault| (7..=15).contains(fault));
    let mut draft = match in_wrapping {
        true => Draft::wrapped(case, clock, rng),
        false => Draft::good(case, clock, rng),
    };
    for fault in faults {
        match fault {
            4 => spoil_protocol(&mut draft, case, rng),
            10 => expire(&mut draft, rng),
            16 => spoil_total(&mut draft, rng),
            fault => spoil_descriptor(&mut draft, *fault, case, rng),
        }
    }
    draft.sign(case);
    if faults.contains(&15) {
        spoil_value(&mut draft, case, rng);
    }
    if faults.contains(&6) {
        draft.wrapping = None;
    }
    draft
}

/// The draft as an open call, its code or its length spoiled for reasons 2 and
/// 3.
pub fn line(draft: &Draft, faults: &[Reason], rng: &mut Rng) -> Line {
    let (mut command, token) = (draft.command(), draft.token.clone());
    if faults.contains(&3) {
        let length = wrong_length(draft.cdb.len(), rng);
        let filler = rng.pick(&[0x00, 0xff, 0xa5]);
        command.resize(length, filler);
    }
    if faults.contains(&2) {
        command[0] = unknown_code(rng);
        if rng.one_in(4) {
            command.clear();
        }
    }
    Line::open(draft.unit, draft.clock, command, token)
}

fn unknown_code(rng: &mut Rng) -> u8 {
    let mut codes = std::iter::repeat_with(|| rng.next_u64() as u8);
    let code = codes.find(|code| TABLE[usize::from(*code)] == Entry::Unknown);
    code.expect("some code is unknown")
}

/// A length that is neither the bare one nor the wrapped one.
fn wrong_length(bare: usize, rng: &mut Rng) -> usize {
    let wrapped = bare + WRAPPING;
    loop {
        let any = 1 + rng.length(99);
        let near = rng.pick(&[bare - 1, bare + 1, wrapped - 1, wrapped + 1, wrapped - 20]);
        let other = rng.pick(&[6, 10, 12, 16, 84, 88, 90, 94, 78, 100]);
        let folded = 256 + rng.pick(&[bare, wrapped]);
        let length = rng.pick(&[any, near, near, other, folded]);
        if length != bare && length != wrapped {
            return length;
        }
    }
}

/// Reason 4: protocol, page or bit 7 of byte 4.
fn spoil_protocol(draft: &mut Draft, case: &Case, rng: &mut Rng) {
    let cdb = &mut draft.cdb;
    match rng.below(3) {
        0 => cdb[1] ^= 1 << rng.below(8),
        1 => cdb[4] |= 0x80,
        _ => loop {
            let any = rng.next_u64() as u16;
            let near = rng.below(0x18) as u16;
            let high = case.row.page.unwrap_or(0) | 0x0100 << rng.below(8);
            let page = rng.pick(&[any, near, near, high]);
            cdb[2..4].copy_from_slice(&page.to_be_bytes());
            if codes::page_row(case.row.code, page).is_none() {
                break;
            }
        },
    }
}

/// Reason 10: an expiration and a clock beyond it.
fn expire(draft: &mut Draft, rng: &mut Rng) {
    let clock = draft.clock.clamp(2, LATEST);
    let any = 1 + rng.below(clock - 1);
    let expiration = rng.pick(&[clock - 1, clock - 1, 1, any]);
    if draft.clock <= expiration {
        draft.clock = expiration + rng.pick(&[1, 1, 1 << 48, u64::MAX - expiration]);
    }
    if let Some(wrapping) = &mut draft.wrapping {
        wrapping.descriptor.set(EXPIRATION, expiration);
    }
}

/// Reason 16: bytes 6-9 are not the page's total.
fn spoil_total(draft: &mut Draft, rng: &mut Rng) {
    let at = 6 + rng.below(4) as usize;
    match rng.below(3) {
        0 => draft.cdb[at] ^= 1 << rng.below(8),
        1 => draft.cdb[9] = draft.cdb[9].wrapping_add(rng.pick(&[1, 255])),
        _ => {
            let other = rng.pick(&[0u32, 1, 5, 13, 29, 265, u32::MAX]);
            draft.cdb[6..10].copy_from_slice(&other.to_be_bytes());
        }
    }
}

/// Reasons 7 to 9 and 11 to 14, which are seen in the descriptor.
fn spoil_descriptor(draft: &mut Draft, reason: Reason, case: &Case, rng: &mut Rng) {
    let Some(wrapping) = &mut draft.wrapping else {
        return;
    };
    let descriptor = &mut wrapping.descriptor;
    match reason {
        7 => descriptor.set_format(rng.pick(&[0, 2, 3, 9, 15])),
        8 => {
            let least = if case.is_strict() { 0 } else { 2 };
            let any = rng.next_u64() as u8 | 0x02;
            descriptor.set(METHOD, rng.pick(&[least, least, 2, 3, 0xff, any]));
        }
        9 => {
            let any = rng.next_u64() as u32 & !1;
            let algorithms = [0, 2, 0x0100_0000, 0x0101, 0x0100_0001, any];
            descriptor.set(ALGORITHM, rng.pick(&algorithms));
        }
        11 => {
            let bits = descriptor.get(PERMISSIONS) as u8;
            descriptor.set(PERMISSIONS, lacking_bits(bits, case.bits(), rng));
        }
        12 => descriptor.set(TAG, other_tag(case.member.unit.tag, rng)),
        13 => spoil_name(&mut descriptor.0, rng),
        14 => {
            let present = case.versions();
            let lacking: Vec<u8> = (0..16).filter(|v| !present.contains(v)).collect();
            descriptor.set_version(rng.pick(&lacking));
        }
        _ => {}
    }
}

/// Permission bits of which at least one that is needed is missing.
fn lacking_bits(bits: u8, needed: u8, rng: &mut Rng) -> u8 {
    let single = (0..8).map(|bit| 1 << bit);
    let single: Vec<u8> = single.filter(|bit| needed & bit != 0).collect();
    let missing = rng.pick(&single);
    rng.pick(&[bits & !missing, !missing, !needed, 0])
}

/// A tag that is neither zero nor the unit's.
fn other_tag(tag: u32, rng: &mut Rng) -> u32 {
    loop {
        let any = rng.next_u64() as u32;
        let near = tag ^ 1 << rng.below(32);
        let other = rng.pick(&[near, near, tag.wrapping_add(1), tag.swap_bytes(), any]);
        if other != 0 && other != tag {
            return other;
        }
    }
}

/// Reason 13: descriptor type, its length or the identifier.
fn spoil_name(bytes: &mut [u8], rng: &mut Rng) {
    match rng.below(3) {
        0 => bytes[TYPE] = bytes[TYPE] & 0xf0 | rng.pick(&[0, 2, 3, 9, 15]),
        1 => bytes[LENGTH] = rng.pick(&[0, 1, 15, 17, 20, 0x90, 0xff]),
        _ => {
            let at = IDENTIFIER.start + rng.below(16) as usize;
            bytes[at] ^= 1 << rng.below(8);
        }
    }
}

/// Reason 15: something that the value depends on is another.
fn spoil_value(draft: &mut Draft, case: &Case, rng: &mut Rng) {
    let Some(wrapping) = &mut draft.wrapping else {
        return;
    };
    match rng.below(6) {
        0 => wrapping.value = sealed_with_another(case, wrapping, &draft.token, rng),
        1 => {
            let at = rng.length(draft.token.len() - 1);
            draft.token[at] ^= 1 << rng.below(8);
        }
        2 if draft.token.len() < 64 => draft.token.push(0),
        3 => {
            let at = rng.pick(&[12, 20, 31, 33, 34, 35]);
            wrapping.descriptor.0[at] ^= 1 << rng.below(8);
        }
        4 => wrapping.descriptor.0[TYPE] ^= 0x10 << rng.below(4),
        _ => {
            let at = rng.pick(&[0, 1, 10, 18, 19]);
            wrapping.value[at] ^= 1 << rng.below(8);
        }
    }
}

/// A value made with a key that is not the row's, or without the token.
fn sealed_with_another(case: &Case, wrapping: &Wrapping, token: &[u8], rng: &mut Rng) -> [u8; 20] {
    let set = &case.member.keeper.keys;
    let descriptor = &wrapping.descriptor;
    let right = case.key(descriptor.version());
    let mut keys = vec![set.master.authentication, set.master.generation];
    // A sharer's own key bytes are zero.
    keys.extend([[0; 20], [0xff; 20]]);
    keys.extend(set.working.iter().flatten());
    let next = set.next.iter();
    keys.extend(next.flat_map(|next| [next.authentication, next.generation]));
    keys.retain(|key| Some(key) != right);
    let key = rng.pick(&keys);
    let right = right.unwrap_or(&key);
    match rng.below(5) {
        0 => hmac_sha1(right, &descriptor.0),
        1 => descriptor.value(&Own, right, &[]),
        _ => descriptor.value(&Own, &key, token),
    }
}
