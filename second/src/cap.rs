//! A capability and its form in memory.

/// Permission bit numbers, 004 table 3.2.
pub const GLOBAL: u32 = 0;
pub const PERMIT_EXECUTE: u32 = 1;
pub const PERMIT_LOAD: u32 = 2;
pub const PERMIT_STORE: u32 = 3;
pub const PERMIT_LOAD_CAPABILITY: u32 = 4;
pub const PERMIT_STORE_CAPABILITY: u32 = 5;
pub const PERMIT_STORE_LOCAL_CAPABILITY: u32 = 6;
pub const PERMIT_SEAL: u32 = 7;
pub const ACCESS_EPCC: u32 = 10;
pub const ACCESS_KDC: u32 = 11;
pub const ACCESS_KCC: u32 = 12;
pub const ACCESS_KR1C: u32 = 13;
pub const ACCESS_KR2C: u32 = 14;

/// The 31 bits of the permission field.
pub const PERMS_MASK: u32 = 0x7FFF_FFFF;
/// The 24 bits of the otype field.
pub const OTYPE_MASK: u32 = 0x00FF_FFFF;
/// One past the last address, 2^64.
pub const ADDRESS_END: u128 = 1 << 64;

#[derive(Clone, Copy, PartialEq, Eq, Debug, Default)]
pub struct Cap {
    pub tag: bool,
    pub sealed: bool,
    /// 31 bits, bit 0 lowest.
    pub perms: u32,
    /// 24 bits.
    pub otype: u32,
    pub spare: u8,
    pub base: u64,
    pub length: u64,
    pub offset: u64,
}

impl Cap {
    /// True where the permission with this bit number is granted.
    pub fn has(&self, permission: u32) -> bool {
        (self.perms >> permission) & 1 == 1
    }

    /// base + offset mod 2^64, where 004 writes mod.
    pub fn cursor(&self) -> u64 {
        self.base.wrapping_add(self.offset)
    }

    /// base + offset as an exact sum, where 004 writes no mod.
    pub fn exact_cursor(&self) -> u128 {
        u128::from(self.base) + u128::from(self.offset)
    }

    /// base + length as an exact sum.
    pub fn top(&self) -> u128 {
        u128::from(self.base) + u128::from(self.length)
    }

    /// A tagged capability that leaves the address space is refused with 22.
    pub fn tagged_past_end(&self) -> bool {
        self.tag && self.top() > ADDRESS_END
    }

    /// A field past its width is refused with 24, tagged or not (ruling B3).
    pub fn field_past_width(&self) -> bool {
        self.perms > PERMS_MASK || self.otype > OTYPE_MASK
    }

    /// True where the range covers all bytes from address to address + size.
    pub fn covers(&self, address: u64, size: u64) -> bool {
        let end = u128::from(address) + u128::from(size);
        self.base <= address && end <= self.top()
    }

    /// The four doublewords in memory; the tag lies elsewhere.
    pub fn to_bytes(&self) -> [u8; 32] {
        let first = u64::from(self.spare) << 56
            | u64::from(self.otype & OTYPE_MASK) << 32
            | u64::from(self.perms & PERMS_MASK) << 1
            | u64::from(self.sealed);
        let mut bytes = [0; 32];
        bytes[0..8].copy_from_slice(&first.to_be_bytes());
        bytes[8..16].copy_from_slice(&self.cursor().to_be_bytes());
        bytes[16..24].copy_from_slice(&self.base.to_be_bytes());
        bytes[24..32].copy_from_slice(&self.length.to_be_bytes());
        bytes
    }

    /// The offset is the second doubleword minus the third, mod 2^64.
    pub fn from_bytes(bytes: &[u8; 32], tag: bool) -> Cap {
        let first = doubleword(bytes, 0);
        let base = doubleword(bytes, 2);
        Cap {
            tag,
            sealed: first & 1 == 1,
            perms: (first >> 1) as u32 & PERMS_MASK,
            otype: (first >> 32) as u32 & OTYPE_MASK,
            spare: (first >> 56) as u8,
            base,
            length: doubleword(bytes, 3),
            offset: doubleword(bytes, 1).wrapping_sub(base),
        }
    }
}

/// The big-endian doubleword with this number, counted from 0.
fn doubleword(bytes: &[u8; 32], number: usize) -> u64 {
    let mut part = [0; 8];
    part.copy_from_slice(&bytes[8 * number..8 * number + 8]);
    u64::from_be_bytes(part)
}
