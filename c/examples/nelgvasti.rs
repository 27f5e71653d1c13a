//! The library for Rust: slices in, `Vec`s out, and errors. The caller of these functions owes nothing: slices and vectors are what the
//! header asks for, and an exclusive reference overlaps nothing.
#![allow(dead_code)]

/// Why a call wrote nothing.
#[derive(Clone, Copy, Debug, PartialEq, Eq)]
pub enum Error {
    /// The message of this number has fewer than 12 octets.
    Short { message: u32 },
    /// This item is the first of the message that can't be read.
    Item { message: u32, section: u32, index: u32 },
    /// An argument is not what the call takes.
    Usage,
    /// Memory ran out.
    Memory,
    /// The messages have no SOA record of the apex.
    NoSoa,
    /// The normal form has more than 65,535 octets.
    TooLarge,
}

/// The digest of a zone.
#[derive(Clone, Copy, Debug, PartialEq, Eq)]
pub struct ZoneDigest {
    pub records: u64,
    pub octets: u64,
    pub digest: [u8; 48],
}

mod raw {
    #[repr(C)]
    #[derive(Default)]
    pub struct ItemPosition {
        pub message: u32,
        pub section: u32,
        pub index: u32,
    }

    #[repr(C)]
    pub struct Digest {
        pub records: u64,
        pub octets: u64,
        pub digest: [u8; 48],
    }

    extern "C" {
        pub fn nelgvasti_canonical_size(
            message: *const u8,
            length: usize,
            octets: *mut usize,
            records: *mut usize,
            position: *mut ItemPosition,
        ) -> u32;
        pub fn nelgvasti_canonical(
            message: *const u8,
            length: usize,
            out: *mut u8,
            capacity: usize,
            out_length: *mut usize,
            position: *mut ItemPosition,
        ) -> u32;
        pub fn nelgvasti_same(
            first: *const u8,
            first_length: usize,
            second: *const u8,
            second_length: usize,
            same: *mut u32,
            position: *mut ItemPosition,
        ) -> u32;
        pub fn nelgvasti_normal(
            message: *const u8,
            length: usize,
            out: *mut u8,
            capacity: usize,
            out_length: *mut usize,
            position: *mut ItemPosition,
        ) -> u32;
        pub fn nelgvasti_zone_digest(
            messages: *const u8,
            messages_length: usize,
            lengths: *const usize,
            lengths_count: usize,
            apex: *const u8,
            apex_length: usize,
            digest: *mut Digest,
            position: *mut ItemPosition,
        ) -> u32;
        pub fn nelgvasti_nsec3_hash(name: *const u8, name_length: usize, salt: *const u8, salt_length: usize, iterations: u16, hash: *mut [u8; 20]) -> u32;
        pub fn nelgvasti_key_tag(rdata: *const u8, length: usize, tag: *mut u16) -> u32;
        pub fn nelgvasti_compare_records(first: *const u8, first_length: usize, second: *const u8, second_length: usize, order: *mut i32) -> u32;
    }
}

impl Error {
    /// What an answer says; none if everything was written.
    fn check(answer: u32, position: &raw::ItemPosition) -> Result<(), Error> {
        let raw::ItemPosition { message, section, index } = *position;
        match answer {
            0 => Ok(()),
            1 => Err(Error::Short { message }),
            2 => Err(Error::Item { message, section, index }),
            5 => Err(Error::Usage),
            10 => Err(Error::NoSoa),
            11 => Err(Error::TooLarge),
            _ => Err(Error::Memory),
        }
    }

    /// The exit status of `dnscanon` for the same.
    pub fn code(&self) -> u8 {
        match self {
            Error::Short { .. } => 1,
            Error::Item { .. } => 2,
            Error::Usage => 5,
            Error::Memory => 8,
            Error::NoSoa => 10,
            Error::TooLarge => 11,
        }
    }
}

/// The canonical octets of each record of a message other than OPT, in canonical order.
pub fn canonical(message: &[u8]) -> Result<Vec<Vec<u8>>, Error> {
    let (mut octets, mut records, mut position) = (0, 0, raw::ItemPosition::default());
    // SAFETY: the pointers are of slices and of variables of this function, which are initialised and do not overlap.
    let answer = unsafe { raw::nelgvasti_canonical_size(message.as_ptr(), message.len(), &mut octets, &mut records, &mut position) };
    Error::check(answer, &position)?;
    let mut list = vec![0; octets];
    // SAFETY: as above.
    let answer = unsafe { raw::nelgvasti_canonical(message.as_ptr(), message.len(), list.as_mut_ptr(), list.len(), &mut octets, &mut position) };
    Error::check(answer, &position)?;
    let mut lists = Vec::with_capacity(records);
    while !list.is_empty() {
        let rest = list.split_off(record_size(&list));
        lists.push(list);
        list = rest;
    }
    Ok(lists)
}

/// Where the owner ends of the record with which octets begin.
pub fn owner_end(octets: &[u8]) -> usize {
    let mut end = 0;
    while octets[end] != 0 {
        end += 1 + usize::from(octets[end]);
    }
    end + 1
}

/// How many octets the record has with which octets begin.
fn record_size(octets: &[u8]) -> usize {
    let end = owner_end(octets) + 10;
    end + usize::from(u16::from_be_bytes([octets[end - 2], octets[end - 1]]))
}

/// Whether two messages carry the same records other than OPT.
pub fn same(first: &[u8], second: &[u8]) -> Result<bool, Error> {
    let (mut same, mut position) = (0, raw::ItemPosition::default());
    // SAFETY: as in `canonical`.
    let answer = unsafe { raw::nelgvasti_same(first.as_ptr(), first.len(), second.as_ptr(), second.len(), &mut same, &mut position) };
    Error::check(answer, &position)?;
    Ok(same == 1)
}

/// The normal form of a message.
pub fn normal(message: &[u8]) -> Result<Vec<u8>, Error> {
    let (mut form, mut length, mut position) = (vec![0; 65535], 0, raw::ItemPosition::default());
    // SAFETY: as in `canonical`.
    let answer = unsafe { raw::nelgvasti_normal(message.as_ptr(), message.len(), form.as_mut_ptr(), form.len(), &mut length, &mut position) };
    Error::check(answer, &position)?;
    form.truncate(length);
    Ok(form)
}

/// The digest of the zone of an apex, a name in wire format, for the records of messages.
pub fn zone_digest(messages: &[Vec<u8>], apex: &[u8]) -> Result<ZoneDigest, Error> {
    let octets = messages.concat();
    let lengths: Vec<usize> = messages.iter().map(Vec::len).collect();
    let mut position = raw::ItemPosition::default();
    let mut found = raw::Digest { records: 0, octets: 0, digest: [0; 48] };
    // SAFETY: as in `canonical`.
    let answer = unsafe {
        raw::nelgvasti_zone_digest(octets.as_ptr(), octets.len(), lengths.as_ptr(), lengths.len(), apex.as_ptr(), apex.len(), &mut found, &mut position)
    };
    Error::check(answer, &position)?;
    Ok(ZoneDigest { records: found.records, octets: found.octets, digest: found.digest })
}

/// The hash of a name in wire format for NSEC3.
pub fn nsec3_hash(name: &[u8], salt: &[u8], iterations: u16) -> Result<[u8; 20], Error> {
    let mut hash = [0; 20];
    // SAFETY: as in `canonical`.
    let answer = unsafe { raw::nelgvasti_nsec3_hash(name.as_ptr(), name.len(), salt.as_ptr(), salt.len(), iterations, &mut hash) };
    Error::check(answer, &raw::ItemPosition::default())?;
    Ok(hash)
}

/// The tag of a key by the data of its DNSKEY record.
pub fn key_tag(rdata: &[u8]) -> Result<u16, Error> {
    let mut tag = 0;
    // SAFETY: as in `canonical`.
    let answer = unsafe { raw::nelgvasti_key_tag(rdata.as_ptr(), rdata.len(), &mut tag) };
    Error::check(answer, &raw::ItemPosition::default())?;
    Ok(tag)
}

/// The canonical order of two records, which are given as their octets without pointers.
pub fn compare_records(first: &[u8], second: &[u8]) -> Result<std::cmp::Ordering, Error> {
    let mut order = 0;
    // SAFETY: as in `canonical`.
    let answer = unsafe { raw::nelgvasti_compare_records(first.as_ptr(), first.len(), second.as_ptr(), second.len(), &mut order) };
    Error::check(answer, &raw::ItemPosition::default())?;
    Ok(order.cmp(&0))
}
