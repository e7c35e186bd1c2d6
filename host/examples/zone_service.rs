//! A server of DNS zones without a socket, proved: the safe way to call it from Rust, over std alone, and the only unsafe code.
//!
//! What `zone_service.h` asks of a caller is kept here: a server has one owner, is lent to one call at a time and stays in its thread
//! (it is neither `Send` nor `Sync`), slices are what they say, and what is written to overlaps nothing else.

use std::ffi::c_void;
use std::fmt;
use std::net::{IpAddr, SocketAddr};
use std::ptr;

/// A reply is at most so long, with its length before it. A buffer of this size takes at least one.
pub const FRAME: usize = 65_537;

#[repr(C)]
struct Raw {
    at: *mut c_void,
}

type Set = unsafe extern "C" fn(*mut Raw, *const u8, usize, *mut u8, usize, *mut usize) -> u32;
#[rustfmt::skip]
type SetOfZone = unsafe extern "C" fn(*mut Raw, *const u8, usize, *const u8, usize, *mut u8, usize, *mut usize) -> u32;

#[rustfmt::skip]
unsafe extern "C" {
    fn zone_service_create(at: *mut *mut c_void) -> u32;
    fn zone_service_free(service: Raw);
    fn zone_service_set_blocklist(service: *mut Raw, text: *const u8, len: usize, fault: *mut u8, room: usize, length: *mut usize) -> u32;
    fn zone_service_add_zone(service: *mut Raw, name: *const u8, name_len: usize, text: *const u8, len: usize, fault: *mut u8, room: usize, length: *mut usize) -> u32;
    fn zone_service_allow_update(service: *mut Raw, name: *const u8, name_len: usize, rule: *const u8, len: usize, fault: *mut u8, room: usize, length: *mut usize) -> u32;
    fn zone_service_serve_zones(service: *mut Raw, fault: *mut u8, room: usize, length: *mut usize) -> u32;
    fn zone_service_set_keys(service: *mut Raw, text: *const u8, len: usize, fault: *mut u8, room: usize, length: *mut usize) -> u32;
    fn zone_service_set_query_log(service: *mut Raw, every: u32);
    fn zone_service_take_log(service: *mut Raw, out: *mut u8, room: usize) -> usize;
    fn zone_service_allow_transfer_key(service: *mut Raw, name: *const u8, len: usize, fault: *mut u8, room: usize, length: *mut usize) -> u32;
    fn zone_service_set_allowed(service: *mut Raw, network: *const u8, len: usize, fault: *mut u8, room: usize, length: *mut usize) -> u32;
    fn zone_service_set_denied(service: *mut Raw, network: *const u8, len: usize, fault: *mut u8, room: usize, length: *mut usize) -> u32;
    fn zone_service_set_transfer_allowed(service: *mut Raw, network: *const u8, len: usize, fault: *mut u8, room: usize, length: *mut usize) -> u32;
    fn zone_service_set_transfer_denied(service: *mut Raw, network: *const u8, len: usize, fault: *mut u8, room: usize, length: *mut usize) -> u32;
    fn zone_service_set_zone_transfer_allowed(service: *mut Raw, zone: *const u8, zone_len: usize, network: *const u8, len: usize, fault: *mut u8, room: usize, length: *mut usize) -> u32;
    fn zone_service_set_zone_transfer_denied(service: *mut Raw, zone: *const u8, zone_len: usize, network: *const u8, len: usize, fault: *mut u8, room: usize, length: *mut usize) -> u32;
    fn zone_service_allow_zone_transfer_key(service: *mut Raw, zone: *const u8, zone_len: usize, name: *const u8, len: usize, fault: *mut u8, room: usize, length: *mut usize) -> u32;
    fn zone_service_set_max_udp(service: *mut Raw, size: u16, fault: *mut u8, room: usize, length: *mut usize) -> u32;
    fn zone_service_set_rate_limit(service: *mut Raw, rate: u32, slip: u32, fault: *mut u8, room: usize, length: *mut usize) -> u32;
    fn zone_service_set_identifier(service: *mut Raw, text: *const u8, len: usize, fault: *mut u8, room: usize, length: *mut usize) -> u32;
    fn zone_service_answer(service: *mut Raw, message: *const u8, len: usize, source: *const u8, source_len: usize, port: u16, stream: bool, now: u64,
        out: *mut u8, room: usize, written: *mut usize, waiting: *mut usize) -> u32;
    fn zone_service_answer_stream(service: *mut Raw, bytes: *const u8, len: usize, source: *const u8, source_len: usize, port: u16, now: u64,
        out: *mut u8, room: usize, taken: *mut usize, written: *mut usize, waiting: *mut usize) -> u32;
    fn zone_service_take(service: *mut Raw, out: *mut u8, room: usize, waiting: *mut usize) -> usize;
    fn zone_service_counters(service: *mut Raw, counters: *mut Counters);
    fn zone_service_statistics(counters: *const Counters, out: *mut u8, room: usize, length: *mut usize) -> u32;
}

/// Why a setting is not taken, as a text.
#[derive(Debug, Clone, PartialEq, Eq)]
pub struct SettingFault(pub String);

impl fmt::Display for SettingFault {
    fn fmt(&self, f: &mut fmt::Formatter<'_>) -> fmt::Result {
        f.write_str(&self.0)
    }
}

impl std::error::Error for SettingFault {}

/// Why a message has no reply.
#[derive(Debug, Clone, Copy, PartialEq, Eq)]
pub enum Refusal {
    /// Its address may not use the server.
    Denied,
    /// It is itself a response.
    Response,
    /// It is shorter than a header (RFC 1035 section 4.1.1).
    Unreadable,
    /// Memory was refused; the zones are as before.
    Memory,
    /// Memory was refused for the replies to a message that was handled.
    MemoryAfterHandling,
    /// The reply to a datagram is kept back, since its network got as many as it may.
    Limited,
}

/// What was written: replies, each behind its length in two bytes (RFC 1035 section 4.2.2).
#[derive(Debug, Clone, Copy, PartialEq, Eq)]
pub struct Written {
    /// How many bytes.
    pub len: usize,
    /// How many replies are left for `take`.
    pub waiting: usize,
}

/// What became of the front of a stream.
#[derive(Debug, Clone, Copy, PartialEq, Eq)]
pub struct Streamed {
    /// How many bytes were taken: whole messages, each with its length.
    pub taken: usize,
    /// What was written of their replies.
    pub written: Written,
    /// Why the last of them has none.
    pub refusal: Option<Refusal>,
}

/// What a server has done since it was made. Each number stops at 2^64 - 1.
#[derive(Debug, Clone, Copy, Default, PartialEq, Eq)]
#[repr(C)]
pub struct Counters {
    /// Messages that came as datagrams.
    pub udp: u64,
    /// Messages that came over streams.
    pub tcp: u64,
    /// Bytes of these, without the lengths before them.
    pub received: u64,
    /// Messages whose address may not use the server.
    pub denied: u64,
    /// Messages that were themselves responses.
    pub responses: u64,
    /// Messages that began with none.
    pub unreadable: u64,
    /// Messages for which memory was refused.
    pub dropped: u64,
    /// Messages whose reply was kept back, since their networks got as many as they may.
    pub limited: u64,
    /// Replies that were written, by the response code in their headers.
    pub codes: [u64; 16],
    /// Those that are truncated.
    pub truncated: u64,
    /// Bytes of replies, without the lengths before them.
    pub sent: u64,
}

impl Counters {
    /// The text in which monitoring reads numbers (Prometheus' text-based format); `None` without memory.
    pub fn statistics(&self) -> Option<String> {
        let (mut text, mut length) = (vec![0; 2048], 0);
        // SAFETY: the slice is ours.
        let told = unsafe { zone_service_statistics(self, text.as_mut_ptr(), text.len(), &mut length) };
        text.truncate(length);
        (told == 0).then(|| String::from_utf8_lossy(&text).into_owned())
    }
}

/// How a message came.
#[derive(Debug, Clone, Copy, PartialEq, Eq)]
pub enum Transport {
    Datagram,
    Stream,
}

/// The bytes of an address, in the front of so many.
fn octets(address: IpAddr) -> ([u8; 16], usize) {
    match address {
        IpAddr::V4(a) => {
            let mut octets = [0; 16];
            octets[..4].copy_from_slice(&a.octets());
            (octets, 4)
        }
        IpAddr::V6(a) => (a.octets(), 16),
    }
}

/// What a number says.
fn refusal(told: u32) -> Option<Refusal> {
    match told {
        0 => None,
        1 => Some(Refusal::Denied),
        2 => Some(Refusal::Response),
        3 => Some(Refusal::Unreadable),
        5 => Some(Refusal::MemoryAfterHandling),
        8 => Some(Refusal::Limited),
        _ => Some(Refusal::Memory),
    }
}

/// A server.
pub struct ZoneService(Raw);

impl Drop for ZoneService {
    fn drop(&mut self) {
        // SAFETY: it was made by `zone_service_create`, and this is its end.
        unsafe { zone_service_free(Raw { at: self.0.at }) }
    }
}

impl ZoneService {
    /// A server without zones, which everybody may use; `None` without memory.
    pub fn new() -> Option<ZoneService> {
        let mut at = ptr::null_mut();
        // SAFETY: `at` is a pointer of ours.
        (unsafe { zone_service_create(&mut at) } == 0).then_some(ZoneService(Raw { at }))
    }

    fn told(set: u32, fault: &[u8], length: usize) -> Result<(), SettingFault> {
        match set {
            0 => Ok(()),
            _ => Err(SettingFault(String::from_utf8_lossy(&fault[..length]).into_owned())),
        }
    }

    fn set(&mut self, call: Set, text: &[u8]) -> Result<(), SettingFault> {
        let (mut fault, mut length) = ([0; 256], 0);
        // SAFETY: the server is ours alone, and the slices are apart.
        let set = unsafe { call(&mut self.0, text.as_ptr(), text.len(), fault.as_mut_ptr(), fault.len(), &mut length) };
        Self::told(set, &fault, length)
    }

    #[rustfmt::skip]
    fn set_of_zone(&mut self, call: SetOfZone, zone: &str, text: &str) -> Result<(), SettingFault> {
        let (mut fault, mut length) = ([0; 256], 0);
        // SAFETY: the server is ours alone, and the slices are apart.
        let set = unsafe {
            call(&mut self.0, zone.as_ptr(), zone.len(), text.as_ptr(), text.len(), fault.as_mut_ptr(), fault.len(), &mut length)
        };
        Self::told(set, &fault, length)
    }

    /// Has the names that a text lists blocked in each zone that is added later. The text that it gives tells what was skipped, if anything was.
    #[rustfmt::skip]
    pub fn set_blocklist(&mut self, text: &[u8]) -> Result<String, SettingFault> {
        let (mut skipped, mut length) = ([0; 256], 0);
        // SAFETY: the server is ours alone, and the slices are apart.
        let set = unsafe {
            zone_service_set_blocklist(&mut self.0, text.as_ptr(), text.len(), skipped.as_mut_ptr(), skipped.len(), &mut length)
        };
        Self::told(set, &skipped, length)?;
        Ok(String::from_utf8_lossy(&skipped[..length]).into_owned())
    }

    /// Lets the addresses of a network use the server.
    pub fn allow(&mut self, network: &str) -> Result<(), SettingFault> {
        self.set(zone_service_set_allowed, network.as_bytes())
    }

    /// Keeps the addresses of a network from the server.
    pub fn deny(&mut self, network: &str) -> Result<(), SettingFault> {
        self.set(zone_service_set_denied, network.as_bytes())
    }

    /// Lets the addresses of a network have zones transferred that have no rules of their own.
    pub fn allow_transfer(&mut self, network: &str) -> Result<(), SettingFault> {
        self.set(zone_service_set_transfer_allowed, network.as_bytes())
    }

    /// Keeps transfers of these zones from the addresses of a network.
    pub fn deny_transfer(&mut self, network: &str) -> Result<(), SettingFault> {
        self.set(zone_service_set_transfer_denied, network.as_bytes())
    }

    /// Lets the addresses of a network have a zone transferred that was added.
    pub fn allow_zone_transfer(&mut self, zone: &str, network: &str) -> Result<(), SettingFault> {
        self.set_of_zone(zone_service_set_zone_transfer_allowed, zone, network)
    }

    /// Keeps a zone that was added from the addresses of a network.
    pub fn deny_zone_transfer(&mut self, zone: &str, network: &str) -> Result<(), SettingFault> {
        self.set_of_zone(zone_service_set_zone_transfer_denied, zone, network)
    }

    /// Lets requests that this key signed have a zone transferred that was added, from anywhere.
    pub fn allow_zone_transfer_key(&mut self, zone: &str, name: &str) -> Result<(), SettingFault> {
        self.set_of_zone(zone_service_allow_zone_transfer_key, zone, name)
    }

    /// Sets what identifies the server to clients that ask (RFC 5001).
    pub fn set_identifier(&mut self, text: &[u8]) -> Result<(), SettingFault> {
        self.set(zone_service_set_identifier, text)
    }

    /// Sets how many bytes a reply over UDP has at most, from 512 on.
    pub fn set_max_udp(&mut self, size: u16) -> Result<(), SettingFault> {
        let (mut fault, mut length) = ([0; 256], 0);
        // SAFETY: the server is ours alone, and the slices are apart.
        let set = unsafe { zone_service_set_max_udp(&mut self.0, size, fault.as_mut_ptr(), fault.len(), &mut length) };
        Self::told(set, &fault, length)
    }

    /// Sets how many replies to datagrams a network of clients gets in a second, and of how many above that one is truncated; all are sent
    /// where the rate is 0.
    pub fn set_rate_limit(&mut self, rate: u32, slip: u32) -> Result<(), SettingFault> {
        let (mut fault, mut length) = ([0; 256], 0);
        // SAFETY: the server is ours alone, and the slices are apart.
        let set = unsafe { zone_service_set_rate_limit(&mut self.0, rate, slip, fault.as_mut_ptr(), fault.len(), &mut length) };
        Self::told(set, &fault, length)
    }

    /// Adds the zone of this name from the text of its file, and serves it from then on.
    #[rustfmt::skip]
    pub fn add_zone(&mut self, name: &str, text: &[u8]) -> Result<(), SettingFault> {
        let (mut fault, mut length) = ([0; 256], 0);
        // SAFETY: the server is ours alone, and the slices are apart.
        let set = unsafe {
            zone_service_add_zone(&mut self.0, name.as_ptr(), name.len(), text.as_ptr(), text.len(), fault.as_mut_ptr(), fault.len(), &mut length)
        };
        Self::told(set, &fault, length)
    }

    /// Takes the keys of a file (TSIG), in BIND's form, Knot's or dig's.
    pub fn set_keys(&mut self, text: &[u8]) -> Result<(), SettingFault> {
        self.set(zone_service_set_keys, text)
    }

    /// Lets requests that this key signed have transfers from anywhere.
    pub fn allow_transfer_key(&mut self, name: &str) -> Result<(), SettingFault> {
        self.set(zone_service_allow_transfer_key, name.as_bytes())
    }

    /// Lets the zone of this name take the updates that a rule grants: `KEY [zone|subdomain NAME|name NAME|self] [TYPE..]`.
    pub fn allow_update(&mut self, zone: &str, rule: &str) -> Result<(), SettingFault> {
        self.set_of_zone(zone_service_allow_update, zone, rule)
    }

    /// Gives the zones that were added their rules, by which they take updates. After the last zone and rule, once.
    pub fn serve_zones(&mut self) -> Result<(), SettingFault> {
        let (mut fault, mut length) = ([0; 256], 0);
        // SAFETY: the server is ours alone, and the slices are apart.
        let set = unsafe { zone_service_serve_zones(&mut self.0, fault.as_mut_ptr(), fault.len(), &mut length) };
        Self::told(set, &fault, length)
    }

    /// Answers a message that came at a moment in seconds since 1970: writes its replies, as many as there is room for.
    #[rustfmt::skip]
    pub fn answer(&mut self, message: &[u8], source: SocketAddr, transport: Transport, now: u64, out: &mut [u8]) -> Result<Written, Refusal> {
        let (octets, count) = octets(source.ip());
        let (mut len, mut waiting) = (0, 0);
        // SAFETY: the server is ours alone, and the slices are apart.
        let told = unsafe {
            zone_service_answer(&mut self.0, message.as_ptr(), message.len(), octets.as_ptr(), count, source.port(),
                transport == Transport::Stream, now, out.as_mut_ptr(), out.len(), &mut len, &mut waiting)
        };
        match refusal(told) {
            None => Ok(Written { len, waiting }),
            Some(refusal) => Err(refusal),
        }
    }

    /// Answers the messages that stand whole at the front of a stream's bytes, each behind its length, while `out` has room for a reply of
    /// any size and none waits, up to one that has no reply. Replies that waited before are let go.
    #[rustfmt::skip]
    pub fn answer_stream(&mut self, bytes: &[u8], source: SocketAddr, now: u64, out: &mut [u8]) -> Streamed {
        let (octets, count) = octets(source.ip());
        let (mut taken, mut len, mut waiting) = (0, 0, 0);
        // SAFETY: the server is ours alone, and the slices are apart.
        let told = unsafe {
            zone_service_answer_stream(&mut self.0, bytes.as_ptr(), bytes.len(), octets.as_ptr(), count, source.port(), now,
                out.as_mut_ptr(), out.len(), &mut taken, &mut len, &mut waiting)
        };
        Streamed { taken, written: Written { len, waiting }, refusal: refusal(told) }
    }

    /// Writes more of the replies that wait.
    pub fn take(&mut self, out: &mut [u8]) -> Written {
        let mut waiting = 0;
        // SAFETY: the server is ours alone, and the slices are apart.
        let len = unsafe { zone_service_take(&mut self.0, out.as_mut_ptr(), out.len(), &mut waiting) };
        Written { len, waiting }
    }

    /// Has the next message with replies and then one in so many told by a line, or none where that is 0.
    pub fn set_query_log(&mut self, every: u32) {
        // SAFETY: the server is ours alone.
        unsafe { zone_service_set_query_log(&mut self.0, every) };
    }

    /// Writes lines that tell queries, and says how many bytes they are.
    pub fn take_log(&mut self, out: &mut [u8]) -> usize {
        // SAFETY: the server and what is written to are ours alone.
        unsafe { zone_service_take_log(&mut self.0, out.as_mut_ptr(), out.len()) }
    }

    /// What the server has done since it was made.
    pub fn counters(&mut self) -> Counters {
        let mut counters = Counters::default();
        // SAFETY: the server and what is written to are ours alone.
        unsafe { zone_service_counters(&mut self.0, &mut counters) };
        counters
    }
}
