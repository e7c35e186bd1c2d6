//! The calls of trust-dns 0.22 that are measured: one C function for each, as in `bench.h`. The calls alone stand in a
//! function whose name begins with `measured`, so that a tool that counts by functions sees them apart.

use std::collections::HashSet;
use std::hint::black_box;
use std::io;
use std::net::{IpAddr, Ipv4Addr, SocketAddr};
use std::slice;
use std::str;
use std::sync::atomic::{AtomicU64, Ordering};
use std::sync::Arc;

use futures_executor::block_on;
use trust_dns_client::rr::LowerName;
use trust_dns_proto::op::{Message, Query};
use trust_dns_proto::rr::{Name, RData, Record, RecordType};
use trust_dns_proto::serialize::binary::{BinDecodable, BinDecoder, BinEncodable, BinEncoder};
use trust_dns_server::authority::{Authority, Catalog, MessageRequest, MessageResponse, ZoneType};
use trust_dns_server::server::{Protocol, Request, RequestHandler, ResponseHandler, ResponseInfo};
use trust_dns_server::store::in_memory::InMemoryAuthority;
use trust_dns_server::store::sqlite::SqliteAuthority;

/// What is answered where the input of a case is wrong.
const WRONG: u64 = u64::MAX;

/// # Safety
/// `bytes` points to `len` bytes.
unsafe fn bytes_at<'a>(bytes: *const u8, len: usize) -> &'a [u8] {
    slice::from_raw_parts(bytes, len)
}

fn source() -> SocketAddr {
    SocketAddr::new(IpAddr::V4(Ipv4Addr::LOCALHOST), 53)
}

fn request(bytes: &[u8]) -> Option<Request> {
    let message = MessageRequest::from_bytes(bytes).ok()?;
    Some(Request::new(message, source(), Protocol::Tcp))
}

#[inline(never)]
fn measured_read_request(bytes: &[u8], rounds: u64) -> u64 {
    let mut read = 0;
    for _ in 0..rounds {
        read += u64::from(request(bytes).is_some());
    }
    read
}

/// Reads a request; the number of rounds in which it was read.
///
/// # Safety
/// `bytes` points to `len` bytes.
#[no_mangle]
pub unsafe extern "C" fn peer_read_request(bytes: *const u8, len: usize, rounds: u64) -> u64 {
    measured_read_request(bytes_at(bytes, len), rounds)
}

#[inline(never)]
fn measured_read_message(bytes: &[u8], rounds: u64) -> u64 {
    let mut read = 0;
    for _ in 0..rounds {
        match Message::from_vec(bytes) {
            Ok(message) => read += message.answers().len() as u64,
            Err(_) => return WRONG,
        }
    }
    read
}

/// Reads a message; the number of answers read in all rounds.
///
/// # Safety
/// `bytes` points to `len` bytes.
#[no_mangle]
pub unsafe extern "C" fn peer_read_message(bytes: *const u8, len: usize, rounds: u64) -> u64 {
    measured_read_message(bytes_at(bytes, len), rounds)
}

fn written_len(message: &Message, limit: u16) -> Option<usize> {
    let mut buffer = Vec::with_capacity(512);
    let mut encoder = BinEncoder::new(&mut buffer);
    encoder.set_max_size(limit);
    message.emit(&mut encoder).ok()?;
    Some(buffer.len())
}

#[inline(never)]
fn measured_write_message(message: &Message, limit: u16, rounds: u64) -> u64 {
    let mut written = 0;
    for _ in 0..rounds {
        match written_len(message, limit) {
            Some(len) => written += len as u64,
            None => return WRONG,
        }
    }
    written
}

/// Writes a message within a limit; the number of bytes written in all rounds.
///
/// # Safety
/// `bytes` points to `len` bytes.
#[no_mangle]
pub unsafe extern "C" fn peer_write_message(
    bytes: *const u8,
    len: usize,
    limit: u16,
    rounds: u64,
) -> u64 {
    match Message::from_vec(bytes_at(bytes, len)) {
        Ok(message) => measured_write_message(&message, limit, rounds),
        Err(_) => WRONG,
    }
}

/// Counts the bytes of the replies.
#[derive(Clone)]
struct Sink(Arc<AtomicU64>);

#[async_trait::async_trait]
impl ResponseHandler for Sink {
    async fn send_response<'a>(
        &mut self,
        response: MessageResponse<
            '_,
            'a,
            impl Iterator<Item = &'a Record> + Send + 'a,
            impl Iterator<Item = &'a Record> + Send + 'a,
            impl Iterator<Item = &'a Record> + Send + 'a,
            impl Iterator<Item = &'a Record> + Send + 'a,
        >,
    ) -> io::Result<ResponseInfo> {
        let mut buffer = Vec::with_capacity(512);
        let mut encoder = BinEncoder::new(&mut buffer);
        let info = response
            .destructive_emit(&mut encoder)
            .map_err(|e| io::Error::new(io::ErrorKind::Other, e.to_string()))?;
        self.0.fetch_add(buffer.len() as u64, Ordering::Relaxed);
        Ok(info)
    }
}

/// The zone of these records, the SOA first.
fn authority(records: &[Record], allow_axfr: bool) -> Option<InMemoryAuthority> {
    let origin = records.first()?.name().clone();
    let mut authority = InMemoryAuthority::empty(origin, ZoneType::Primary, allow_axfr);
    for record in records {
        authority.upsert_mut(record.clone(), 0);
    }
    Some(authority)
}

/// The catalog of one zone.
fn catalog_of(authority: InMemoryAuthority) -> Catalog {
    let mut catalog = Catalog::new();
    catalog.upsert(authority.origin().clone(), Box::new(Arc::new(authority)));
    catalog
}

/// The catalog of the zone whose records are the answers of a message, the SOA first.
fn catalog(zone: &[u8]) -> Option<Catalog> {
    let message = Message::from_vec(zone).ok()?;
    Some(catalog_of(authority(message.answers(), false)?))
}

#[inline(never)]
fn measured_answer_request(
    catalog: &Catalog,
    sink: &Sink,
    bytes: &[u8],
    rounds: u64,
) -> Option<()> {
    for _ in 0..rounds {
        let request = request(bytes)?;
        block_on(catalog.handle_request(&request, sink.clone()));
    }
    Some(())
}

fn answered_len(catalog: &Catalog, bytes: &[u8], rounds: u64) -> Option<u64> {
    let sink = Sink(Arc::new(AtomicU64::new(0)));
    measured_answer_request(catalog, &sink, bytes, rounds)?;
    Some(sink.0.load(Ordering::Relaxed))
}

/// Answers a request; the number of bytes of all replies.
///
/// # Safety
/// `zone` points to `zone_len` bytes, `bytes` to `len` bytes.
#[no_mangle]
pub unsafe extern "C" fn peer_answer_request(
    zone: *const u8,
    zone_len: usize,
    bytes: *const u8,
    len: usize,
    rounds: u64,
) -> u64 {
    let Some(catalog) = catalog(bytes_at(zone, zone_len)) else {
        return WRONG;
    };
    answered_len(&catalog, bytes_at(bytes, len), rounds).unwrap_or(WRONG)
}

/// The answers of messages, each behind its length (RFC 1035 section 4.2.2).
fn answers(bytes: &[u8]) -> Option<Vec<Record>> {
    let mut records = Vec::new();
    let mut rest = bytes;
    while let [high, low, behind @ ..] = rest {
        let len = usize::from(u16::from_be_bytes([*high, *low]));
        records.extend_from_slice(Message::from_vec(behind.get(..len)?).ok()?.answers());
        rest = behind.get(len..)?;
    }
    Some(records)
}

/// Answers a request for a transfer of a zone; the number of bytes of all replies.
///
/// # Safety
/// `zone` points to `zone_len` bytes, `bytes` to `len` bytes.
#[no_mangle]
pub unsafe extern "C" fn peer_answer_transfer(
    zone: *const u8,
    zone_len: usize,
    bytes: *const u8,
    len: usize,
    rounds: u64,
) -> u64 {
    let records = answers(bytes_at(zone, zone_len)).unwrap_or_default();
    let Some(authority) = authority(&records, true) else {
        return WRONG;
    };
    answered_len(&catalog_of(authority), bytes_at(bytes, len), rounds).unwrap_or(WRONG)
}

/// Makes an update that may be made; whether it changed the zone.
fn update(zone: &SqliteAuthority, records: &[Record]) -> Option<bool> {
    block_on(async {
        zone.pre_scan(records).await.ok()?;
        zone.update_records(records, true).await.ok()
    })
}

#[inline(never)]
fn measured_update(
    zone: &SqliteAuthority,
    first: &[Record],
    second: &[Record],
    rounds: u64,
) -> Option<u64> {
    let mut changed = 0;
    for _ in 0..rounds {
        let is_changed = update(zone, first)?;
        changed += u64::from(update(zone, second)? && is_changed);
    }
    Some(changed)
}

fn updated(zone: &[u8], updates: &[u8], rounds: u64) -> Option<u64> {
    let zone = SqliteAuthority::new(authority(&answers(zone)?, true)?, true, false);
    let message = Message::from_vec(updates).ok()?;
    measured_update(&zone, message.answers(), message.name_servers(), rounds)
}

/// Makes two updates of a zone: what the answers of a message say, then what its authorities say; the number of rounds in
/// which both changed the zone.
///
/// # Safety
/// `zone` points to `zone_len` bytes, `updates` to `len` bytes.
#[no_mangle]
pub unsafe extern "C" fn peer_update(
    zone: *const u8,
    zone_len: usize,
    updates: *const u8,
    len: usize,
    rounds: u64,
) -> u64 {
    updated(bytes_at(zone, zone_len), bytes_at(updates, len), rounds).unwrap_or(WRONG)
}

fn name(decoder: &mut BinDecoder<'_>) -> Option<LowerName> {
    Name::read(decoder).ok().map(|name| LowerName::new(&name))
}

/// The names that stand in bytes one behind the other.
fn names(bytes: &[u8]) -> Option<Vec<LowerName>> {
    let mut decoder = BinDecoder::new(bytes);
    let mut names = Vec::new();
    while !decoder.is_empty() {
        names.push(name(&mut decoder)?);
    }
    Some(names)
}

#[inline(never)]
fn measured_find_zone(catalog: &Catalog, wanted: &LowerName, rounds: u64) -> u64 {
    let mut found = 0;
    for _ in 0..rounds {
        found += u64::from(catalog.find(wanted).is_some());
    }
    found
}

fn found(zones: &[u8], wanted: &[u8], rounds: u64) -> Option<u64> {
    let mut catalog = Catalog::new();
    for zone in names(zones)? {
        let authority = InMemoryAuthority::empty(Name::from(&zone), ZoneType::Primary, false);
        catalog.upsert(zone, Box::new(Arc::new(authority)));
    }
    let wanted = name(&mut BinDecoder::new(wanted))?;
    Some(measured_find_zone(&catalog, &wanted, rounds))
}

/// Finds the zone of a name; the number of rounds in which there was one.
///
/// # Safety
/// `zones` points to `zones_len` bytes, `wanted` to `len` bytes.
#[no_mangle]
pub unsafe extern "C" fn peer_find_zone(
    zones: *const u8,
    zones_len: usize,
    wanted: *const u8,
    len: usize,
    rounds: u64,
) -> u64 {
    found(bytes_at(zones, zones_len), bytes_at(wanted, len), rounds).unwrap_or(WRONG)
}

/// A list of blocked names as the crates after trust-dns keep one, which has none itself: names in a hash set.
struct Blocklist(HashSet<LowerName>);

/// How many labels must stand behind the `*` of a wildcard.
const WILDCARD_DEPTH: u8 = 2;

impl Blocklist {
    /// The names that the lines of a text list.
    fn from_text(text: &[u8]) -> Option<Self> {
        let mut names = HashSet::new();
        for line in str::from_utf8(text).ok()?.lines() {
            names.insert(LowerName::new(&Name::from_ascii(line).ok()?));
        }
        Some(Blocklist(names))
    }

    /// Whether the list has the name, or a wildcard above it.
    fn blocks(&self, name: &LowerName) -> bool {
        if self.0.contains(name) {
            return true;
        }
        let mut below = name.clone();
        while below.num_labels() > WILDCARD_DEPTH {
            // The first label is what the `*` takes the place of.
            if self.0.contains(&below.clone().into_wildcard()) {
                return true;
            }
            below = below.base_name();
        }
        false
    }

    /// The question and the records that answer it, where the name is blocked.
    fn lookup(&self, name: &LowerName, record_type: RecordType) -> Option<(Query, Vec<Record>)> {
        if !self.blocks(name) {
            return None;
        }
        let query = Query::query(Name::from(name), record_type);
        let address = RData::A(Ipv4Addr::UNSPECIFIED);
        let record = Record::from_rdata(Name::from(name), 86_400, address);
        Some((query, vec![record]))
    }
}

#[inline(never)]
fn measured_is_blocked(list: &Blocklist, name: &LowerName, rounds: u64) -> u64 {
    let mut blocked = 0;
    for _ in 0..rounds {
        blocked += u64::from(black_box(list.lookup(name, RecordType::A)).is_some());
    }
    blocked
}

fn blocked(list: &[u8], name_bytes: &[u8], rounds: u64) -> Option<u64> {
    let list = Blocklist::from_text(list)?;
    let name = name(&mut BinDecoder::new(name_bytes))?;
    Some(measured_is_blocked(&list, &name, rounds))
}

/// Asks a list of blocked names for the address of a name; the number of rounds in which it was blocked.
///
/// # Safety
/// `list` points to `list_len` bytes, `name` to `len` bytes.
#[no_mangle]
pub unsafe extern "C" fn peer_is_blocked(
    list: *const u8,
    list_len: usize,
    name: *const u8,
    len: usize,
    rounds: u64,
) -> u64 {
    blocked(bytes_at(list, list_len), bytes_at(name, len), rounds).unwrap_or(WRONG)
}
