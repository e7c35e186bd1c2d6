//! Each call of the wrapper once, on what a server is given.
use std::net::SocketAddr;
use zone_service::{Counters, FRAME, Refusal, Transport, Written, ZoneService};

const ZONE: &[u8] = b"$TTL 60\n@ IN SOA ns admin 7 3600 1800 604800 86400\n@ IN NS ns\nwww IN A 192.0.2.1\n";

fn query(name: &[u8], kind: u16) -> Vec<u8> {
    let mut q = vec![0x12, 0x34, 1, 0, 0, 1, 0, 0, 0, 0, 0, 0];
    for label in name.split(|b| *b == b'.') {
        q.push(label.len() as u8);
        q.extend(label);
    }
    q.push(0);
    q.extend(kind.to_be_bytes());
    q.extend([0, 1]);
    q
}

fn server() -> ZoneService {
    let mut service = ZoneService::new().unwrap();
    service.add_zone("example.com", ZONE).unwrap();
    service.serve_zones().unwrap();
    service
}

fn client() -> SocketAddr {
    "192.0.2.9:4000".parse().unwrap()
}

#[test]
fn answers() {
    let (mut service, mut out) = (server(), vec![0; FRAME]);
    let got = service.answer(&query(b"www.example.com", 1), client(), Transport::Datagram, 1, &mut out).unwrap();
    assert_eq!(got.waiting, 0);
    assert_eq!(usize::from(out[0]) * 256 + usize::from(out[1]) + 2, got.len);
    assert_eq!(&out[2..4], &[0x12, 0x34]);
    assert_eq!(&out[got.len - 4..got.len], &[192, 0, 2, 1]);
    let six = "[2001:db8::1]:5".parse().unwrap();
    let none = service.answer(&query(b"no.example.com", 1), six, Transport::Stream, 1, &mut out).unwrap();
    assert_eq!(out[5] & 15, 3);
    assert!(none.len > 40);
}

#[test]
fn waits_where_there_is_no_room() {
    let (mut service, mut out) = (server(), vec![0; FRAME]);
    let message = query(b"www.example.com", 1);
    assert_eq!(service.answer(&message, client(), Transport::Stream, 1, &mut []), Ok(Written { len: 0, waiting: 1 }));
    let taken = service.take(&mut out);
    assert!(taken.len > 2 && taken.waiting == 0);
    assert_eq!(service.take(&mut out), Written { len: 0, waiting: 0 });
    service.answer(&message, client(), Transport::Stream, 1, &mut []).unwrap();
    let framed = [&[0, message.len() as u8], &message[..]].concat();
    let streamed = service.answer_stream(&framed, client(), 1, &mut out);
    assert_eq!((streamed.taken, streamed.written, streamed.refusal), (framed.len(), taken, None));
}

#[test]
fn refuses() {
    let (mut service, mut out) = (server(), vec![0; FRAME]);
    assert_eq!(service.answer(b"short", client(), Transport::Datagram, 1, &mut out), Err(Refusal::Unreadable));
    let mut response = query(b"www.example.com", 1);
    response[2] |= 0x80;
    assert_eq!(service.answer(&response, client(), Transport::Stream, 1, &mut out), Err(Refusal::Response));
    service.deny("192.0.2.0/24").unwrap();
    assert_eq!(service.answer(&query(b"www.example.com", 1), client(), Transport::Datagram, 1, &mut out), Err(Refusal::Denied));
}

#[test]
fn settings() {
    let (mut service, mut out) = (ZoneService::new().unwrap(), vec![0; FRAME]);
    service.add_zone("example.com", ZONE).unwrap();
    assert!(service.add_zone("example.org", b"$INCLUDE x\n").unwrap_err().0.starts_with("1:"));
    assert!(service.add_zone("example.com", ZONE).is_err());
    assert!(service.allow("192.0.2.0/33").is_err() && service.set_max_udp(511).is_err());
    service.set_max_udp(512).unwrap();
    service.set_identifier(b"one").unwrap();
    assert_eq!(service.set_blocklist(b"www.example.net\n").unwrap(), "");
    assert_eq!(service.set_blocklist(b"<html>\nwww.example.net\n<p>\n").unwrap(), "2 lines skipped, which give no name: 1, 3");
    service.add_zone("example.net.", ZONE).unwrap();
    service.serve_zones().unwrap();
    service.answer(&query(b"www.example.net", 1), client(), Transport::Datagram, 1, &mut out).unwrap();
    service.allow_transfer("198.51.100.0/24").unwrap();
    service.deny_transfer("192.0.2.9").unwrap();
    service.answer(&query(b"example.com", 252), client(), Transport::Stream, 1, &mut out).unwrap();
    assert_eq!(out[5] & 15, 5);
    assert_eq!(service.allow_zone_transfer("example.edu", "192.0.2.0/24").unwrap_err().0, "there is no zone of this name");
    service.allow_zone_transfer("Example.com.", "192.0.2.0/24").unwrap();
    service.answer(&query(b"example.com", 252), client(), Transport::Stream, 1, &mut out).unwrap();
    assert_eq!(out[5] & 15, 0);
    service.deny_zone_transfer("example.com", &format!("{}", client().ip())).unwrap();
    service.answer(&query(b"example.com", 252), client(), Transport::Stream, 1, &mut out).unwrap();
    assert_eq!(out[5] & 15, 5);
}

#[test]
fn keys() {
    let (mut service, mut out) = (ZoneService::new().unwrap(), vec![0; FRAME]);
    service.add_zone("example.com", ZONE).unwrap();
    assert_eq!(service.set_keys(b"# none\n").unwrap_err().0, "the file has no key");
    service.set_keys(b"hmac-sha256:one.example:MTIzNDU2Nzg5MGFiY2RlZjEyMzQ1Njc4OTBhYmNkZWY=\n").unwrap();
    assert_eq!(service.allow_transfer_key("other.example").unwrap_err().0, "there is no key of this name");
    service.allow_transfer_key("one.example").unwrap();
    assert_eq!(service.allow_zone_transfer_key("example.com", "other.example").unwrap_err().0, "there is no key of this name");
    service.allow_zone_transfer_key("example.com", "one.example").unwrap();
    assert_eq!(service.allow_update("example.com", "two.example zone").unwrap_err().0, "there is no key of this name");
    service.allow_update("example.com", "one.example subdomain a.example.com A").unwrap();
    service.serve_zones().unwrap();
    service.answer(&query(b"example.com", 252), client(), Transport::Stream, 1, &mut out).unwrap();
    assert_eq!(out[5] & 15, 5);
    service.answer(&query(b"www.example.com", 1), client(), Transport::Datagram, 1, &mut out).unwrap();
    assert_eq!(out[5] & 15, 0);
}

#[test]
fn rules_are_of_zones() {
    let mut service = ZoneService::new().unwrap();
    service.add_zone("example.com", ZONE).unwrap();
    service.set_keys(b"hmac-sha256:one.example:MTIzNDU2Nzg5MGFiY2RlZjEyMzQ1Njc4OTBhYmNkZWY=\n").unwrap();
    service.allow_update("example.org", "one.example").unwrap();
    assert_eq!(service.serve_zones().unwrap_err().0, "rule 1 of who may update is for a zone that is not served");
}

#[test]
fn tells_queries() {
    let (mut service, mut out) = (server(), vec![0; FRAME]);
    service.set_query_log(2);
    for name in [&b"www.example.com"[..], b"no.example.com", b"a b\n.example.com", b"www.example.com"] {
        service.answer(&query(name, 28), client(), Transport::Datagram, 1, &mut out).unwrap();
    }
    let (first, rest) = (service.take_log(&mut out[..10]), service.take_log(&mut out[10..2000]));
    let text = String::from_utf8(out[..first + rest].to_vec()).unwrap();
    let lines: Vec<&str> = text.lines().collect();
    assert_eq!(first, 10);
    assert!(lines[0].starts_with("1 192.0.2.9 udp www.example.com. IN AAAA NOERROR ") && lines[1].starts_with("1 192.0.2.9 udp a\\032b\\010.example.com. IN AAAA NXDOMAIN "));
    assert_eq!((lines.len(), service.take_log(&mut out)), (2, 0));
}

#[test]
fn counts() {
    let (mut service, mut out) = (server(), vec![0; FRAME]);
    assert_eq!(service.counters(), Counters::default());
    let one = query(b"www.example.com", 1);
    let written = service.answer(&one, client(), Transport::Datagram, 1, &mut out).unwrap().len;
    service.answer(b"short", client(), Transport::Datagram, 1, &mut out).unwrap_err();
    let stream = [&(one.len() as u16).to_be_bytes()[..], &one].concat();
    service.answer_stream(&stream, client(), 1, &mut out);
    let (received, sent) = (2 * one.len() as u64 + 5, 2 * (written as u64 - 2));
    let mut codes = [0; 16];
    codes[0] = 2;
    let counted = Counters { udp: 2, tcp: 1, received, unreadable: 1, codes, sent, ..Counters::default() };
    assert_eq!(service.counters(), counted);
    let text = counted.statistics().unwrap();
    assert!(text.contains("zoned_queries_total{transport=\"udp\"} 2\n") && text.contains("zoned_replies_total{code=\"NOERROR\"} 2\n"));
}

#[test]
fn limits_replies() {
    let (mut service, mut out) = (server(), vec![0; FRAME]);
    service.set_rate_limit(2, 2).unwrap();
    let one = query(b"www.example.com", 1);
    let mut answer = |source: &str| service.answer(&one, source.parse().unwrap(), Transport::Datagram, 7, &mut out).map(|w| (w.len, out[4] & 2));
    let whole = answer("192.0.2.1:53").unwrap();
    assert_eq!(answer("192.0.2.200:53"), Ok(whole));
    assert_eq!(answer("192.0.2.1:53"), Err(Refusal::Limited));
    assert_eq!(answer("192.0.2.7:53"), Ok((2 + one.len(), 2)));
    assert_eq!(answer("192.0.2.1:53"), Err(Refusal::Limited));
    assert_eq!(answer("192.0.3.1:53"), Ok(whole));
    assert_eq!(answer("[2001:db8:0:1::1]:53"), Ok(whole));
    assert_eq!(answer("[2001:db8:0:2::1]:53"), Ok(whole));
    assert_eq!(answer("[2001:db8:0:3::1]:53"), Err(Refusal::Limited));
    let counted = service.counters();
    assert_eq!((counted.limited, counted.truncated, counted.codes[0]), (3, 1, 6));
}

#[test]
fn takes_a_stream() {
    let (mut service, mut out) = (server(), vec![0; 2 * FRAME]);
    let one = query(b"www.example.com", 1);
    let mut stream = Vec::new();
    for _ in 0..3 {
        stream.extend((one.len() as u16).to_be_bytes());
        stream.extend(&one);
    }
    let whole = stream.len();
    stream.extend([0, 40, 1]);
    let got = service.answer_stream(&stream, client(), 1, &mut out);
    assert_eq!((got.taken, got.written.waiting, got.refusal), (whole, 0, None));
    assert_eq!(got.written.len % 3, 0);
    let rest = service.answer_stream(&stream[whole..], client(), 1, &mut out);
    assert_eq!((rest.taken, rest.written.len, rest.refusal), (0, 0, None));
    let bad = service.answer_stream(&[&stream[..whole], &[0, 1, 7]].concat(), client(), 1, &mut out);
    assert_eq!((bad.taken, bad.written.len, bad.refusal), (whole + 3, got.written.len, Some(Refusal::Unreadable)));
}
