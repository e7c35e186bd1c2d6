//! answer_udp ADDRESS:PORT NAME FILE: answers datagrams by the zone of this name and file, in one thread.
use std::net::UdpSocket;
use std::time::{SystemTime, UNIX_EPOCH};
use zone_service::{FRAME, Transport, ZoneService};

fn main() -> Result<(), Box<dyn std::error::Error>> {
    let words: Vec<String> = std::env::args().skip(1).collect();
    let [address, name, file] = words.as_slice() else {
        return Err("usage: answer_udp ADDRESS:PORT NAME FILE".into());
    };
    let mut service = ZoneService::new().ok_or("no memory")?;
    service.add_zone(name, &std::fs::read(file)?)?;
    service.serve_zones()?;
    let socket = UdpSocket::bind(address)?;
    let (mut message, mut out) = (vec![0; 65_535], vec![0; FRAME]);
    loop {
        let (len, source) = socket.recv_from(&mut message)?;
        let now = SystemTime::now().duration_since(UNIX_EPOCH)?.as_secs();
        if let Ok(written) = service.answer(&message[..len], source, Transport::Datagram, now, &mut out) {
            // A reply is written after its length in two bytes. A datagram has no length.
            let _ = socket.send_to(&out[2..written.len], source);
        }
    }
}
