//! Addresses of networks, and times.
use crate::rows::Rows;
use std::net::{IpAddr, Ipv4Addr, Ipv6Addr, Shutdown, SocketAddr, SocketAddrV6};
use std::time::{Duration, SystemTime};

pub fn add(rows: &mut Rows) {
    addresses(rows);
    sockets(rows);
    times(rows);
}

fn addresses(rows: &mut Rows) {
    rows.add("Ipv4Addr", &Ipv4Addr::new(192, 168, 0, 1));
    rows.add("IpAddr v4", &IpAddr::V4(Ipv4Addr::LOCALHOST));
    rows.add("Ipv6Addr localhost", &Ipv6Addr::LOCALHOST);
    rows.add("Ipv6Addr", &Ipv6Addr::new(0x2001, 0xdb8, 0, 0, 0, 0, 0, 7));
    rows.add("Ipv6Addr of eight groups", &Ipv6Addr::new(1, 2, 3, 4, 5, 6, 7, 8));
    rows.add("Ipv6Addr of an Ipv4Addr", &Ipv4Addr::new(10, 0, 0, 1).to_ipv6_mapped());
    rows.add("Ipv6Addr unspecified", &Ipv6Addr::UNSPECIFIED);
    rows.add("Ipv6Addr that ends in colons", &Ipv6Addr::new(0xfe80, 0, 0, 0, 0, 0, 0, 0));
    rows.add("IpAddr v6", &IpAddr::V6(Ipv6Addr::LOCALHOST));
    rows.add("addresses in a list", &[IpAddr::V4(Ipv4Addr::BROADCAST), IpAddr::V6(Ipv6Addr::LOCALHOST)]);
    rows.add("Shutdown", &Shutdown::Both);
}

fn sockets(rows: &mut Rows) {
    rows.add("SocketAddr v4", &SocketAddr::from(([127, 0, 0, 1], 8080)));
    rows.add("SocketAddr v4 in Some", &Some(SocketAddr::from(([0, 0, 0, 0], 0))));
    rows.add("SocketAddr v6", &SocketAddr::from((Ipv6Addr::LOCALHOST, 443)));
    let scoped = SocketAddrV6::new(Ipv6Addr::new(0xfe80, 0, 0, 0, 0, 0, 0, 1), 80, 0, 2);
    rows.add("SocketAddrV6 with a scope", &scoped);
}

fn times(rows: &mut Rows) {
    rows.add("Duration zero", &Duration::ZERO);
    rows.add("Duration 1.5 s", &Duration::from_millis(1500));
    rows.add("Duration 150 microseconds", &Duration::from_micros(150));
    rows.add("Duration 2 ms", &Duration::from_millis(2));
    rows.add("Duration 3 ns", &Duration::from_nanos(3));
    rows.add("Duration 2.000001 ms", &Duration::from_nanos(2_000_001));
    rows.add("Duration greatest", &Duration::MAX);
    rows.add("durations in a tuple", &(Duration::from_secs(60), Some(Duration::from_nanos(1500))));
    rows.add("SystemTime", &SystemTime::UNIX_EPOCH);
}
