//! Values as programs log them: all of this together, some levels deep.
use crate::rows::Rows;
use crate::texts::ByteString;
use std::collections::{BTreeMap, BTreeSet};
use std::net::{IpAddr, Ipv4Addr, Ipv6Addr, SocketAddr};
use std::ops::RangeInclusive;
use std::path::PathBuf;
use std::sync::atomic::AtomicU64;
use std::sync::{Arc, Mutex, RwLock};
use std::time::Duration;

#[derive(Debug)]
struct Server {
    name: String,
    listen: Vec<SocketAddr>,
    timeout: Duration,
    retry: Option<Retry>,
    load: f64,
    ports: RangeInclusive<u16>,
    log: PathBuf,
    state: Arc<Mutex<State>>,
}

#[derive(Debug)]
struct Retry {
    delays: [Duration; 2],
    factor: f32,
}

#[derive(Debug)]
enum State {
    Idle,
    Running { since: Duration, peers: BTreeMap<IpAddr, Peer> },
    Failed(std::io::Error),
}

#[derive(Debug)]
struct Peer {
    bytes: AtomicU64,
    last: Option<ByteString>,
    tags: BTreeSet<&'static str>,
}

pub fn add(rows: &mut Rows) {
    rows.add("a server that is idle", &server(State::Idle));
    rows.add("a server that runs", &server(running()));
    rows.add("a server that failed", &server(failed()));
    let locked = server(State::Idle);
    let guard = locked.state.lock().unwrap();
    rows.add("a server whose state is locked", &locked);
    rows.add("the state under the lock", &guard);
    rows.add("a server with an address in brackets", &bound_to_localhost());
    pieces(rows);
}

fn pieces(rows: &mut Rows) {
    let sensors = BTreeMap::from([("température", vec![20.5, -0.25]), ("pressure", vec![])]);
    rows.add("measurements by name", &sensors);
    rows.add("a cache behind a lock", &RwLock::new(BTreeMap::from([(Duration::from_nanos(1), Some(0..3))])));
    let request = ("GET", ByteString(b"/a?b=\"c\""), [("Accept", "*/*"), ("Host", "[::1]")]);
    rows.add("a request", &request);
    let results = [Ok(1.5), Err("x".parse::<f64>().unwrap_err())];
    rows.add("results of parsing", &results);
    rows.add("states", &[State::Idle, failed()]);
}

fn server(state: State) -> Server {
    Server {
        name: "main \"é\"".to_string(),
        listen: vec![SocketAddr::from(([0, 0, 0, 0], 80)), SocketAddr::from(([127, 0, 0, 1], 8443))],
        timeout: Duration::from_millis(1500),
        retry: Some(Retry { delays: [Duration::from_micros(150), Duration::from_secs(30)], factor: 1.5 }),
        load: 0.75,
        ports: 1024..=65535,
        log: PathBuf::from("/var/log/main server.log"),
        state: Arc::new(Mutex::new(state)),
    }
}

fn running() -> State {
    let first =
        Peer { bytes: AtomicU64::new(4096), last: Some(ByteString(b"ping\r\n")), tags: BTreeSet::from(["near", "v4"]) };
    let second = Peer { bytes: AtomicU64::new(0), last: None, tags: BTreeSet::new() };
    let addresses = [IpAddr::V4(Ipv4Addr::new(10, 0, 0, 7)), IpAddr::V6(Ipv6Addr::LOCALHOST)];
    State::Running { since: Duration::from_secs(3600), peers: addresses.into_iter().zip([first, second]).collect() }
}

fn failed() -> State {
    State::Failed(std::io::Error::from_raw_os_error(13))
}

fn bound_to_localhost() -> Server {
    let listen = vec![SocketAddr::from((Ipv6Addr::LOCALHOST, 80))];
    Server { listen, retry: None, ..server(State::Idle) }
}
