//! The job of `roadesk check` in plain Rust, to measure against: reads payloads and routes from CSV
//! files, judges each route by RFC 6811 and prints `prefix,origin,state` lines.
//!
//!     plain PAYLOADS.csv ROUTES.csv
//!
//! Fields are taken as they are, without quotes. Nothing is printed where a row is faulty.

use std::error::Error;
use std::fs;
use std::io::{self, BufWriter, Write};
use std::net::IpAddr;
use std::process::ExitCode;

/// A prefix, its bits aligned to the left in both families; it sorts before what it covers.
#[derive(Clone, Copy, PartialEq, Eq, PartialOrd, Ord)]
struct Prefix {
    is_v6: bool,
    bits: u128,
    length: u8,
}

impl Prefix {
    fn parse(text: &str) -> Option<Prefix> {
        let (address, length) = text.split_once('/')?;
        let length: u8 = length.parse().ok()?;
        let (is_v6, bits, width) = match address.parse().ok()? {
            IpAddr::V4(v4) => (false, u128::from(u32::from(v4)) << 96, 32),
            IpAddr::V6(v6) => (true, u128::from(v6), 128),
        };
        let is_whole = length <= width && bits & !mask(length) == 0;
        is_whole.then_some(Prefix { is_v6, bits, length })
    }

    fn covers(&self, other: &Prefix) -> bool {
        self.is_v6 == other.is_v6 && self.length <= other.length && (self.bits ^ other.bits) & mask(self.length) == 0
    }
}

fn mask(length: u8) -> u128 {
    u128::MAX.checked_shl(128 - u32::from(length)).unwrap_or(0)
}

fn parse_asn(text: &str) -> Option<u32> {
    text.strip_prefix("AS")?.parse().ok()
}

struct Vrp {
    prefix: Prefix,
    asn: u32,
    max_length: u8,
}

impl Vrp {
    fn parse(row: &str) -> Option<Vrp> {
        let (asn, rest) = row.split_once(',')?;
        let (prefix, max_length) = rest.split_once(',')?;
        let vrp = Vrp { prefix: Prefix::parse(prefix)?, asn: parse_asn(asn)?, max_length: max_length.parse().ok()? };
        let width = if vrp.prefix.is_v6 { 128 } else { 32 };
        (vrp.prefix.length..=width).contains(&vrp.max_length).then_some(vrp)
    }
}

struct Route {
    prefix: Prefix,
    origin: Option<u32>,
}

impl Route {
    fn parse(row: &str) -> Option<Route> {
        let (prefix, origin) = row.split_once(',')?;
        let origin = if origin == "NONE" { None } else { Some(parse_asn(origin)?) };
        Some(Route { prefix: Prefix::parse(prefix)?, origin })
    }
}

#[derive(Clone, Copy)]
enum State {
    Valid,
    Invalid,
    NotFound,
}

impl State {
    fn name(self) -> &'static str {
        match self {
            State::Valid => "Valid",
            State::Invalid => "Invalid",
            State::NotFound => "NotFound",
        }
    }
}

/// The VRPs in order, and for each the last one before it that covers it.
struct Table {
    vrps: Vec<Vrp>,
    parents: Vec<Option<u32>>,
}

impl Table {
    fn new(mut vrps: Vec<Vrp>) -> Table {
        vrps.sort_unstable_by_key(|vrp| vrp.prefix);
        let mut parents: Vec<Option<u32>> = Vec::with_capacity(vrps.len());
        for (i, vrp) in vrps.iter().enumerate() {
            let mut parent = i.checked_sub(1).map(|before| before as u32);
            while let Some(p) = parent.filter(|&p| !vrps[p as usize].prefix.covers(&vrp.prefix)) {
                parent = parents[p as usize];
            }
            parents.push(parent);
        }
        Table { vrps, parents }
    }

    /// RFC 6811. What covers the route is among the last VRP that is not after it, and its parents.
    fn judge(&self, route: &Route) -> State {
        let origin = route.origin.filter(|&asn| asn != 0);
        let after = self.vrps.partition_point(|vrp| vrp.prefix <= route.prefix);
        let mut next = after.checked_sub(1);
        let mut state = State::NotFound;
        while let Some(i) = next {
            let vrp = &self.vrps[i];
            if vrp.prefix.covers(&route.prefix) {
                if route.prefix.length <= vrp.max_length && origin == Some(vrp.asn) {
                    return State::Valid;
                }
                state = State::Invalid;
            }
            next = self.parents[i].map(|p| p as usize);
        }
        state
    }
}

/// What `parse` makes of each row after the header.
fn read_rows<T>(text: &str, header: &str, parse: impl Fn(&str) -> Option<T>) -> Result<Vec<T>, Box<dyn Error>> {
    let mut lines = text.lines();
    if lines.next() != Some(header) {
        return Err(format!("the header is not {header}").into());
    }
    lines.enumerate().map(|(i, row)| parse(row).ok_or_else(|| format!("row {} is faulty: {row}", i + 1).into())).collect()
}

fn run(payload_file: &str, route_file: &str) -> Result<(), Box<dyn Error>> {
    let table = Table::new(read_rows(&fs::read_to_string(payload_file)?, "asn,prefix,maxlength", Vrp::parse)?);
    let text = fs::read_to_string(route_file)?;
    let states = read_rows(&text, "prefix,origin", |row| Some(table.judge(&Route::parse(row)?)))?;
    let mut out = BufWriter::with_capacity(1 << 16, io::stdout().lock());
    for (row, state) in text.lines().skip(1).zip(states) {
        writeln!(out, "{row},{}", state.name())?;
    }
    Ok(out.flush()?)
}

fn main() -> ExitCode {
    let words: Vec<String> = std::env::args().skip(1).collect();
    let [payload_file, route_file] = &words[..] else {
        eprintln!("plain PAYLOADS.csv ROUTES.csv");
        return ExitCode::from(2);
    };
    match run(payload_file, route_file) {
        Ok(()) => ExitCode::SUCCESS,
        Err(fault) => {
            eprintln!("plain: {fault}");
            ExitCode::FAILURE
        }
    }
}
