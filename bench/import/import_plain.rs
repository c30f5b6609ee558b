//! The rules of an import in plain Rust, to measure against: the rows, the runs and what is printed are those of
//! import_rules.rattle.

// Families, roles and scopes that the rules ask for and no row here has.
#![allow(dead_code)]

use std::hint::black_box;
use std::time::Instant;

const RUNS: u32 = 11;
const ROWS: u32 = 10_000;
const ACTIVE: u32 = 900;
const MOST: usize = 1000;
const LAST_NUMBER: u32 = 999_999;
const TODAY: u32 = 20_250;

#[derive(Clone, Copy, PartialEq, Eq)]
enum Family {
    V4,
    V6,
}

#[derive(Clone, Copy, PartialEq, Eq)]
struct Prefix {
    family: Family,
    first: u128,
    length: u8,
}

impl Prefix {
    fn width(&self) -> u8 {
        match self.family {
            Family::V4 => 32,
            Family::V6 => 128,
        }
    }

    fn last(&self) -> u128 {
        let free = u32::from(self.width() - self.length);
        self.first | 1u128.checked_shl(free).map_or(u128::MAX, |size| size - 1)
    }

    fn covers(&self, other: &Prefix) -> bool {
        self.family == other.family && self.first <= other.first && other.last() <= self.last()
    }
}

#[derive(Clone, Copy, PartialEq, Eq)]
struct Terms {
    asn: u32,
    prefix: Prefix,
    max: u8,
    from: u32,
    until: u32,
}

impl Terms {
    fn gives_vrp(&self, other: &Terms) -> bool {
        self.asn == other.asn && self.prefix == other.prefix && self.max == other.max
    }
}

#[derive(Clone, Copy)]
struct Auth {
    number: u32,
    terms: Terms,
}

#[derive(Clone, Copy, PartialEq, Eq)]
enum Role {
    Manager,
    Clerk,
    Auditor,
}

struct Grant {
    caller: String,
    role: Role,
    scope: Option<Prefix>,
    until: u32,
}

impl Grant {
    fn permits(&self, day: u32, caller: &str) -> bool {
        day <= self.until && self.role != Role::Auditor && self.caller == caller
    }

    fn has(&self, prefix: &Prefix) -> bool {
        self.scope.is_none_or(|scope| scope.covers(prefix))
    }
}

#[derive(Debug)]
enum Rule {
    Grant,
    Scope,
    Dates,
    Length,
    Held,
    Same,
    Room,
}

struct Holder {
    holdings: Vec<Prefix>,
    grants: Vec<Grant>,
    auths: Vec<Auth>,
    created: u32,
}

fn require(holds: bool, rule: Rule) -> Result<(), Rule> {
    if holds { Ok(()) } else { Err(rule) }
}

/// The authorization that a row makes, or none where it is already authorized.
fn judge(holder: &Holder, made: &[Auth], day: u32, caller: &str, terms: &Terms) -> Result<Option<Auth>, Rule> {
    let permits = |grant: &&Grant| grant.permits(day, caller);
    require(holder.grants.iter().any(|grant| permits(&grant)), Rule::Grant)?;
    let has_scope = holder.grants.iter().filter(permits).any(|grant| grant.has(&terms.prefix));
    require(has_scope, Rule::Scope)?;
    let active = || holder.auths.iter().chain(made);
    if active().any(|auth| auth.terms == *terms) {
        return Ok(None);
    }
    require(terms.from <= terms.until && day <= terms.until, Rule::Dates)?;
    require((terms.prefix.length..=terms.prefix.width()).contains(&terms.max), Rule::Length)?;
    require(holder.holdings.iter().any(|run| run.covers(&terms.prefix)), Rule::Held)?;
    require(!active().any(|auth| auth.terms.gives_vrp(terms)), Rule::Same)?;
    let created = holder.created + made.len() as u32;
    require(holder.auths.len() + made.len() < MOST && created < LAST_NUMBER, Rule::Room)?;
    Ok(Some(Auth { number: created + 1, terms: *terms }))
}

/// What an import makes, or the first rule that does not hold, and its row.
fn import(holder: &Holder, day: u32, caller: &str, rows: &[Terms]) -> Result<Vec<Auth>, (Rule, usize)> {
    let mut made = Vec::new();
    for (at, terms) in rows.iter().enumerate() {
        made.extend(judge(holder, &made, day, caller, terms).map_err(|rule| (rule, at + 1))?);
    }
    Ok(made)
}

const SPACE: Prefix = Prefix { family: Family::V4, first: 10 << 24, length: 8 };

fn terms(place: u32) -> Terms {
    let prefix = Prefix { family: Family::V4, first: (10 << 24) + u128::from(place) * 256, length: 24 };
    Terms { asn: 64_496, prefix, max: 24, from: 20_000, until: 30_000 }
}

fn row(at: u32) -> Terms {
    if at % 100 == 99 {
        terms(ACTIVE + at / 100)
    } else {
        terms(at.wrapping_mul(7919) % ACTIVE)
    }
}

fn main() {
    let holder = Holder {
        holdings: vec![SPACE],
        grants: vec![Grant { caller: "ann".to_string(), role: Role::Manager, scope: None, until: 30_000 }],
        auths: (0..ACTIVE).map(|place| Auth { number: place + 1, terms: terms(place) }).collect(),
        created: ACTIVE,
    };
    let rows: Vec<Terms> = (0..ROWS).map(row).collect();
    let mut least = u128::MAX;
    let mut sum = 0u64;
    for _ in 0..RUNS {
        let start = Instant::now();
        let made = import(black_box(&holder), TODAY, "ann", &rows).expect("an import that is accepted");
        least = least.min(start.elapsed().as_nanos());
        let numbers: u64 = made.iter().map(|auth| u64::from(auth.number)).sum();
        sum += numbers + u64::from(holder.created) + made.len() as u64;
    }
    println!("{least} {sum}");
}
