//! Random scripts that try to be awkward: loads near 100 %, equal deadlines,
//! works just at what fits, reused numbers, ends and rests in between, openings
//! in mid-period, near the last instant and under any charge, layers due as soon
//! as line 10 allows, rounds of exactly 40,320, and bad lines of every kind. A script keeps the model's state beside
//! it, so that most lines mean something where they stand. Openings for random calls
//! carry shares too, often just what the feeds leave; a script has no word for those.

use crate::ahead;
use crate::mesh;
use crate::model::{
    common_divisor, feeds_refusal, open, open_shared, round_of, Desk, Feed, Length, Refusal, Share,
    CHARGE_MOST, JOB_LENGTH_MOST, LAST_INSTANT, Q_MOST, ROUND_MOST,
};
use crate::random::Random;
use crate::reason::Instants;
use crate::script::INPUT_MOST;

// ---------------------------------------------------------------- openings

fn divisors(of: u64) -> Vec<u64> {
    (1..=of).filter(|divisor| of % divisor == 0).collect()
}

fn some_of(random: &mut Random, from: &[u64], most: u64) -> Vec<u64> {
    (0..random.between(1, most))
        .map(|_| random.pick(from))
        .collect()
}

/// Pairs whose common multiple is exactly 40,320 (or one that is it alone).
const FULL_ROUNDS: [&[u64]; 9] = [
    &[40_320],
    &[128, 315],
    &[640, 63],
    &[896, 45],
    &[1_152, 35],
    &[5_760, 7],
    &[8_064, 5],
    &[4_480, 9],
    &[128, 9, 5, 7],
];

/// Periods without a common divisor, which make long rounds of short pieces.
const PRIMES: [&[u64]; 5] = [
    &[7, 11, 13, 17],
    &[3, 5, 7, 11, 13],
    &[2, 3, 5, 7, 11, 13],
    &[8, 9, 5, 7, 11],
    &[199, 200],
];

const SMALL_ROUNDS: [u64; 9] = [6, 12, 24, 30, 60, 72, 120, 210, 360];

fn periods(random: &mut Random) -> Vec<u64> {
    match random.below(100) {
        0..=11 => Vec::new(),
        12..=54 => {
            let round = random.pick(&SMALL_ROUNDS);
            let most = random.pick(&[2, 4, 4, 8, 16]);
            some_of(random, &divisors(round), most)
        }
        55..=69 => {
            let mut periods = random.pick(&FULL_ROUNDS).to_vec();
            let most = random.pick(&[1, 3, 12]);
            // Long divisors mostly, as short periods soon fill the load.
            let long: Vec<u64> = divisors(ROUND_MOST)
                .into_iter()
                .filter(|&d| d > 20)
                .collect();
            periods.extend(some_of(random, &long, most));
            periods
        }
        70..=79 => random.pick(&PRIMES).to_vec(),
        80..=87 => some_of(random, &[1, 2, 3, 4], 6),
        88..=92 => vec![random.between(1, 40); random.between(8, 16) as usize],
        93..=96 => (0..random.between(1, 3))
            .map(|_| random.between(1, 300))
            .collect(),
        _ => (0..random.between(1, 2))
            .map(|_| random.between(1, ROUND_MOST))
            .collect(),
    }
}

pub fn shuffle<T>(random: &mut Random, items: &mut [T]) {
    for place in (1..items.len()).rev() {
        items.swap(place, random.index(place + 1));
    }
}

/// How full the round is made.
#[derive(Clone, Copy)]
enum Load {
    Some,
    Full,
    /// Just above what line 10 allows.
    Over,
}

/// Works for these periods under this charge: at least 1 each, dropping feeds that
/// find no room.
fn with_works(random: &mut Random, periods: Vec<u64>, charge: Length, load: Load) -> Vec<Feed> {
    let feed = |period| Feed {
        period,
        work: 1,
        offset: 0,
        lead: period,
        owes: 0,
    };
    let mut feeds: Vec<Feed> = periods.into_iter().map(feed).collect();
    let round = match round_of(&feeds) {
        Some(round) => round,
        None => return feeds,
    };
    let mut room = round;
    feeds.retain(|feed| {
        let least = feed.charged_work(charge) * (round / feed.period);
        let fits = least <= room;
        room -= if fits { least } else { 0 };
        fits
    });
    shuffle(random, &mut feeds);
    for feed in &mut feeds {
        let most = room / (round / feed.period);
        let more = if most == 0 { 0 } else { random.below(most + 1) };
        let more = if random.chance(40) { more / 3 } else { more };
        feed.work += more;
        room -= more * (round / feed.period);
    }
    if !matches!(load, Load::Some) {
        fill(&mut feeds, round, room, matches!(load, Load::Over));
    }
    feeds
}

/// Gives what room is left, shortest periods first so that the finest comes
/// last; and one tick too many if wanted.
fn fill(feeds: &mut [Feed], round: u64, mut room: u64, over: bool) {
    let mut order: Vec<usize> = (0..feeds.len()).collect();
    order.sort_by_key(|&place| feeds[place].period);
    for &place in &order {
        let cost = round / feeds[place].period;
        feeds[place].work += room / cost;
        room %= cost;
    }
    if let (true, Some(&finest)) = (over, order.last()) {
        feeds[finest].work += 1;
    }
}

/// The shortest deadline length with which the feed at this place lets all of them
/// pass, the others staying as they are; nothing if not even its period does.
pub fn shortest_lead(feeds: &[Feed], place: usize, charge: Length) -> Option<Length> {
    let period = feeds[place].period;
    let mut feeds = feeds.to_vec();
    let mut passes = |lead| {
        feeds[place].lead = lead;
        feeds_refusal(&feeds, charge).is_none()
    };
    if !passes(period) {
        return None;
    }
    // A piece that has more time wants no more in any stretch.
    let (mut fails, mut shortest) = (0, period);
    while fails + 1 < shortest {
        let middle = (fails + shortest) / 2;
        if passes(middle) {
            shortest = middle;
        } else {
            fails = middle;
        }
    }
    Some(shortest)
}

/// Deadline lengths: of the period, as short as line 10 allows, and in between.
fn with_leads(random: &mut Random, feeds: &mut [Feed], charge: Length) {
    let mut order: Vec<usize> = (0..feeds.len()).collect();
    shuffle(random, &mut order);
    let most = random.pick(&[0, 1, 2, 4, 16]);
    for &place in order.iter().take(most) {
        let period = feeds[place].period;
        if let Some(shortest) = shortest_lead(feeds, place, charge) {
            feeds[place].lead = match random.below(4) {
                0 => random.between(shortest, period),
                1 => (shortest + 1).min(period),
                _ => shortest,
            };
        }
    }
}

/// Deadline lengths outside their limits, or so short that line 10 may not hold.
fn with_leads_too_short_or_long(random: &mut Random, feeds: &mut [Feed]) {
    if feeds.is_empty() {
        return;
    }
    let place = random.index(feeds.len());
    let Feed { period, lead, .. } = feeds[place];
    feeds[place].lead = match random.below(8) {
        0 => 0,
        1 => period + 1,
        2 => random.pick(&[40_320, 40_321, 65_536, u32::MAX.into()]),
        3 => 1,
        4 => random.between(1, period),
        _ => lead - 1,
    };
}

/// Feeds of one period that their offsets keep apart, each due before the next one's
/// piece comes: line 10 takes no notice of that.
fn kept_apart(random: &mut Random, charge: Length) -> Vec<Feed> {
    let many = random.between(2, 5);
    let work = random.between(1, 9);
    let lead = work + charge + random.below(3);
    let period = many * lead + random.below(5);
    let feed = |place| Feed {
        period,
        work,
        offset: place * lead,
        lead,
        owes: 0,
    };
    (0..many).map(feed).collect()
}

/// Feeds that mostly pass the opening under this charge, with any offsets.
fn feeds(random: &mut Random, start: u64, charge: u32) -> Vec<Feed> {
    let load = match random.below(100) {
        0..=29 => Load::Some,
        30..=94 => Load::Full,
        _ => Load::Over,
    };
    let charge = Length::from(charge).min(CHARGE_MOST);
    if random.chance(2) {
        return kept_apart(random, charge);
    }
    let periods = periods(random);
    let mut feeds = with_works(random, periods, charge, load);
    let kind = random.below(4);
    for feed in &mut feeds {
        feed.offset = match kind {
            0 => 0,
            1 => start % feed.period,
            2 => random.below(feed.period),
            _ => {
                let near = random.below(4);
                (start + near) % feed.period
            }
        };
    }
    with_leads(random, &mut feeds, charge);
    if random.chance(6) {
        with_leads_too_short_or_long(random, &mut feeds);
    }
    feeds
}

/// Charges that are refused.
pub const CHARGES_TOO_HIGH: [u32; 7] = [17, 17, 18, 32, 256, 1 << 31, u32::MAX];

/// A charge: mostly a low one, as few feeds find room under a high one.
fn charge(random: &mut Random) -> u32 {
    match random.below(100) {
        0..=24 => 0,
        25..=69 => random.between(1, 3) as u32,
        70..=91 => random.between(4, 15) as u32,
        92..=95 => 16,
        _ => random.pick(&CHARGES_TOO_HIGH),
    }
}

fn start(random: &mut Random) -> u64 {
    match random.below(100) {
        0..=29 => 0,
        30..=49 => random.below(100),
        50..=69 => random.below(100_000),
        70..=77 => random.below(LAST_INSTANT),
        78..=85 => LAST_INSTANT - random.below(300),
        86..=93 => LAST_INSTANT - 65_536 + random.below(80) - 40,
        94..=97 => LAST_INSTANT - random.below(110_000),
        98 => LAST_INSTANT,
        _ => random.pick(&[
            LAST_INSTANT + 1,
            9_999_999_999_999,
            LAST_INSTANT + 1_000_000,
        ]),
    }
}

fn as_list(feeds: &[Feed]) -> Vec<u32> {
    let numbers = |feed: &Feed| [feed.period, feed.work, feed.offset, feed.lead];
    feeds
        .iter()
        .flat_map(|feed| numbers(feed).map(|number| number as u32))
        .collect()
}

/// What an opening is given.
#[derive(Clone, Debug)]
pub struct Opening {
    pub list: Vec<u32>,
    pub start: u64,
    pub charge: u32,
    /// Nothing for the opening that carries none.
    pub share: Option<Share>,
}

/// An opening that mostly passes. Now and then the charge is one more or one less
/// than the feeds were made for, so that it alone is too much or leaves room.
pub fn opening(random: &mut Random) -> Opening {
    let start = start(random);
    let charge = charge(random);
    let list = as_list(&feeds(random, start, charge));
    let charge = match random.below(100) {
        0..=3 => charge.saturating_add(1),
        4..=7 => charge.saturating_sub(1),
        _ => charge,
    };
    Opening {
        list,
        start,
        charge,
        share: None,
    }
}

impl Opening {
    pub fn open(&self) -> Result<Desk, Refusal> {
        match self.share {
            Some(share) => open_shared(&self.list, self.start, self.charge, share),
            None => open(&self.list, self.start, self.charge),
        }
    }

    fn lines(&self) -> Vec<String> {
        let feed_line = |f: &[u32]| format!("feed {} {} {} {}", f[0], f[1], f[2], f[3]);
        let mut lines: Vec<String> = self.list.chunks(4).map(feed_line).collect();
        lines.push(format!("go {} {}", self.start, self.charge));
        lines
    }
}

// ---------------------------------------------------------------- shares

/// Each way not to be one, at its edges.
const NO_SHARES: [(u32, u32); 6] = [(0, 0), (0, 1), (1, 0), (2, 1), (1, 1_001), (1_001, 1_001)];

/// And farther from them.
const FAR_FROM_SHARES: [(u32, u32); 10] = [
    (0, 1_000),
    (1_000, 999),
    (1_001, 1_000),
    (1_000, 0),
    (1, 1_024),
    (1, 66_536),
    (1 << 31, 1_000),
    (u32::MAX, 1),
    (1, u32::MAX),
    (u32::MAX, u32::MAX),
];

/// Those at the limits, and some that divide few works.
const SHARES: [(u32, u32); 10] = [
    (1, 1),
    (1, 1_000),
    (1_000, 1_000),
    (999, 1_000),
    (2, 1_000),
    (1, 2),
    (1, 3),
    (2, 3),
    (3, 7),
    (4, 5),
];

fn share_of((p, q): (u32, u32)) -> Share {
    Share { p, q }
}

pub fn no_share(random: &mut Random) -> Share {
    share_of(match random.below(3) {
        0 => random.pick(&FAR_FROM_SHARES),
        _ => random.pick(&NO_SHARES),
    })
}

/// A share of any kind, whatever the feeds leave.
pub fn share(random: &mut Random) -> Share {
    if random.chance(50) {
        return share_of(random.pick(&SHARES));
    }
    let most = random.pick(&[3, 12, 100, 1_000]);
    let q = random.between(1, most);
    let p = random.between(1, q);
    share_of((p as u32, q as u32))
}

/// How many ticks of a round these feeds leave, and the round; nothing where there is no
/// such round, or they want more than it has.
pub fn left_over(feeds: &[Feed], charge: Length) -> Option<(Length, Length)> {
    let round = round_of(feeds)?;
    let wanted = |feed: &Feed| feed.charged_work(charge) * (round / feed.period);
    let left = round.checked_sub(feeds.iter().map(wanted).sum())?;
    Some((left, round))
}

/// All of this part of a round, in lowest terms or not, if it can be told as a share.
fn just(random: &mut Random, left: Length, round: Length) -> Option<Share> {
    let divisor = common_divisor(round, left);
    let (p, q) = (left / divisor, round / divisor);
    if p == 0 || q > u64::from(Q_MOST) {
        return None;
    }
    let times = random.between(1, u64::from(Q_MOST) / q);
    let times = random.pick(&[1, times]);
    Some(share_of(((p * times) as u32, (q * times) as u32)))
}

/// A share beside feeds that leave this part of a round: mostly all of it, else a little
/// more or less, a small part of it, or any.
fn beside(random: &mut Random, left: Length, round: Length) -> Share {
    let most = u64::from(Q_MOST);
    let thousandths = left * most / round;
    let of_a_thousand = |p: u64| share_of((p.clamp(1, most) as u32, Q_MOST));
    let kind = random.below(20);
    match (kind, just(random, left, round)) {
        (0..=8, Some(share)) => share,
        (9..=10, Some(Share { p, q })) if p < q => share_of((p + 1, q)),
        (9..=11, _) => of_a_thousand(thousandths + 1),
        (12..=13, _) => of_a_thousand(thousandths),
        (14..=15, _) => of_a_thousand(random.between(0, thousandths)),
        (16, _) => of_a_thousand(1),
        _ => share(random),
    }
}

/// Feeds that mostly leave something over, and often a part that can be told as a share.
fn lighter_feeds(random: &mut Random, start: u64, charge: u32) -> Vec<Feed> {
    let mut feeds = feeds(random, start, charge);
    if random.chance(30) {
        feeds.truncate(random.index(feeds.len() + 1));
    }
    let often = random.pick(&[0, 40, 100]);
    for feed in &mut feeds {
        if random.chance(often) {
            feed.work = random.between(1, feed.work);
        }
    }
    feeds
}

/// The feeds with every layer due when the next one comes, and with so much more work for
/// one of them, where that can be, that what they leave is a whole number of parts of the
/// round that can be told as a share.
fn due_by_the_next(mut feeds: Vec<Feed>, charge: Length) -> Vec<Feed> {
    feeds.iter_mut().for_each(|feed| feed.lead = feed.period);
    let (left, round) = match left_over(&feeds, charge) {
        Some(all) => all,
        None => return feeds,
    };
    let parts = divisors(round);
    let parts = parts.into_iter().filter(|part| *part <= Q_MOST.into());
    let odd = left % (round / parts.max().unwrap_or(1));
    let takes = |feed: &&mut Feed| odd % (round / feed.period) == 0;
    if let Some(feed) = feeds.iter_mut().find(takes) {
        feed.work += odd / (round / feed.period);
    }
    feeds
}

/// An opening that carries a share, mostly a good one.
pub fn shared_opening(random: &mut Random) -> Opening {
    let start = start(random);
    let charge = charge(random);
    let mut feeds = lighter_feeds(random, start, charge);
    if random.chance(50) {
        feeds = due_by_the_next(feeds, charge.into());
    }
    let share = match left_over(&feeds, charge.into()) {
        _ if random.chance(12) => no_share(random),
        Some((left, round)) => beside(random, left, round),
        None => share(random),
    };
    Opening {
        list: as_list(&feeds),
        start,
        charge,
        share: Some(share),
    }
}

/// An opening that passes, with a share that the feeds leave it, mostly to the last tick,
/// and every layer due when the next one comes: then no undated ask gets 6 as long as no
/// other is taken.
pub fn undated_opening(random: &mut Random) -> Opening {
    loop {
        let start = start(random);
        let charge = charge(random);
        let feeds = lighter_feeds(random, start, charge);
        let feeds = due_by_the_next(feeds, charge.into());
        let (left, round) = match left_over(&feeds, charge.into()) {
            Some(all) => all,
            None => continue,
        };
        let mut share = just(random, left, round);
        if share.is_none() || random.chance(15) {
            let thousandths = left * u64::from(Q_MOST) / round;
            let p = random.between(thousandths.min(1), thousandths) as u32;
            share = Some(Share { p, q: Q_MOST });
        }
        let opening = Opening {
            list: as_list(&feeds),
            start,
            charge,
            share,
        };
        if opening.open().is_ok() {
            return opening;
        }
    }
}

/// How many ticks of such a job's time the previous ones have still before them.
fn before_the_next(desk: &Desk) -> Length {
    desk.previous.unwrap_or(0).saturating_sub(desk.clock)
}

/// The most work that is due no further ahead than this by the rule; 0 also where none is.
fn most_within(desk: &Desk, share: Share, lead: Length) -> Length {
    let time = lead.saturating_sub(before_the_next(desk));
    (time * u64::from(share.p) / u64::from(share.q)).saturating_sub(desk.charge)
}

/// A work to ask for with no date: mostly a small one, so that more of them find a place,
/// else one with which it is due at a limit, or one at a limit itself.
pub fn undated_work(random: &mut Random, desk: &Desk) -> u64 {
    let share = match desk.share {
        Some(share) => share,
        None => return random.pick(&[0, 1, 3, 65_536, 65_537]),
    };
    let most = |lead| most_within(desk, share, lead);
    let room = LAST_INSTANT - desk.clock;
    let round = round_of(&desk.feeds).unwrap_or(1);
    match random.below(100) {
        // Due together with another job, where the share allows it.
        0..=14 if !desk.jobs.is_empty() => {
            let other = desk.jobs[random.index(desk.jobs.len())];
            most(other.deadline.saturating_sub(desk.clock)).max(1)
        }
        0..=44 => random.between(1, 9),
        45..=59 => random.between(1, most(2 * round).max(1)),
        60..=69 => most(random.between(1, JOB_LENGTH_MOST)),
        70..=76 => most(JOB_LENGTH_MOST),
        77..=83 => most(JOB_LENGTH_MOST + 1),
        84..=87 => most(JOB_LENGTH_MOST) + 1,
        88..=93 if room <= JOB_LENGTH_MOST => most(room + random.below(2)),
        _ => random.pick(&[0, 1, 65_536, 65_537, 65_535, u32::MAX.into()]),
    }
}

/// A previous deadline such that this work is due just at the longest lead or a tick after
/// it, just at the last instant or a tick after it, together with a job, or anywhere.
pub fn another_previous(random: &mut Random, desk: &Desk, work: Length) -> u64 {
    let Desk { clock, charge, .. } = *desk;
    let time = match desk.share {
        Some(Share { p, q }) => {
            let (p, q) = (u64::from(p.max(1)), u64::from(q));
            ((work + charge) * q + p - 1) / p
        }
        None => 0,
    };
    let any = random.below(JOB_LENGTH_MOST);
    let behind = |deadline: u64| deadline.saturating_sub(time);
    match random.below(20) {
        0..=3 => behind(clock + JOB_LENGTH_MOST) + random.below(2),
        4..=6 => behind(LAST_INSTANT) + random.below(2),
        16..=19 if !desk.jobs.is_empty() => {
            behind(desk.jobs[random.index(desk.jobs.len())].deadline)
        }
        7..=8 => clock + random.below(40),
        9 => clock + any,
        10 => clock.saturating_sub(random.below(40)),
        11 => clock.saturating_sub(any),
        12 => 0,
        13 => random.pick(&[1, clock, clock + 1, clock.saturating_sub(1)]),
        14 => random.pick(&[LAST_INSTANT, LAST_INSTANT - 1, LAST_INSTANT - any]),
        _ => random.below(LAST_INSTANT),
    }
    .min(LAST_INSTANT)
}

// ---------------------------------------------------------------- calls

/// A lead: often such that the deadline falls together with another one.
pub fn lead(random: &mut Random, desk: &Desk) -> u64 {
    let round = round_of(&desk.feeds).unwrap_or(1);
    match random.below(100) {
        // Due together with another job: then each shows what the other owes.
        0..=24 if !desk.jobs.is_empty() => desk.jobs[random.index(desk.jobs.len())]
            .deadline
            .saturating_sub(desk.clock),
        15..=44 if !desk.feeds.is_empty() => {
            let feed = desk.feeds[random.index(desk.feeds.len())];
            let pieces = random.pick(&[0, 0, 0, 1, 1, 2, 3, 7]);
            let near = feed.next_due(desk.clock) - desk.clock + pieces * feed.period;
            near + random.pick(&[0, 0, 0, 1])
        }
        45..=59 => random.between(1, 20),
        60..=79 => random.between(1, 2 * round),
        80..=86 => random.between(1, 65_536),
        87..=92 if LAST_INSTANT - desk.clock <= 65_536 => {
            LAST_INSTANT - desk.clock + random.pick(&[0, 0, 1])
        }
        93..=95 => 65_536,
        96 => 65_537,
        97 => 0,
        _ => random.pick(&[1, 2, 3, 4_294_967_295, 65_535]),
    }
}

/// The most work that fits with this lead, 0 if none does: the smallest margin from
/// its deadline on, less the charge.
pub fn most_that_fits(desk: &Desk, number: u32, lead: u64) -> u64 {
    let far = match desk.ask(number, 1, lead as u32) {
        Ok(taken) => ahead::far_enough(&taken),
        Err(_) => return 0,
    };
    let mut instants = Instants::after_the_clock(desk, 0, lead);
    let mut least = i64::MAX;
    loop {
        let owed = instants.leap(far);
        if owed.at >= desk.clock + lead {
            least = least.min(owed.margin);
        }
        if owed.at == far {
            return least as u64 - desk.charge;
        }
    }
}

pub fn work(random: &mut Random, desk: &Desk, number: u32, lead: u64) -> u64 {
    match random.below(100) {
        0..=49 => {
            let most = most_that_fits(desk, number, lead);
            match random.below(6) {
                0 => most + 1,
                1 | 2 => most,
                3 => most / 2 + 1,
                // It would fit if it owed no charge.
                4 => most + desk.charge,
                _ => random.between(1, most + 1),
            }
        }
        50..=64 => random.between(1, 4),
        65..=84 => random.between(1, lead.clamp(1, 65_536)),
        85..=92 => random.between(1, lead.clamp(1, 65_536) / 4 + 1),
        93..=94 => 0,
        95..=96 => 65_536,
        97 => 65_537,
        _ => random.pick(&[1, 4_294_967_295, 40_321, 65_535]),
    }
}

/// A job number out of a small pool, so that numbers come back.
pub fn number(random: &mut Random, desk: &Desk) -> u32 {
    match random.below(100) {
        0..=7 if !desk.jobs.is_empty() => desk.jobs[random.index(desk.jobs.len())].number,
        8..=84 => random.between(1, 12) as u32,
        85..=86 => 0,
        87..=89 => random.pick(&[4_294_967_295, 4_294_967_294, 2_147_483_648, 65_536]),
        90..=95 => random.between(1, 200) as u32,
        _ => random.next() as u32,
    }
}

pub fn live_or_not(random: &mut Random, desk: &Desk) -> u32 {
    if !desk.jobs.is_empty() && random.chance(75) {
        desk.jobs[random.index(desk.jobs.len())].number
    } else {
        number(random, desk)
    }
}

pub fn position(random: &mut Random, desk: &Desk) -> u32 {
    match random.below(100) {
        0..=79 if !desk.feeds.is_empty() => random.between(1, desk.feeds.len() as u64) as u32,
        80..=84 => 0,
        85..=92 => desk.feeds.len() as u32 + 1,
        _ => random.pick(&[16, 17, 4_294_967_295, 256]),
    }
}

// ---------------------------------------------------------------- mesh files

/// A file as a caller tells of it.
#[derive(Clone, Debug)]
pub struct Mesh {
    /// The bytes lent of its front.
    pub head: Vec<u8>,
    pub size: u64,
}

/// Where a count's work changes.
const BANDS_BEGIN: [u32; 5] = [10_000, 100_000, 1_000_000, 10_000_000, 100_000_000];

fn triangles(random: &mut Random) -> u32 {
    match random.below(100) {
        0..=9 => 0,
        10..=24 => random.between(1, 300) as u32,
        25..=59 => random.pick(&BANDS_BEGIN) - random.pick(&[0, 1]),
        60..=74 => random.between(1, 99_999) as u32,
        // As often of few bits as of many.
        75..=89 => random.next() as u32 >> random.below(32),
        90..=94 => u32::MAX - random.below(2) as u32,
        _ => random.next() as u32,
    }
}

/// Mostly the length that agrees; else one that is off by a little, that agrees
/// but for its high bits, or that is no length of a mesh at all.
fn length(random: &mut Random, triangles: u32) -> u64 {
    let right = 84 + 50 * u64::from(triangles);
    match random.below(100) {
        0..=73 => right,
        74..=79 => right + random.pick(&[1, 50]),
        80..=85 => right - random.pick(&[1, 50]),
        86..=89 => right + random.between(2, 120) - 60,
        90..=93 => right + (1 << random.pick(&[31, 32, 32, 33, 40, 63])),
        94..=95 => right % (1 << 32),
        96 => u64::MAX - random.below(200),
        97..=98 => random.below(200),
        _ => random.next(),
    }
}

/// A file of which this many bytes are lent. The header holds anything, also
/// the word that a mesh written as text begins with.
pub fn mesh(random: &mut Random, lent: usize) -> Mesh {
    let triangles = triangles(random);
    let size = length(random, triangles);
    let mut head: Vec<u8> = (0..lent.max(84)).map(|_| random.next() as u8).collect();
    if random.chance(20) {
        head[..6].copy_from_slice(b"solid ");
    }
    head[80..84].copy_from_slice(&triangles.to_le_bytes());
    head.truncate(lent);
    Mesh { head, size }
}

/// The shortest lead with which this work fits, if there is one: to the instant
/// after the last whose margin is too small for it.
pub fn least_that_fits(desk: &Desk, number: u32, work: u32) -> Option<u64> {
    let longest = JOB_LENGTH_MOST.min(LAST_INSTANT - desk.clock);
    let far = ahead::far_enough(&desk.ask(number, work, longest as u32).ok()?);
    let mut instants = Instants::after_the_clock(desk, 0, longest);
    let owes = u64::from(work) + desk.charge;
    let (mut from, mut margin, mut short) = (desk.clock, 0, desk.clock);
    while from < far {
        let next = instants.leap(far);
        if margin < owes as i64 {
            short = (from + owes - 1 - margin as u64).min(next.at - 1);
        }
        (from, margin) = (next.at, next.margin);
    }
    Some(short + 1 - desk.clock)
}

/// A lead for this mesh: as its work is given, often one at which it just fits
/// or just doesn't.
pub fn mesh_lead(random: &mut Random, desk: &Desk, number: u32, mesh: &Mesh) -> u64 {
    let least = match mesh::work(&mesh.head, mesh.size) {
        Ok(work) if random.chance(70) => least_that_fits(desk, number, work),
        _ => None,
    };
    let least = match least {
        Some(least) => least,
        None => return lead(random, desk),
    };
    // Due together with a job, where it fits so.
    let leads = desk.jobs.iter().map(|job| job.deadline - desk.clock);
    let together: Vec<u64> = leads.filter(|lead| *lead >= least).collect();
    match random.below(7) {
        0 => least - 1,
        1 | 2 => least,
        3 => least + random.between(1, 60),
        4 | 5 if !together.is_empty() => random.pick(&together),
        _ => random.between(least, JOB_LENGTH_MOST),
    }
}

// ---------------------------------------------------------------- scripts

/// A script as it grows, with the state that its lines have led to.
struct Script {
    lines: Vec<String>,
    desk: Desk,
    /// Ticks it may still run, so that most answers stay small.
    ticks: u64,
}

impl Script {
    fn open(opening: &Opening, ticks: u64) -> Option<Script> {
        let lines = opening.lines();
        let desk = opening.open().ok()?;
        Some(Script { lines, desk, ticks })
    }

    fn ask(&mut self, number: u32, work: u64, lead: u64) {
        self.lines.push(format!("ask {number} {work} {lead}"));
        if let Ok(desk) = self.desk.ask(number, work as u32, lead as u32) {
            self.desk = desk;
        }
    }

    fn some_ask(&mut self, random: &mut Random) {
        let number = number(random, &self.desk);
        let lead = lead(random, &self.desk);
        let work = work(random, &self.desk, number, lead);
        self.ask(number, work, lead);
    }

    fn some_end(&mut self, random: &mut Random) {
        let number = live_or_not(random, &self.desk);
        self.lines.push(format!("end {number}"));
        if let Ok(desk) = self.desk.end(number) {
            self.desk = desk;
        }
    }

    fn some_rest(&mut self, random: &mut Random) {
        let position = position(random, &self.desk);
        self.lines.push(format!("rest {position}"));
        if let Ok(desk) = self.desk.rest(position) {
            self.desk = desk;
        }
    }

    fn run(&mut self, ticks: u64) {
        let ticks = ticks.min(4_096).min(self.ticks);
        self.ticks -= ticks;
        self.lines.push(format!("run {ticks}"));
        for _ in 0..ticks.min(LAST_INSTANT - self.desk.clock) {
            self.desk.tick();
        }
    }

    fn some_run(&mut self, random: &mut Random) {
        let round = round_of(&self.desk.feeds).unwrap_or(1);
        let ticks = match random.below(100) {
            0..=39 => random.between(1, 5),
            40..=69 => random.between(1, 30),
            70..=84 => random.between(0, round.min(400)),
            85..=94 => random.between(0, 400),
            95 => 0,
            _ => random.between(1, 4_096),
        };
        self.run(ticks);
    }

    fn some_line(&mut self, random: &mut Random) {
        match random.below(100) {
            0..=44 => self.some_ask(random),
            45..=74 => self.some_run(random),
            75..=86 => self.some_end(random),
            _ => self.some_rest(random),
        }
    }

    fn text(&self) -> Vec<u8> {
        text(&self.lines)
    }
}

fn text(lines: &[String]) -> Vec<u8> {
    lines
        .iter()
        .flat_map(|line| [line.as_bytes(), b"\n"].concat())
        .collect()
}

/// The script of this seed and item; the kinds come in turn by chance.
pub fn script(seed: u64, item: u64) -> Vec<u8> {
    let random = &mut Random::of(seed, item);
    match random.below(1_000) {
        0..=599 => ordinary(random, 3, 25, 1_500),
        600..=659 => crowd(random),
        660..=689 => strange_opening(random),
        690..=829 => with_bad_line(random),
        830..=919 => with_bytes_changed(random),
        920..=934 => sized(random),
        935..=974 => at_the_end_of_time(random),
        975..=989 => ordinary(random, 30, 120, 3_000),
        990..=996 => ordinary(random, 20, 40, 40_000),
        _ => ordinary(random, 1, 3, 100),
    }
}

/// Opening and some lines. If the opening is refused the program stops there,
/// and the lines after it must not be read.
fn ordinary(random: &mut Random, least: u64, most: u64, ticks: u64) -> Vec<u8> {
    let opening = opening(random);
    match Script::open(&opening, ticks) {
        Some(mut script) => {
            for _ in 0..random.between(least, most) {
                script.some_line(random);
            }
            if random.chance(60) {
                script.some_run(random);
            }
            script.text()
        }
        None => {
            let mut lines = opening.lines();
            lines.push(
                random
                    .pick(&["run 3", "nonsense", "", "ask 1 1 1", "go 0", "go 0 0"])
                    .to_string(),
            );
            text(&lines)
        }
    }
}

/// As `ordinary`, but surely opened.
fn opened(random: &mut Random, ticks: u64) -> Script {
    loop {
        if let Some(script) = Script::open(&opening(random), ticks) {
            return script;
        }
    }
}

/// An opening that leaves much room for jobs.
fn roomy(random: &mut Random) -> Opening {
    let start = random.pick(&[0, 5, 1_000, LAST_INSTANT - 65_536, LAST_INSTANT - 70_000]);
    let (a, b, c) = (random.below(12), random.below(10), random.below(4));
    let (soon, late) = (random.pick(&[7, 8, 10]), random.pick(&[2, 3, 4]));
    let (list, most) = match random.below(3) {
        0 => (vec![], CHARGE_MOST),
        1 => (vec![12, 5, a as u32, random.pick(&[8, 10, 12])], 3),
        _ => (vec![10, 2, b as u32, soon, 4, 1, c as u32, late], 1),
    };
    let charge = random.between(0, most) as u32;
    Opening {
        list,
        start,
        charge,
        share: None,
    }
}

/// Many small jobs with long leads: the table fills and refuses by 5.
fn crowd(random: &mut Random) -> Vec<u8> {
    let mut script = Script::open(&roomy(random), 1_000).expect("these feeds pass");
    let deadlines = random.between(1, 5);
    let most = random.pick(&[1, 3, 20]);
    // One by one each number is lower than those there, or higher, or among them.
    let turn = random.pick(&[100, 1, 37]);
    for job in 0..random.between(60, 70) {
        let lead = 64_000 + 300 * random.below(deadlines);
        let number = if random.chance(90) {
            900 + (job * turn % 101) as u32
        } else {
            number(random, &script.desk)
        };
        let work = random.between(1, most);
        script.ask(number, work, lead);
    }
    for _ in 0..random.between(5, 20) {
        if random.chance(50) {
            let number = random.between(900, 1_010) as u32;
            let lead = lead(random, &script.desk);
            script.ask(number, 1 + random.below(3), lead);
        } else {
            script.some_line(random);
        }
    }
    script.text()
}

/// A `go` at and over each limit, its charge now and then no number at all.
fn strange_go(random: &mut Random) -> String {
    let start = match random.below(4) {
        0 => "0",
        1 => "1",
        _ => random.pick(&STARTS),
    };
    let charge = match random.below(4) {
        0 => "0",
        1 => "1",
        _ => random.pick(&CHARGES),
    };
    format!("go {start} {charge}")
}

/// A feed at and over each limit.
fn strange_feed(random: &mut Random) -> String {
    let odd: [u64; 10] = [0, 1, 2, 40_319, 40_320, 40_321, 65_536, 4_294_967_295, 7, 3];
    let period = match random.below(2) {
        0 => random.pick(&odd),
        _ => random.between(1, 40),
    };
    let work = match random.below(5) {
        0 => random.pick(&odd),
        _ => 1,
    };
    let offset = match random.below(4) {
        0 => period,
        1 => period.saturating_sub(1),
        2 => random.pick(&odd),
        _ => 0,
    };
    let lead = match random.below(6) {
        0 => 0,
        1 => period + 1,
        2 => random.pick(&odd),
        3 => 1,
        _ => period,
    };
    format!("feed {period} {work} {offset} {lead}")
}

/// Openings at and over each limit.
fn strange_opening(random: &mut Random) -> Vec<u8> {
    let many = random.pick(&[0, 1, 1, 2, 2, 3, 15, 16, 17]);
    let mut lines: Vec<String> = (0..many).map(|_| strange_feed(random)).collect();
    if random.chance(50) {
        // All alike and within limits, so that only the count or the load matters.
        let period = random.between(12, 20);
        let lead = random.pick(&[period, period, 15, 16, 17]).min(period);
        lines = vec![format!("feed {period} 1 {} {lead}", random.below(period)); many];
    }
    lines.push(strange_go(random));
    lines.push("ask 1 1 1".into());
    lines.push("run 3".into());
    text(&lines)
}

const BAD_LINES: [&str; 94] = [
    "",
    " ",
    "go",
    "go ",
    "go 0",
    "go 0 ",
    "go 0 0",
    "go 0 0 ",
    " go 0 0",
    "go  0 0",
    "go 0  0",
    "go 00 0",
    "go 01 0",
    "go 0 00",
    "go 0 01",
    "go -1 0",
    "go +1 0",
    "go 0 -1",
    "go 0x1 0",
    "go 0 0x1",
    "go 10000000000000 0",
    "go 00000000000000 0",
    "go 99999999999999999999 0",
    "go 0 4294967296",
    "go 0 9999999999999",
    "go 0 10000000000000",
    "go 0 0 0",
    "go 0 0 1 2",
    "go 0 0 1/2",
    "go 0,0",
    "Go 0 0",
    "GO 0 0",
    "goo 0 0",
    "g 0 0",
    "go0 0",
    "feed",
    "feed 4 1",
    "feed 4 1 0",
    "feed 4 1 0 ",
    "feed 4 1 0 4",
    "feed 4 1 0 4 4",
    "feed 4 1 0 4 ",
    "feed 4 1 00 4",
    "feed 4 1 0 04",
    "feed 4 1 0 00",
    "feed 4 1 0 -1",
    "feed 04 1 0 4",
    "feed 4  1 0 4",
    "feed 4 1 0  4",
    "feed 4294967296 1 0 4",
    "feed 4 4294967296 0 4",
    "feed 4 1 4294967296 4",
    "feed 4 1 0 4294967296",
    "feed 12345678901234 1 0 4",
    "feed a 1 0 4",
    "feeds 4 1 0 4",
    "ask",
    "ask 1 1",
    "ask 1 1 1 1",
    "ask 1 1 1 ",
    "ask  1 1 1",
    "ask 01 1 1",
    "ask 1 01 1",
    "ask 1 1 01",
    "ask 4294967296 1 1",
    "ask 1 4294967296 1",
    "ask 1 1 4294967296",
    "ask 9999999999999 1 1",
    "ask 1 1 10000000000000",
    "ask,1,1,1",
    "ask\t1\t1\t1",
    "end",
    "end ",
    "end 01",
    "end 1 1",
    "end 4294967296",
    "end 1\r",
    "rest",
    "rest 4294967296",
    "rest 00",
    "rest 1 ",
    "rest 1.0",
    "run",
    "run 4097",
    "run 04096",
    "run 4294967296",
    "run 1 1",
    "run 10000000000000",
    "# comment",
    "run 1\0",
    "list",
    "share 1 2",
    "undated 1 1",
    "quit",
];

/// Lines that are on the good side of a limit.
const EDGE_LINES: [&str; 10] = [
    "run 0",
    "ask 4294967295 1 1",
    "ask 1 4294967295 1",
    "ask 1 1 4294967295",
    "ask 0 0 0",
    "end 4294967295",
    "end 0",
    "rest 4294967295",
    "rest 0",
    "run 4096",
];

fn with_bad_line(random: &mut Random) -> Vec<u8> {
    let mut script = opened(random, 200);
    for _ in 0..random.between(0, 8) {
        script.some_line(random);
    }
    let mut lines = script.lines;
    let opening = lines
        .iter()
        .position(|line| line.starts_with("go"))
        .expect("it opens");
    if random.chance(8) {
        // The last newline missing.
        let mut text = text(&lines);
        text.pop();
        return text;
    }
    spoil_a_line(random, &mut lines, opening);
    text(&lines)
}

/// One line bad in itself or where it stands, now and then only at a limit.
fn spoil_a_line(random: &mut Random, lines: &mut Vec<String>, opening: usize) {
    match random.below(11) {
        // A feed too many, whether or not the others pass.
        0 => {
            let period = random.pick(&[1, 16, 18, 20]);
            let feeds = vec![format!("feed {period} 1 0 {period}"); 18];
            lines.splice(0..opening, feeds);
        }
        // A second go, and lines before the first.
        1 => {
            let (from, to) = (random.index(lines.len()), random.index(lines.len()));
            let line = lines.remove(from);
            lines.insert(to, line);
        }
        2 => {
            let place = random.between(opening as u64 + 1, lines.len() as u64) as usize;
            lines.insert(place, random.pick(&EDGE_LINES).to_string());
        }
        3 => lines[opening] = bad_go(random, &lines[opening]),
        4 if opening > 0 => {
            let place = random.index(opening);
            lines[place] = bad_feed(random, &lines[place]);
        }
        _ => {
            let place = random.index(lines.len() + 1);
            lines.insert(place, random.pick(&BAD_LINES).to_string());
        }
    }
}

/// The same `go` without its charge, with a field too many, or with a charge that
/// is no number.
fn bad_go(random: &mut Random, go: &str) -> String {
    let (uncharged, _) = go.rsplit_once(' ').expect("it has a charge");
    let charge = random.pick(&[
        "",
        "4294967296",
        "9999999999999",
        "00",
        "01",
        "-1",
        "0x1",
        "x",
    ]);
    match random.below(3) {
        0 => uncharged.to_string(),
        1 => format!("{go} {}", random.pick(&["0", "1", "16", ""])),
        _ => format!("{uncharged} {charge}"),
    }
}

/// The same feed without its deadline length, with a field too many, or with one that
/// is no number.
fn bad_feed(random: &mut Random, feed: &str) -> String {
    let (dueless, lead) = feed.rsplit_once(' ').expect("it has a deadline length");
    match random.below(4) {
        0 => dueless.to_string(),
        1 => format!("{feed} {}", random.pick(&["0", "1", lead, ""])),
        2 => format!("{dueless} 0{lead}"),
        _ => format!(
            "{dueless} {}",
            random.pick(&["", "4294967296", "00", "-1", "x"])
        ),
    }
}

fn with_bytes_changed(random: &mut Random) -> Vec<u8> {
    let mut script = opened(random, 100);
    for _ in 0..random.between(0, 6) {
        script.some_line(random);
    }
    let mut text = script.text();
    for _ in 0..random.between(1, 2) {
        let place = random.index(text.len());
        match random.below(6) {
            0 => text[place] = random.next() as u8,
            1 => text[place] = random.pick(b"0123456789 \n"),
            2 => text.insert(place, random.pick(b"0123456789 \n")),
            3 => {
                text.remove(place);
            }
            4 => text.truncate(place),
            _ => {
                let other = random.index(text.len());
                text.swap(place, other);
            }
        }
        if text.is_empty() {
            break;
        }
    }
    text
}

/// Inputs of exactly the most bytes, or one less, or one or more too many.
fn sized(random: &mut Random) -> Vec<u8> {
    let mut script = opened(random, 100);
    for _ in 0..random.between(0, 6) {
        script.some_line(random);
    }
    let size =
        INPUT_MOST as u64 + random.pick(&[0, 0, 0, 1, 1, 2, 5_000]) - random.pick(&[0, 0, 1]);
    let mut text = script.text();
    pad(random, &mut text, size as usize);
    match random.below(6) {
        0 => text[size as usize - 1] = b'7',
        1 => text = vec![b'\n'; size as usize],
        _ => (),
    }
    text
}

/// Lines of 6 to 15 bytes up to exactly this size.
fn pad(random: &mut Random, text: &mut Vec<u8>, size: usize) {
    while text.len() < size {
        let missing = size - text.len();
        let length = match missing {
            0..=15 => missing,
            16..=30 => missing / 2,
            _ => 15 - random.index(3),
        };
        let digits: String = (6..length).map(|_| random.pick(&['0', '1', '2'])).collect();
        text.extend(format!("end 1{digits}\n").bytes());
    }
}

/// Openings so late that runs and asks meet the last instant.
fn at_the_end_of_time(random: &mut Random) -> Vec<u8> {
    let mut script = loop {
        let start = LAST_INSTANT - random.below(60);
        let charge = charge(random);
        let opening = Opening {
            list: as_list(&feeds(random, start, charge)),
            start,
            charge,
            share: None,
        };
        if let Some(script) = Script::open(&opening, 400) {
            break script;
        }
    };
    for _ in 0..random.between(2, 14) {
        let left = LAST_INSTANT - script.desk.clock;
        match random.below(10) {
            0..=3 => {
                let number = number(random, &script.desk);
                let lead = left + random.below(3) - left.min(1);
                let work = work(random, &script.desk, number, lead);
                script.ask(number, work, lead);
            }
            4..=5 => script.run(left / 2 + random.below(3)),
            _ => script.some_line(random),
        }
    }
    script.run(random.pick(&[1, 70, 100]));
    script.run(random.below(3));
    script.some_line(random);
    script.text()
}

/// The longest answer: the most `run 4096` lines that 65,536 bytes hold.
pub fn flood() -> Vec<u8> {
    let mut text =
        b"feed 4 1 0 2\nfeed 6 2 0 6\nfeed 40320 7 99 40000\ngo 1099482627776 0\nask 7 9000 65536\n".to_vec();
    // A line to pad with has 6 bytes or more.
    while text.len() + 9 + 6 <= INPUT_MOST {
        text.extend(b"run 4096\n");
    }
    pad(&mut Random::of(0, 0), &mut text, INPUT_MOST);
    text
}

// ---------------------------------------------------------------- fixed scripts

/// Scripts that every comparison begins with: each bad line before and after
/// `go` and alone, each limit on both sides, each bench example.
pub fn fixed() -> Vec<Vec<u8>> {
    let mut scripts: Vec<String> = vec!["".into(), "\n".into(), "go 0 0".into()];
    for line in BAD_LINES {
        scripts.push(format!("{line}\n"));
        scripts.push(format!("feed 4 1 0 4\n{line}\ngo 0 0\nrun 1\n"));
        scripts.push(format!("feed 4 1 0 4\ngo 0 0\n{line}\nrun 1\n"));
        scripts.push(format!("feed 4 1 0 4\ngo 0 0\n{line}"));
    }
    for line in EDGE_LINES {
        scripts.push(format!("feed 4 1 0 4\ngo 0 0\n{line}\nrun 1\n"));
        scripts.push(format!("feed 4 1 0 4\ngo 0 3\n{line}\nrun 1\n"));
    }
    for start in STARTS {
        scripts.push(format!(
            "feed 4 1 0 4\ngo {start} 0\nask 1 1 1\nrun 2\nrun 1\nend 1\n"
        ));
    }
    scripts.extend(charged());
    scripts.extend(due_early());
    scripts.extend(asked_in_any_order());
    for count in 15..=18 {
        let feeds = |feed: &str| feed.repeat(count);
        scripts.push(feeds("feed 20 1 0 20\n") + "go 0 0\nrun 40\n");
        scripts.push(feeds("feed 20 1 0 16\n") + "go 0 0\nrun 40\n");
        scripts.push(feeds("feed 0 1 0 0\n") + "go 1099511627777 17\nrun 40\n");
    }
    scripts.extend(BENCH.iter().map(|script| script.to_string()));
    let texts = scripts.into_iter().map(String::into_bytes);
    texts.chain(at_the_size_limit()).collect()
}

/// Each charge at a limit, beside feeds that pass or do not; then each that is in
/// order, with a job that is interrupted, a rested piece whose time is used to the
/// last tick, and the longest work there is.
fn charged() -> Vec<String> {
    let mut scripts = Vec::new();
    for charge in CHARGES {
        scripts.push(format!("go 1099511627777 {charge}\n"));
        for feeds in CHARGED_FEEDS {
            let calls = "ask 1 1 40\nrun 50\n";
            scripts.push(format!("{feeds}go 0 {charge}\n{calls}"));
        }
    }
    for charge in 0..=CHARGE_MOST {
        let just = 17 - charge;
        scripts.push(format!(
            "feed 20 3 2 20\ngo 0 {charge}\nask 1 1 40\nrun 25\nend 1\nrest 1\n\
             ask 2 {} 17\nask 2 {just} 17\nrun 40\n",
            just + 1
        ));
        let just = JOB_LENGTH_MOST - charge;
        scripts.push(format!(
            "go 0 {charge}\nask 1 65536 65536\nask 2 {just} 65536\nrun 3\n"
        ));
    }
    scripts
}

/// Four jobs, two of them due together, asked for in each order there is, and each of
/// them ended or none, before the first tick or after it; then one more that is due with
/// the two.
fn asked_in_any_order() -> Vec<String> {
    let asks = ["ask 5 2 9\n", "ask 2 1 9\n", "ask 9 2 4\n", "ask 1 1 20\n"];
    let mut scripts = Vec::new();
    for turn in 0..24 {
        let mut left = asks.to_vec();
        let order = [turn / 6, turn / 2 % 3, turn % 2, 0].map(|place| left.remove(place));
        for (before, after) in [("", "run 1\n"), ("run 1\n", "")] {
            for end in ["", "end 1\n", "end 2\n", "end 5\n", "end 9\n"] {
                let asks = order.concat();
                scripts.push(format!(
                    "feed 6 1 3 6\ngo 0 0\n{asks}{before}{end}{after}ask 3 1 8\nrun 20\n"
                ));
            }
        }
    }
    scripts
}

/// Feeds at each limit of their deadline lengths, opened in mid-period, at a release
/// and below their offsets; their layers rested before and from their deadlines on,
/// and jobs around them.
fn due_early() -> Vec<String> {
    let mut scripts = Vec::new();
    for feeds in DUE_EARLY {
        for start in [0, 1, 2, 3, 5, 38, 39, 40, LAST_INSTANT - 6] {
            for charge in [0, 1] {
                let calls = "rest 1\nask 1 1 1\nrun 1\nrest 1\nask 2 2 4\nrun 2\nrest 1\nrest 2\n\
                             ask 3 1 2\nask 4 3 9\nrun 90\n";
                scripts.push(format!("{feeds}go {start} {charge}\n{calls}"));
            }
        }
    }
    scripts
}

/// Alone, with another, and refused by 2 or 10: by a short stretch, by the charge in
/// one, or by feeds whose offsets would help if offsets could.
const DUE_EARLY: [&str; 22] = [
    "feed 4 1 0 0\n",
    "feed 4 1 0 1\n",
    "feed 4 1 0 2\n",
    "feed 4 1 0 3\n",
    "feed 4 1 0 4\n",
    "feed 4 1 0 5\n",
    "feed 4 1 0 4294967295\n",
    "feed 4 1 1 1\n",
    "feed 4 2 1 3\n",
    "feed 4 1 3 1\n",
    "feed 40 1 39 1\n",
    "feed 40 5 39 7\n",
    "feed 40 9 20 10\n",
    "feed 1 1 0 1\n",
    "feed 40320 1 40319 1\n",
    "feed 4 2 0 2\nfeed 4 2 2 2\n",
    "feed 4 2 0 2\nfeed 4 2 2 4\n",
    "feed 4 2 0 2\nfeed 4 1 2 3\n",
    "feed 6 2 0 3\nfeed 4 1 1 2\n",
    "feed 6 1 5 4\nfeed 4 1 3 2\n",
    "feed 6 3 0 3\nfeed 12 3 0 6\n",
    "feed 2 1 0 1\nfeed 40319 1 0 0\n",
];

/// None; some that get 2, 9 or 10 under any charge; and some that are full under
/// the charge 0, 1 or 16.
const CHARGED_FEEDS: [&str; 7] = [
    "",
    "feed 0 1 0 1\n",
    "feed 40319 1 0 40319\nfeed 2 1 0 2\n",
    "feed 4 4 0 4\nfeed 4 1 0 4\n",
    "feed 2 1 0 2\nfeed 4 2 0 4\n",
    "feed 4 3 0 4\n",
    "feed 40320 40304 0 40320\n",
];

/// Charges on both sides of each limit, as words; the last ones are bad.
const CHARGES: [&str; 11] = [
    "0",
    "1",
    "2",
    "15",
    "16",
    "17",
    "18",
    "4294967295",
    "4294967296",
    "9999999999999",
    "10000000000000",
];

const STARTS: [&str; 8] = [
    "1099511627775",
    "1099511627776",
    "1099511627777",
    "9999999999999",
    "10000000000000",
    "4294967295",
    "4294967296",
    "3",
];

/// The document's example and its bench examples, in the program's words.
pub const BENCH: [&str; 14] = [
    "feed 4 1 0 4\nfeed 6 2 0 6\ngo 0 0\nask 1 3 6\nask 2 1 6\nrun 12\n",
    "feed 4 1 0 4\nfeed 6 2 0 6\ngo 0 0\nask 1 4 6\n",
    "feed 4 1 0 4\nfeed 6 2 0 6\ngo 0 0\nask 1 4 7\nrun 24\n",
    "feed 4 1 0 4\nfeed 6 2 0 6\ngo 0 0\nask 1 5 12\nrun 24\n",
    "feed 4 1 0 4\nfeed 6 2 0 6\ngo 0 0\nask 1 6 12\nrun 24\n",
    "feed 4 1 0 4\nfeed 6 2 0 6\ngo 0 0\nask 1 6 13\nrun 24\n",
    "feed 2 1 0 2\nfeed 4 2 0 4\ngo 0 0\nask 1 1 65536\nrun 8\n",
    "feed 2 1 0 2\nfeed 4 2 0 4\ngo 0 0\nrest 1\nask 1 1 1\nrun 8\n",
    "feed 4 4 0 4\ngo 0 0\nask 1 1 1\nrun 8\n",
    "go 0 0\nask 1 3 4\nask 2 2 2\nrun 8\n",
    "feed 40319 1 0 40319\nfeed 2 1 0 2\ngo 0 0\n",
    "feed 2 1 0 2\nfeed 3 2 0 3\ngo 0 0\n",
    "go 1099511562240 0\nask 1 1 65536\nrun 2\n",
    "go 1099511562240 0\nrun 1\nask 1 1 65536\nrun 2\n",
];

/// Whole lines up to one byte less than the most, the most, and one more; then
/// the same without the last newline, and with nothing but newlines.
fn at_the_size_limit() -> Vec<Vec<u8>> {
    let mut scripts = Vec::new();
    for size in [INPUT_MOST - 1, INPUT_MOST, INPUT_MOST + 1] {
        let mut whole = b"go 0 0\n".to_vec();
        pad(&mut Random::of(0, size as u64), &mut whole, size);
        let mut cut = whole.clone();
        cut[size - 1] = b'7';
        scripts.extend([whole, cut, vec![b'\n'; size], vec![b'7'; size]]);
    }
    scripts
}
