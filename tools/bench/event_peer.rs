//! The same script language as the scorekeeper's program, as a good engineer would write it in plain Rust: a measure for its times. It keeps
//! an event in memory alone, with no tables and no proofs. It is independent of the program and of the models in Python on purpose, its
//! standings and its search too. Built with `--cfg sqlite`, it keeps the event's rows in C SQLite too, and reads the standings from there.
use std::cmp::Reverse;
use std::io::{Read, Write};
use std::process::ExitCode;

#[cfg(sqlite)]
#[path = "sqlite_rows.rs"]
mod rows;

/// The rows of an event that is in memory only: none.
#[cfg(not(sqlite))]
mod rows {
    pub struct Rows;

    impl Rows {
        pub fn new() -> Rows {
            Rows
        }

        pub fn keep(&self, _event: &crate::Event, _words: &[&str]) {}

        pub fn standings(&self, event: &crate::Event) -> Vec<crate::Row> {
            event.standings()
        }
    }
}

use rows::Rows;

const MAX_ROUNDS: usize = 12;
const BASE: u128 = 27_720;
const WHOLE: u128 = 3 * 5_624_043_567_677_125_526_551_547_131_200 * BASE;
const MINIMUM: u128 = WHOLE / 100 * 33;
const MAX_STEPS: u32 = 1_000_000;

#[derive(Clone, Copy, PartialEq, Eq)]
struct Games {
    x: u8,
    y: u8,
    d: u8,
}

#[derive(Clone, Copy)]
struct Match {
    a: u16,
    b: u16,
    score: Option<Games>,
}

struct Player {
    name: String,
    dropped: bool,
    /// How many rounds were stored when the player came.
    joined: usize,
}

#[derive(Clone, Copy, PartialEq, Eq)]
enum Phase {
    Enrolling,
    Swiss,
    Playoff,
    Finished,
}

struct Event {
    rounds: usize,
    cut: usize,
    phase: Phase,
    players: Vec<Player>,
    stored: Vec<Vec<Match>>,
    bracket: Vec<Vec<Match>>,
    serial: u32,
}

type Refusal = (u8, &'static str);

const BAD_NAME: Refusal = (1, "BadName");
const NAME_TAKEN: Refusal = (2, "NameTaken");
const PLAYERS_FULL: Refusal = (3, "PlayersFull");
const NOT_ENROLLING: Refusal = (4, "NotEnrolling");
const TOO_FEW_PLAYERS: Refusal = (5, "TooFewPlayers");
const NOT_SWISS: Refusal = (6, "NotSwiss");
const WRONG_ROUND: Refusal = (7, "WrongRound");
const ROUND_OPEN: Refusal = (8, "RoundOpen");
const ALL_ROUNDS_PAIRED: Refusal = (9, "AllRoundsPaired");
const NO_PAIRING: Refusal = (10, "NoPairing");
const BUDGET: Refusal = (11, "Budget");
const NO_SUCH_MATCH: Refusal = (12, "NoSuchMatch");
const BAD_SCORE: Refusal = (13, "BadScore");
const ALREADY_REPORTED: Refusal = (14, "AlreadyReported");
const NOT_REPORTED: Refusal = (15, "NotReported");
const IS_BYE: Refusal = (16, "IsBye");
const NO_SUCH_PLAYER: Refusal = (17, "NoSuchPlayer");
const ALREADY_DROPPED: Refusal = (18, "AlreadyDropped");
const ROUNDS_NOT_DONE: Refusal = (19, "RoundsNotDone");
const NO_CUT: Refusal = (20, "NoCut");
const TOO_FEW_FOR_CUT: Refusal = (21, "TooFewForCut");
const NOT_PLAYOFF: Refusal = (22, "NotPlayoff");
const SERIAL_FULL: Refusal = (23, "SerialFull");
const NO_EVENT: Refusal = (27, "NoEvent");
const EVENT_EXISTS: Refusal = (28, "EventExists");
const BAD_SETUP: Refusal = (30, "BadSetup");

fn is_lawful_name(name: &str) -> bool {
    (1..=60).contains(&name.len()) && !name.starts_with(' ') && !name.ends_with(' ') && !name.chars().any(|c| c < ' ' || c == '\u{7f}')
}

fn is_swiss_score(s: Games) -> bool {
    s.x <= 2 && s.y <= 2 && !(s.x == 2 && s.y == 2) && s.d <= 3
}

fn is_playoff_score(s: Games) -> bool {
    s.x <= 3 && s.y <= 3 && s.x != s.y && s.d <= 3
}

fn is_complete(matches: &[Match]) -> bool {
    matches.iter().all(|m| m.score.is_some())
}

fn quarter_round(state: &mut [u32; 16], a: usize, b: usize, c: usize, d: usize) {
    for (x, y, z, by) in [(a, b, d, 16), (c, d, b, 12), (a, b, d, 8), (c, d, b, 7)] {
        state[x] = state[x].wrapping_add(state[y]);
        state[z] = (state[z] ^ state[x]).rotate_left(by);
    }
}

/// The words of the ChaCha20 stream under a key, from its first block (RFC 8439).
fn keys(seed: &[u8; 32], count: usize) -> Vec<u32> {
    let mut words = Vec::with_capacity(count + 16);
    for block in 0.. {
        if words.len() >= count {
            break;
        }
        let mut start = [0x6170_7865, 0x3320_646e, 0x7962_2d32, 0x6b20_6574, 0, 0, 0, 0, 0, 0, 0, 0, block, 0, 0, 0];
        for (word, bytes) in start[4..12].iter_mut().zip(seed.chunks(4)) {
            *word = u32::from_le_bytes([bytes[0], bytes[1], bytes[2], bytes[3]]);
        }
        let mut state = start;
        for _ in 0..10 {
            for (a, b, c, d) in [(0, 4, 8, 12), (1, 5, 9, 13), (2, 6, 10, 14), (3, 7, 11, 15), (0, 5, 10, 15), (1, 6, 11, 12), (2, 7, 8, 13), (3, 4, 9, 14)] {
                quarter_round(&mut state, a, b, c, d);
            }
        }
        words.extend(state.iter().zip(start).map(|(word, first)| word.wrapping_add(first)));
    }
    words.truncate(count);
    words
}

/// The search for the earliest legal pairing, by positions of the order.
struct Search<'a> {
    met: &'a [bool],
    size: usize,
    used: Vec<bool>,
    pairs: Vec<(usize, usize)>,
    steps: u32,
}

enum Outcome {
    Paired,
    DeadEnd,
    OutOfSteps,
}

impl Search<'_> {
    fn run(&mut self, from: usize) -> Outcome {
        let Some(first) = (from..self.size).find(|p| !self.used[*p]) else {
            return Outcome::Paired;
        };
        self.used[first] = true;
        for partner in first + 1..self.size {
            if self.used[partner] || self.met[first * self.size + partner] {
                continue;
            }
            if self.steps == MAX_STEPS {
                return Outcome::OutOfSteps;
            }
            self.steps += 1;
            self.used[partner] = true;
            self.pairs.push((first, partner));
            match self.run(first + 1) {
                Outcome::DeadEnd => {}
                ended => return ended,
            }
            self.pairs.pop();
            self.used[partner] = false;
        }
        self.used[first] = false;
        Outcome::DeadEnd
    }
}

#[derive(Clone, Copy, Default)]
struct Tally {
    points: u8,
    rounds: u8,
    game_points: u16,
    games: u8,
}

struct Row {
    rank: usize,
    number: usize,
    points: u8,
    shares: [u128; 3],
}

fn percentage(points: u128, of: u128) -> u128 {
    if of == 0 { MINIMUM } else { (points * (WHOLE / (3 * of))).max(MINIMUM) }
}

fn average(shares: &[u128]) -> u128 {
    if shares.is_empty() { MINIMUM } else { shares.iter().sum::<u128>() / shares.len() as u128 }
}

/// Twenty thousand wholes don't fit, so whole percent come first, and what is left behind them then.
fn hundredths(share: u128) -> u128 {
    let (percent, rest) = (100 * share / WHOLE, 100 * share % WHOLE);
    100 * percent + (200 * rest + WHOLE) / (2 * WHOLE)
}

/// The standings by the totals of each player, and who met whom.
fn ranked(tallies: &[Tally], meetings: impl Iterator<Item = (u16, u16)>) -> Vec<Row> {
    let wins: Vec<u128> = tallies.iter().map(|t| percentage(u128::from(t.points), u128::from(t.rounds))).collect();
    let games: Vec<u128> = tallies.iter().map(|t| percentage(u128::from(t.game_points), u128::from(t.games))).collect();
    let mut opponents = vec![Vec::with_capacity(MAX_ROUNDS); tallies.len()];
    for (a, b) in meetings {
        opponents[usize::from(a)].push(b);
        opponents[usize::from(b)].push(a);
    }
    let over = |met: &[u16], of: &[u128]| average(&met.iter().map(|p| of[usize::from(*p)]).collect::<Vec<_>>());
    let mut rows: Vec<Row> = (1..tallies.len())
        .map(|p| Row { rank: 0, number: p, points: tallies[p].points, shares: [over(&opponents[p], &wins), games[p], over(&opponents[p], &games)] })
        .collect();
    rows.sort_unstable_by_key(|row| (Reverse((row.points, row.shares)), row.number));
    for place in 0..rows.len() {
        let is_tied = place > 0 && (rows[place - 1].points, rows[place - 1].shares) == (rows[place].points, rows[place].shares);
        rows[place].rank = if is_tied { rows[place - 1].rank } else { place + 1 };
    }
    rows
}

impl Event {
    fn lines(&self) -> impl Iterator<Item = &Match> + '_ {
        self.stored.iter().filter(|round| is_complete(round)).flatten()
    }

    fn tallies(&self) -> Vec<Tally> {
        let mut tallies = vec![Tally::default(); self.players.len() + 1];
        for m in self.lines() {
            let s = m.score.unwrap();
            for (player, won, lost) in [(m.a, s.x, s.y), (m.b, s.y, s.x)] {
                let tally = &mut tallies[usize::from(player)];
                tally.points += if won > lost { 3 } else if won == lost { 1 } else { 0 };
                tally.rounds += 1;
                tally.game_points += u16::from(3 * won + s.d);
                tally.games += won + lost + s.d;
            }
        }
        for (player, tally) in self.players.iter().zip(&mut tallies[1..]) {
            tally.rounds += self.stored.iter().take(player.joined).filter(|round| is_complete(round)).count() as u8;
        }
        tallies
    }

    fn standings(&self) -> Vec<Row> {
        ranked(&self.tallies(), self.lines().filter(|m| m.b != 0).map(|m| (m.a, m.b)))
    }

    fn active(&self) -> impl Iterator<Item = u16> + '_ {
        self.players.iter().zip(1..).filter(|(p, _)| !p.dropped).map(|(_, number)| number)
    }

    fn enrol(&mut self, name: &str) -> Result<(), Refusal> {
        if matches!(self.phase, Phase::Playoff | Phase::Finished) {
            return Err(NOT_ENROLLING);
        }
        if self.phase == Phase::Swiss && self.stored.len() == self.rounds {
            return Err(ALL_ROUNDS_PAIRED);
        }
        if !is_lawful_name(name) {
            return Err(BAD_NAME);
        }
        if self.players.iter().any(|p| p.name == name) {
            return Err(NAME_TAKEN);
        }
        if self.players.len() >= 512 {
            return Err(PLAYERS_FULL);
        }
        self.players.push(Player { name: name.to_owned(), dropped: false, joined: self.stored.len() });
        Ok(())
    }

    fn start(&mut self) -> Result<(), Refusal> {
        if self.phase != Phase::Enrolling {
            return Err(NOT_ENROLLING);
        }
        if self.players.len() < 2 {
            return Err(TOO_FEW_PLAYERS);
        }
        self.phase = Phase::Swiss;
        Ok(())
    }

    fn pair(&mut self, round: usize, seed: &[u8; 32]) -> Result<(), Refusal> {
        if self.phase != Phase::Swiss {
            return Err(NOT_SWISS);
        }
        let next = self.stored.len() + 1;
        if round != next {
            return Err(WRONG_ROUND);
        }
        if next > self.rounds {
            return Err(ALL_ROUNDS_PAIRED);
        }
        if self.stored.last().is_some_and(|round| !is_complete(round)) {
            return Err(ROUND_OPEN);
        }
        let mut order: Vec<u16> = self.active().collect();
        if order.len() < 2 {
            return Err(TOO_FEW_PLAYERS);
        }
        let tallies = self.tallies();
        let mut places: Vec<_> = order.iter().zip(keys(seed, order.len())).map(|(p, key)| (Reverse(tallies[usize::from(*p)].points), key, *p)).collect();
        places.sort_unstable();
        order = places.into_iter().map(|place| place.2).collect();
        if order.len() % 2 == 1 {
            order.push(0);
        }
        let size = order.len();
        let mut place_of = vec![usize::MAX; self.players.len() + 1];
        for (place, player) in order.iter().enumerate() {
            place_of[usize::from(*player)] = place;
        }
        let mut met = vec![false; size * size];
        for m in self.stored.iter().flatten() {
            let (p, q) = (place_of[usize::from(m.a)], place_of[usize::from(m.b)]);
            if p < size && q < size {
                met[p * size + q] = true;
                met[q * size + p] = true;
            }
        }
        let mut search = Search { met: &met, size, used: vec![false; size], pairs: Vec::with_capacity(size / 2), steps: 0 };
        match search.run(0) {
            Outcome::Paired => {}
            Outcome::DeadEnd => return Err(NO_PAIRING),
            Outcome::OutOfSteps => return Err(BUDGET),
        }
        let bye = Games { x: 2, y: 0, d: 0 };
        let mut matches: Vec<Match> = search.pairs.iter().map(|(p, q)| Match { a: order[*p], b: order[*q], score: None }).collect();
        if let Some(place) = matches.iter().position(|m| m.b == 0) {
            let m = matches.remove(place);
            matches.push(Match { score: Some(bye), ..m });
        }
        self.stored.push(matches);
        Ok(())
    }

    fn match_at(&mut self, round: usize, table: usize) -> Option<&mut Match> {
        let matches = self.stored.get_mut(round.checked_sub(1)?)?;
        match table {
            0 => matches.iter_mut().find(|m| m.b == 0),
            _ => matches.get_mut(table - 1).filter(|m| m.b != 0),
        }
    }

    fn report(&mut self, round: usize, table: usize, score: Games, is_correction: bool) -> Result<(), Refusal> {
        if self.phase != Phase::Swiss {
            return Err(NOT_SWISS);
        }
        let m = self.match_at(round, table).ok_or(NO_SUCH_MATCH)?;
        if m.b == 0 {
            return Err(IS_BYE);
        }
        if m.score.is_some() != is_correction {
            return Err(if is_correction { NOT_REPORTED } else { ALREADY_REPORTED });
        }
        if !is_swiss_score(score) {
            return Err(BAD_SCORE);
        }
        m.score = Some(score);
        Ok(())
    }

    fn drop_player(&mut self, player: usize) -> Result<(), Refusal> {
        if self.phase != Phase::Swiss {
            return Err(NOT_SWISS);
        }
        let player = player.checked_sub(1).and_then(|p| self.players.get_mut(p)).ok_or(NO_SUCH_PLAYER)?;
        if player.dropped {
            return Err(ALREADY_DROPPED);
        }
        player.dropped = true;
        Ok(())
    }

    fn cut(&mut self) -> Result<(), Refusal> {
        if self.phase != Phase::Swiss {
            return Err(NOT_SWISS);
        }
        if self.cut == 0 {
            return Err(NO_CUT);
        }
        if self.stored.len() != self.rounds || !self.stored.iter().all(|round| is_complete(round)) {
            return Err(ROUNDS_NOT_DONE);
        }
        if self.active().count() < self.cut {
            return Err(TOO_FEW_FOR_CUT);
        }
        let seeds: Vec<u16> = self.standings().iter().map(|row| row.number).filter(|p| !self.players[p - 1].dropped).map(|p| p as u16).collect();
        let slots: &[(usize, usize)] = match self.cut {
            8 => &[(1, 8), (4, 5), (2, 7), (3, 6)],
            4 => &[(1, 4), (2, 3)],
            _ => &[(1, 2)],
        };
        self.bracket = vec![slots.iter().map(|(p, q)| Match { a: seeds[p - 1], b: seeds[q - 1], score: None }).collect()];
        self.phase = Phase::Playoff;
        Ok(())
    }

    fn playoff(&mut self, stage: usize, slot: usize, score: Games) -> Result<(), Refusal> {
        if self.phase != Phase::Playoff {
            return Err(NOT_PLAYOFF);
        }
        let matches = stage.checked_sub(1).and_then(|s| self.bracket.get_mut(s)).ok_or(NO_SUCH_MATCH)?;
        let m = slot.checked_sub(1).and_then(|s| matches.get_mut(s)).ok_or(NO_SUCH_MATCH)?;
        if m.score.is_some() {
            return Err(ALREADY_REPORTED);
        }
        if !is_playoff_score(score) {
            return Err(BAD_SCORE);
        }
        m.score = Some(score);
        if !is_complete(matches) {
            return Ok(());
        }
        let winners: Vec<u16> = matches.iter().map(winner).collect();
        if winners.len() == 1 {
            self.phase = Phase::Finished;
        } else {
            self.bracket.push(winners.chunks(2).map(|two| Match { a: two[0], b: two[1], score: None }).collect());
        }
        Ok(())
    }

    fn name(&self, player: u16) -> &str {
        &self.players[usize::from(player) - 1].name
    }

    fn mark(&self, number: usize) -> char {
        if self.players[number - 1].dropped { 'D' } else { ' ' }
    }

    fn players_text(&self, _rows: &Rows, out: &mut Vec<u8>) {
        out.extend(b"  No D Name\n");
        for (player, number) in self.players.iter().zip(1..) {
            let _ = writeln!(out, "{number:>4} {} {}", self.mark(number), player.name);
        }
    }

    fn standings_text(&self, rows: &Rows, out: &mut Vec<u8>) {
        out.extend(b"Rank   No Pts    OMW    GWP    OGW D Name\n");
        for row in rows.standings(self) {
            let _ = write!(out, "{:>4} {:>4} {:>3}", row.rank, row.number, row.points);
            for share in row.shares {
                let n = hundredths(share);
                let _ = write!(out, " {:>3}.{:02}", n / 100, n % 100);
            }
            let _ = writeln!(out, " {} {}", self.mark(row.number), self.players[row.number - 1].name);
        }
    }

    fn push_match(&self, out: &mut Vec<u8>, m: &Match) {
        let score = m.score.map_or("-".to_owned(), |s| format!("{}-{}-{}", s.x, s.y, s.d));
        let other = if m.b == 0 { "bye" } else { self.name(m.b) };
        let _ = writeln!(out, " {:>4} {:>4} {score:<5} {} - {other}", m.a, m.b, self.name(m.a));
    }

    fn slips_text(&self, out: &mut Vec<u8>, round: usize) -> Result<(), Refusal> {
        let matches = round.checked_sub(1).and_then(|r| self.stored.get(r)).ok_or(NO_SUCH_MATCH)?;
        out.extend(b" Tab    A    B Score Names\n");
        for (m, table) in matches.iter().zip(1..) {
            let _ = write!(out, "{:>4}", if m.b == 0 { 0 } else { table });
            self.push_match(out, m);
        }
        Ok(())
    }

    fn bracket_text(&self, _rows: &Rows, out: &mut Vec<u8>) {
        out.extend(b" Stg Slot    A    B Score Names\n");
        for (matches, stage) in self.bracket.iter().zip(1..) {
            for (m, slot) in matches.iter().zip(1..) {
                let _ = write!(out, "{stage:>4} {slot:>4}");
                self.push_match(out, m);
            }
        }
        if self.phase == Phase::Finished {
            let champion = winner(&self.bracket[self.bracket.len() - 1][0]);
            let _ = writeln!(out, "Champion {champion} {}", self.name(champion));
        }
    }
}

fn winner(m: &Match) -> u16 {
    if m.score.is_some_and(|s| s.x > s.y) { m.a } else { m.b }
}

fn number(word: &str, limit: usize) -> Option<usize> {
    let is_number = !word.is_empty() && word.bytes().all(|b| b.is_ascii_digit());
    let digits = word.trim_start_matches('0');
    if !is_number || digits.len() > 9 {
        return None;
    }
    if digits.is_empty() { Some(0) } else { digits.parse().ok().filter(|n| *n < limit) }
}

fn seed_of(word: &str) -> Option<[u8; 32]> {
    if word.len() != 64 || !word.bytes().all(|b| b.is_ascii_hexdigit()) {
        return None;
    }
    let mut seed = [0; 32];
    for (byte, at) in seed.iter_mut().zip((0..64).step_by(2)) {
        *byte = u8::from_str_radix(&word[at..at + 2], 16).ok()?;
    }
    Some(seed)
}

fn games_of(words: &[&str]) -> Option<Games> {
    let [x, y, d] = words else { return None };
    Some(Games { x: number(x, 256)? as u8, y: number(y, 256)? as u8, d: number(d, 256)? as u8 })
}

/// What a line is answered: nothing where its words mean nothing.
fn answer(event: &mut Option<Event>, rows: &Rows, line: &[u8], out: &mut Vec<u8>) -> Option<Result<(), Refusal>> {
    let line = std::str::from_utf8(line).ok()?;
    let words: Vec<&str> = line.split('\t').collect();
    if words.iter().any(|word| word.starts_with('-')) {
        return None;
    }
    if let ["init", name, rounds, cut] = words[..] {
        let (rounds, cut) = (number(rounds, 256)?, number(cut, 256)?);
        if !is_lawful_name(name) || !(1..=MAX_ROUNDS).contains(&rounds) || ![0, 2, 4, 8].contains(&cut) {
            return Some(Err(BAD_SETUP));
        }
        if event.is_some() {
            return Some(Err(EVENT_EXISTS));
        }
        let new = Event { rounds, cut, phase: Phase::Enrolling, players: vec![], stored: vec![], bracket: vec![], serial: 0 };
        rows.keep(&new, &words);
        *event = Some(new);
        out.extend(b"ok 0\n");
        return Some(Ok(()));
    }
    let shows: Option<fn(&Event, &Rows, &mut Vec<u8>)> = match words[..] {
        ["players"] => Some(Event::players_text),
        ["standings"] => Some(Event::standings_text),
        ["bracket"] => Some(Event::bracket_text),
        _ => None,
    };
    if let Some(shows) = shows {
        return Some(event.as_ref().map(|event| shows(event, rows, out)).ok_or(NO_EVENT));
    }
    if let ["slips", round] = words[..] {
        let round = number(round, 256)?;
        return Some(event.as_ref().ok_or(NO_EVENT).and_then(|event| event.slips_text(out, round)));
    }
    type Change<'a> = Box<dyn Fn(&mut Event) -> Result<(), Refusal> + 'a>;
    let change: Change = match words[..] {
        ["enrol", name] => Box::new(move |e| e.enrol(name)),
        ["start"] => Box::new(Event::start),
        ["pair", round, seed] => {
            let (round, seed) = (number(round, 256)?, seed_of(seed)?);
            Box::new(move |e| e.pair(round, &seed))
        }
        [kind @ ("result" | "correct"), round, table, ref games @ ..] => {
            let (round, table, score) = (number(round, 256)?, number(table, 65_536)?, games_of(games)?);
            Box::new(move |e| e.report(round, table, score, kind == "correct"))
        }
        ["drop", player] => {
            let player = number(player, 65_536)?;
            Box::new(move |e| e.drop_player(player))
        }
        ["cut"] => Box::new(Event::cut),
        ["playoff", stage, slot, ref games @ ..] => {
            let (stage, slot, score) = (number(stage, 256)?, number(slot, 256)?, games_of(games)?);
            Box::new(move |e| e.playoff(stage, slot, score))
        }
        _ => return None,
    };
    let Some(event) = event else { return Some(Err(NO_EVENT)) };
    if event.serial == 999_999 {
        return Some(Err(SERIAL_FULL));
    }
    Some(change(event).map(|()| {
        event.serial += 1;
        rows.keep(event, &words);
        let _ = writeln!(out, "ok {}", event.serial);
    }))
}

fn main() -> ExitCode {
    let mut script = Vec::new();
    if std::io::stdin().lock().read_to_end(&mut script).is_err() {
        return ExitCode::from(3);
    }
    let mut stdout = std::io::stdout().lock();
    if script.len() > 65_536 {
        return ExitCode::from(if stdout.write_all(b"usage\n").is_ok() { 2 } else { 3 });
    }
    let (mut event, rows, mut out) = (None, Rows::new(), Vec::new());
    for line in script.split(|b| *b == b'\n').filter(|line| !line.is_empty()) {
        out.clear();
        match answer(&mut event, &rows, line, &mut out) {
            Some(Ok(())) => {}
            Some(Err((number, name))) => {
                let _ = writeln!(out, "refused {number} {name}");
            }
            None => out.extend(b"usage\n"),
        }
        if stdout.write_all(&out).is_err() {
            return ExitCode::from(3);
        }
    }
    ExitCode::from(0)
}
