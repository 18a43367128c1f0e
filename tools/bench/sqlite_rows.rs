//! The event's rows in C SQLite, in memory: each change is a transaction, and standings are read from the tables. Only with `--cfg sqlite`.
use std::ffi::{c_char, c_int, c_void, CString};
use std::ptr::null_mut;

use crate::{is_complete, ranked, Event, Match, Phase, Row, Tally};

#[link(name = "sqlite3")]
extern "C" {
    fn sqlite3_open(name: *const c_char, db: *mut *mut c_void) -> c_int;
    fn sqlite3_prepare_v2(db: *mut c_void, text: *const c_char, bytes: c_int, made: *mut *mut c_void, tail: *mut *const c_char) -> c_int;
    fn sqlite3_bind_int64(statement: *mut c_void, at: c_int, value: i64) -> c_int;
    fn sqlite3_bind_text(statement: *mut c_void, at: c_int, text: *const c_char, bytes: c_int, free: isize) -> c_int;
    fn sqlite3_step(statement: *mut c_void) -> c_int;
    fn sqlite3_column_int64(statement: *mut c_void, at: c_int) -> i64;
    fn sqlite3_reset(statement: *mut c_void) -> c_int;
}

const ROW: c_int = 100;
const DONE: c_int = 101;
/// SQLite copies a text that is bound so.
const TRANSIENT: isize = -1;

const TABLES: [&str; 5] = [
    "CREATE TABLE event(id INTEGER PRIMARY KEY CHECK(id = 1), version INTEGER NOT NULL, serial INTEGER NOT NULL, name TEXT NOT NULL, rounds INTEGER NOT NULL, cut INTEGER NOT NULL, phase INTEGER NOT NULL)",
    "CREATE TABLE player2(no INTEGER PRIMARY KEY, name TEXT NOT NULL UNIQUE, dropped INTEGER NOT NULL, joined INTEGER NOT NULL)",
    "CREATE TABLE pairing(round INTEGER NOT NULL, tab INTEGER NOT NULL, lo INTEGER NOT NULL, hi INTEGER NOT NULL, swapped INTEGER NOT NULL, done INTEGER NOT NULL, x INTEGER NOT NULL, y INTEGER NOT NULL, d INTEGER NOT NULL, PRIMARY KEY(round, tab), UNIQUE(lo, hi), CHECK(lo < hi))",
    "CREATE TABLE bracket(stage INTEGER NOT NULL, slot INTEGER NOT NULL, a INTEGER NOT NULL, b INTEGER NOT NULL, done INTEGER NOT NULL, x INTEGER NOT NULL, y INTEGER NOT NULL, d INTEGER NOT NULL, PRIMARY KEY(stage, slot))",
    "CREATE TABLE tally(no INTEGER PRIMARY KEY, points INTEGER NOT NULL, rounds INTEGER NOT NULL, gamepoints INTEGER NOT NULL, games INTEGER NOT NULL)",
];

/// A statement that was prepared once.
struct Statement(*mut c_void);

impl Statement {
    fn new(db: *mut c_void, text: &str) -> Statement {
        let (text, mut made) = (CString::new(text).unwrap(), null_mut());
        let status = unsafe { sqlite3_prepare_v2(db, text.as_ptr(), -1, &mut made, null_mut()) };
        assert_eq!(status, 0, "{text:?}");
        Statement(made)
    }

    fn bind(&self, values: &[i64]) {
        for (value, at) in values.iter().zip(1..) {
            unsafe { sqlite3_bind_int64(self.0, at, *value) };
        }
    }

    fn bind_text(&self, at: c_int, text: &str) {
        unsafe { sqlite3_bind_text(self.0, at, text.as_ptr().cast(), text.len() as c_int, TRANSIENT) };
    }

    fn run(&self, values: &[i64]) {
        self.bind(values);
        assert_eq!(unsafe { sqlite3_step(self.0) }, DONE);
        unsafe { sqlite3_reset(self.0) };
    }

    fn rows(&self, mut each: impl FnMut(&dyn Fn(c_int) -> i64)) {
        while unsafe { sqlite3_step(self.0) } == ROW {
            each(&|at| unsafe { sqlite3_column_int64(self.0, at) });
        }
        unsafe { sqlite3_reset(self.0) };
    }
}

pub struct Rows {
    begin: Statement,
    commit: Statement,
    event: Statement,
    serial: Statement,
    phase: Statement,
    player: Statement,
    drop: Statement,
    pairing: Statement,
    score: Statement,
    slot: Statement,
    slot_score: Statement,
    tally: Statement,
    set_tally: Statement,
    meetings: Statement,
    tallies: Statement,
}

fn scored(m: &Match) -> [i64; 4] {
    m.score.map_or([0; 4], |s| [1, s.x.into(), s.y.into(), s.d.into()])
}

impl Rows {
    pub fn new() -> Rows {
        let mut db = null_mut();
        assert_eq!(unsafe { sqlite3_open(c":memory:".as_ptr(), &mut db) }, 0);
        let made = |text: &str| Statement::new(db, text);
        for text in TABLES {
            made(text).run(&[]);
        }
        Rows {
            begin: made("BEGIN IMMEDIATE"),
            commit: made("COMMIT"),
            event: made("INSERT INTO event VALUES(1, 2, 0, ?3, ?1, ?2, 0)"),
            serial: made("UPDATE event SET serial = ?1 WHERE id = 1"),
            phase: made("UPDATE event SET phase = ?1 WHERE id = 1"),
            player: made("INSERT INTO player2 VALUES(?1, ?3, 0, ?2)"),
            drop: made("UPDATE player2 SET dropped = 1 WHERE no = ?1"),
            pairing: made("INSERT INTO pairing VALUES(?1, ?2, ?3, ?4, ?5, ?6, ?7, ?8, ?9)"),
            score: made("UPDATE pairing SET done = ?3, x = ?4, y = ?5, d = ?6 WHERE round = ?1 AND tab = ?2"),
            slot: made("INSERT INTO bracket VALUES(?1, ?2, ?3, ?4, 0, 0, 0, 0)"),
            slot_score: made("UPDATE bracket SET done = ?3, x = ?4, y = ?5, d = ?6 WHERE stage = ?1 AND slot = ?2"),
            tally: made("INSERT INTO tally VALUES(?1, 0, ?2, 0, 0)"),
            set_tally: made("UPDATE tally SET points = ?2, rounds = ?3, gamepoints = ?4, games = ?5 WHERE no = ?1"),
            meetings: made("SELECT round, lo, hi, done FROM pairing ORDER BY round, tab"),
            tallies: made("SELECT no, points, rounds, gamepoints, games FROM tally ORDER BY no"),
        }
    }

    /// Keeps what a line has changed.
    pub fn keep(&self, event: &Event, words: &[&str]) {
        self.begin.run(&[]);
        let at = |place: usize| words[place].parse::<usize>().unwrap();
        match words[0] {
            "init" => {
                self.event.bind_text(3, words[1]);
                self.event.run(&[event.rounds as i64, event.cut as i64]);
            }
            "enrol" => self.keep_player(event),
            "start" => self.phase.run(&[1]),
            "pair" => self.keep_round(event),
            "drop" => self.drop.run(&[at(1) as i64]),
            "result" | "correct" => self.keep_score(event, at(1), at(2)),
            "cut" => {
                self.phase.run(&[2]);
                self.keep_stage(event);
            }
            _ => self.keep_playoff(event, at(1), at(2)),
        }
        self.serial.run(&[event.serial.into()]);
        self.commit.run(&[]);
    }

    fn keep_player(&self, event: &Event) {
        let (no, joined) = (event.players.len() as i64, event.players.last().unwrap().joined);
        self.player.bind_text(3, &event.players.last().unwrap().name);
        self.player.run(&[no, joined as i64]);
        self.tally.run(&[no, event.stored.iter().take(joined).filter(|round| is_complete(round)).count() as i64]);
    }

    fn keep_round(&self, event: &Event) {
        let round = event.stored.len() as i64;
        for (m, table) in event.stored.last().unwrap().iter().zip(1..) {
            let (table, [done, x, y, d]) = (if m.b == 0 { 0 } else { table }, scored(m));
            self.pairing.run(&[round, table, m.a.min(m.b).into(), m.a.max(m.b).into(), (m.a > m.b).into(), done, x, y, d]);
        }
    }

    fn keep_score(&self, event: &Event, round: usize, table: usize) {
        let matches = &event.stored[round - 1];
        let [done, x, y, d] = scored(&matches[table - 1]);
        self.score.run(&[round as i64, table as i64, done, x, y, d]);
        if is_complete(matches) {
            for (t, no) in event.tallies().iter().zip(0..).skip(1) {
                self.set_tally.run(&[no, t.points.into(), t.rounds.into(), t.game_points.into(), t.games.into()]);
            }
        }
    }

    fn keep_stage(&self, event: &Event) {
        for (m, slot) in event.bracket.last().unwrap().iter().zip(1..) {
            self.slot.run(&[event.bracket.len() as i64, slot, m.a.into(), m.b.into()]);
        }
    }

    fn keep_playoff(&self, event: &Event, stage: usize, slot: usize) {
        let [done, x, y, d] = scored(&event.bracket[stage - 1][slot - 1]);
        self.slot_score.run(&[stage as i64, slot as i64, done, x, y, d]);
        if event.phase == Phase::Finished {
            self.phase.run(&[3]);
        } else if event.bracket.len() > stage && is_complete(&event.bracket[stage - 1]) {
            self.keep_stage(event);
        }
    }

    /// The standings by the rows of the tables.
    pub fn standings(&self, event: &Event) -> Vec<Row> {
        let (mut tallies, mut matches, mut open) = (vec![Tally::default()], Vec::new(), 0);
        self.tallies.rows(|at| {
            tallies.push(Tally { points: at(1) as u8, rounds: at(2) as u8, game_points: at(3) as u16, games: at(4) as u8 });
        });
        self.meetings.rows(|at| {
            matches.push((at(0), at(1) as u16, at(2) as u16));
            if at(3) == 0 {
                open = at(0);
            }
        });
        assert_eq!(tallies.len(), event.players.len() + 1);
        ranked(&tallies, matches.iter().filter(|m| m.0 != open && m.1 != 0).map(|m| (m.1, m.2)))
    }
}
