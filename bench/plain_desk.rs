//! A plain desk in Rust, unproved, to time the proved one against: std's maps, counts of the nights by kind, each
//! answer written by itself. It takes the scripts of `scripts.py`, of which no line is refused, and ends at any other
//! line.
use std::collections::{BTreeMap, BTreeSet};
use std::io::{Read, Write};

/// ChaCha20's words for a key of zeros.
struct Source {
    counter: u32,
    block: [u32; 16],
    at: usize,
}

impl Source {
    fn refill(&mut self) {
        let mut start = [0u32; 16];
        start[..4].copy_from_slice(&[0x61707865, 0x3320646e, 0x79622d32, 0x6b206574]);
        start[12] = self.counter;
        let mut s = start;
        for round in 0..20 {
            let turn = round % 2;
            for i in 0..4 {
                let (a, b) = (i, 4 + (i + turn) % 4);
                let (c, d) = (8 + (i + 2 * turn) % 4, 12 + (i + 3 * turn) % 4);
                for (x, y, z, n) in [(a, b, d, 16), (c, d, b, 12), (a, b, d, 8), (c, d, b, 7)] {
                    s[x] = s[x].wrapping_add(s[y]);
                    s[z] = (s[z] ^ s[x]).rotate_left(n);
                }
            }
        }
        for i in 0..16 {
            self.block[i] = s[i].wrapping_add(start[i]);
        }
        self.counter += 1;
        self.at = 0;
    }

    fn code(&mut self) -> u64 {
        if self.at == 16 {
            self.refill();
        }
        self.at += 2;
        let (low, high) = (self.block[self.at - 2], self.block[self.at - 1]);
        (u64::from(low) | u64::from(high) << 32) >> 16
    }
}

#[derive(Clone, Copy, PartialEq)]
enum State {
    Booked,
    InHouse(u32),
    Over,
}

struct Stay {
    guest: String,
    kind: String,
    arrive: u32,
    depart: u32,
    state: State,
}

struct Room {
    kind: String,
    codes: Vec<u64>,
    place: usize,
    secured: bool,
    party: Option<usize>,
    notes: Vec<(bool, usize, (u64, u64), u32, u32)>,
    fit: u32,
}

#[derive(Default)]
struct Desk {
    today: u32,
    kinds: BTreeMap<String, usize>,
    rooms: BTreeMap<u32, Room>,
    codes: BTreeMap<u64, (u32, usize)>,
    stays: Vec<Stay>,
    cards: Vec<(usize, (u64, u64))>,
    inside: BTreeSet<(u32, usize)>,
    taken: BTreeMap<(String, u32), usize>,
}

const MONTHS: [u32; 12] = [31, 28, 31, 30, 31, 30, 31, 31, 30, 31, 30, 31];

fn month(year: u32, m: usize) -> u32 {
    MONTHS[m] + (m == 1 && year % 4 == 0) as u32
}

/// The days from 2000-01-01 to a date of the years 2000 to 2099.
fn day(text: &str) -> u32 {
    let part = |from: usize, to: usize| text[from..to].parse::<u32>().unwrap();
    let (year, m, d) = (part(0, 4), part(5, 7) as usize, part(8, 10));
    let before: u32 = (0..m - 1).map(|m| month(year, m)).sum();
    (year - 2000) * 365 + (year - 2000).div_ceil(4) + before + d - 1
}

fn date(mut day: u32) -> String {
    let mut year = 2000 + day / 1461 * 4;
    day %= 1461;
    while day >= 365 + (year % 4 == 0) as u32 {
        day -= 365 + (year % 4 == 0) as u32;
        year += 1;
    }
    let mut m = 0;
    while day >= month(year, m) {
        day -= month(year, m);
        m += 1;
    }
    format!("{year:04}-{:02}-{:02}", m + 1, day + 1)
}

fn number(text: &str) -> usize {
    text.parse().unwrap()
}

fn code(text: &str) -> u64 {
    u64::from_str_radix(text, 16).unwrap()
}

impl Desk {
    fn fresh(&self, source: &mut Source) -> u64 {
        loop {
            let code = source.code();
            if !self.codes.contains_key(&code) {
                return code;
            }
        }
    }

    fn reserve(&mut self, kind: &str, arrive: u32, nights: u32, guest: String) -> String {
        let rooms = self.kinds[kind];
        let (first, last) = ((kind.to_string(), arrive), (kind.to_string(), arrive + nights));
        assert!(arrive >= self.today && rooms > 0);
        assert!(self.taken.range(&first..&last).all(|(_, taken)| *taken < rooms));
        let known = self.taken.range_mut(first..last).map(|(_, taken)| *taken += 1).count();
        if known < nights as usize {
            for night in arrive..arrive + nights {
                self.taken.entry((kind.to_string(), night)).or_insert(1);
            }
        }
        let (kind, depart, state) = (kind.to_string(), arrive + nights, State::Booked);
        self.stays.push(Stay { guest, kind, arrive, depart, state });
        format!("party {}\n", self.stays.len())
    }

    /// A stay no longer holds its nights.
    fn end(&mut self, party: usize) {
        let stay = &mut self.stays[party - 1];
        stay.state = State::Over;
        let (first, last) = ((stay.kind.clone(), stay.arrive), (stay.kind.clone(), stay.depart));
        for (_, taken) in self.taken.range_mut(first..last) {
            *taken -= 1;
        }
    }

    fn home(&self, party: usize) -> u32 {
        let State::InHouse(room) = self.stays[party - 1].state else { panic!("not in house") };
        room
    }

    fn card(&mut self, party: usize, link: (u64, u64)) -> String {
        self.cards.push((party, link));
        format!("card {} party {party} old {:012x} new {:012x}\n", self.cards.len(), link.0, link.1)
    }

    fn issue(&mut self, party: usize, number: u32, code: u64) -> String {
        let (stay, room) = (&mut self.stays[party - 1], self.rooms.get_mut(&number).unwrap());
        assert!(stay.kind == room.kind && room.party.is_none());
        let old = *room.codes.last().unwrap();
        self.codes.insert(code, (number, room.codes.len()));
        room.codes.push(code);
        (room.party, room.secured, stay.state) = (Some(party), false, State::InHouse(number));
        self.card(party, (old, code))
    }

    fn note(&mut self, enters: bool, words: &[&str]) -> String {
        let (number, card) = (words[1].parse().unwrap(), number(words[3]));
        let (link, at) = ((code(words[4]), code(words[5])), words[6]);
        let room = self.rooms.get_mut(&number).unwrap();
        assert!(room.notes.len() + 1 == words[2].parse().unwrap() && self.cards[card - 1].1 == link);
        if enters {
            let held = room.codes[room.place];
            assert!(held == link.0 || held == link.1);
            room.place = self.codes[&link.1].1;
            let is_empty = self.inside.range((number, 0)..(number + 1, 0)).next().is_none();
            room.secured |= is_empty && room.place + 1 == room.codes.len();
            self.inside.insert((number, card));
        } else {
            assert!(self.inside.remove(&(number, card)));
        }
        let part = |from: usize| at[from..from + 2].parse::<u32>().unwrap();
        let second = part(11) * 3600 + part(14) * 60 + part(17);
        room.notes.push((enters, card, link, day(at), second));
        "taken\n".into()
    }

    fn line(&mut self, source: &mut Source, line: &str) -> String {
        let words: Vec<&str> = line.split(' ').collect();
        match words[0] {
            "begin" => {
                self.today = day(words[1]);
                "begun\n".into()
            }
            "add-kind" => {
                self.kinds.insert(words[1].into(), 0);
                "kind added\n".into()
            }
            "add-room" => {
                let (room, code) = (words[1].parse().unwrap(), self.fresh(source));
                *self.kinds.get_mut(words[2]).unwrap() += 1;
                self.codes.insert(code, (room, 0));
                let (kind, codes) = (words[2].into(), vec![code]);
                let row = Room { kind, codes, place: 0, secured: false, party: None, notes: vec![], fit: 1 };
                assert!(self.rooms.insert(room, row).is_none());
                format!("room code {code:012x}\n")
            }
            "reserve" => self.reserve(words[1], day(words[2]), words[3].parse().unwrap(), words[4..].join(" ")),
            "cancel" => {
                self.end(number(words[1]));
                "cancelled\n".into()
            }
            "check-in" => {
                let stay = &self.stays[number(words[1]) - 1];
                assert!(stay.state == State::Booked && (stay.arrive..stay.depart).contains(&self.today));
                let code = self.fresh(source);
                self.issue(number(words[1]), words[2].parse().unwrap(), code)
            }
            "spare" => {
                let codes = &self.rooms[&self.home(number(words[1]))].codes;
                let link = (codes[codes.len() - 2], codes[codes.len() - 1]);
                self.card(number(words[1]), link)
            }
            "reissue" => {
                let (home, code) = (self.home(number(words[1])), self.fresh(source));
                self.rooms.get_mut(&home).unwrap().party = None;
                self.issue(number(words[1]), home, code)
            }
            "transfer" => {
                let (home, code) = (self.home(number(words[1])), self.fresh(source));
                self.rooms.get_mut(&home).unwrap().party = None;
                self.issue(number(words[1]), words[2].parse().unwrap(), code)
            }
            "check-out" => {
                let home = self.home(number(words[1]));
                self.end(number(words[1]));
                self.rooms.get_mut(&home).unwrap().party = None;
                "checked out\n".into()
            }
            "refit" => {
                let (number, code) = (words[1].parse().unwrap(), self.fresh(source));
                let room = self.rooms.get_mut(&number).unwrap();
                // No script refits a room that has notes, so no card is inside, and all notes are of fit 1.
                assert!(room.party.is_none() && room.notes.is_empty() && room.fit < 99);
                self.codes.insert(code, (number, room.codes.len()));
                room.codes.push(code);
                (room.place, room.secured, room.fit) = (room.codes.len() - 1, false, room.fit + 1);
                format!("lock {} code {code:012x}\n", room.fit)
            }
            "entered" => self.note(true, &words),
            "left" => self.note(false, &words),
            _ => self.list(&words),
        }
    }

    fn list(&self, words: &[&str]) -> String {
        let mut text = String::new();
        match words[0] {
            "chain" => {
                text += "place,code,state\n";
                let room = &self.rooms[&words[1].parse().unwrap()];
                for (place, code) in room.codes.iter().enumerate() {
                    let at = (place >= room.place) as usize + (place > room.place) as usize;
                    let state = ["passed", "held", "awaited"][at];
                    text += &format!("{place},{code:012x},{state}\n");
                }
            }
            "in-house" => {
                text += "room,party,guest,kind,depart,secured\n";
                for (number, room) in &self.rooms {
                    let Some(party) = room.party else { continue };
                    let (stay, secured) = (&self.stays[party - 1], if room.secured { "yes" } else { "no" });
                    text += &format!("{number},{party},{},{},{},{secured}\n", stay.guest, stay.kind, date(stay.depart));
                }
            }
            "arrivals" => {
                text += "party,guest,kind,arrive,depart\n";
                let wanted = day(words[1]);
                for (i, s) in self.stays.iter().enumerate() {
                    if s.state == State::Booked && (s.arrive..s.depart).contains(&wanted) {
                        text += &format!("{},{},{},{},{}\n", i + 1, s.guest, s.kind, date(s.arrive), date(s.depart));
                    }
                }
            }
            "audit-of" => {
                text += "room,fit,count,kind,card,old,new,at\n";
                let room = &self.rooms[&words[1].parse().unwrap()];
                for (i, (enters, card, link, day, s)) in room.notes.iter().enumerate() {
                    let (kind, at) = (if *enters { "in" } else { "out" }, date(*day));
                    let clock = format!("{:02}:{:02}:{:02}", s / 3600, s / 60 % 60, s % 60);
                    let codes = format!("{:012x},{:012x}", link.0, link.1);
                    text += &format!("{},1,{},{kind},{card},{codes},{at}T{clock}\n", words[1], i + 1);
                }
            }
            _ => panic!("{words:?}"),
        }
        text
    }
}

fn main() {
    let mut script = String::new();
    std::io::stdin().read_to_string(&mut script).unwrap();
    let (mut desk, mut source) = (Desk::default(), Source { counter: 0, block: [0; 16], at: 16 });
    let mut out = std::io::stdout().lock();
    for line in script.lines() {
        out.write_all(desk.line(&mut source, line).as_bytes()).unwrap();
    }
}
