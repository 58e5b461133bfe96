//! Sessions that expire, in a form that one keeps in step by hand. A quarter of the events are logins, which displace the session of the user, 55 %
//! touch a session by its token, 15 % look one up by its user, and 5 % log out by the token. Each event first expires the sessions that were not seen
//! for some time. `bench/loops/sessions.rattle` is the same.
use crate::hasher::FoldHasher;
use crate::programs::{Program, Run, event, here};
use crate::workload::{Row, Workload, digits, mix};
use std::collections::hash_map::RandomState;
use std::collections::{BTreeSet, HashMap};
use std::hash::{BuildHasher, BuildHasherDefault};

/// How many digits a token has.
const DIGITS: usize = 32;

struct Session {
    token: String,
    seen: u64,
}

/// The sessions by their users, the users by their tokens, and when each was last seen.
#[derive(Default)]
struct Sessions<S> {
    by_user: HashMap<u64, Session, S>,
    by_token: HashMap<String, u64, S>,
    order: BTreeSet<(u64, u64)>,
}

impl<S: BuildHasher> Sessions<S> {
    /// Opens a session, and returns how many it displaces.
    fn open(&mut self, user: u64, token: String, seen: u64) -> u64 {
        self.by_token.insert(token.clone(), user);
        self.order.insert((seen, user));
        let Some(old) = self.by_user.insert(user, Session { token, seen }) else {
            return 0;
        };
        self.by_token.remove(&old.token);
        self.order.remove(&(old.seen, user));
        1
    }

    /// Returns how many sessions have this token.
    fn touch(&mut self, token: &str, seen: u64) -> u64 {
        let Some(user) = self.by_token.get(token) else {
            return 0;
        };
        if let Some(session) = self.by_user.get_mut(user) {
            self.order.remove(&(session.seen, *user));
            self.order.insert((seen, *user));
            session.seen = seen;
        }
        1
    }

    /// Closes the session with this token, and returns its user.
    fn close(&mut self, token: &str) -> u64 {
        let Some(user) = self.by_token.remove(token) else {
            return 0;
        };
        if let Some(gone) = self.by_user.remove(&user) {
            self.order.remove(&(gone.seen, user));
        }
        user
    }

    /// Closes the sessions that were last seen by this time, and sums their users.
    fn expire(&mut self, by: u64) -> u64 {
        let mut sum = 0u64;
        while let Some(&(seen, user)) = self.order.first()
            && seen <= by
        {
            self.order.pop_first();
            if let Some(gone) = self.by_user.remove(&user) {
                self.by_token.remove(&gone.token);
            }
            sum = sum.wrapping_add(user);
        }
        sum
    }
}

fn run<S: BuildHasher + Default>(load: &Workload<3>, whole: bool) -> u64 {
    let mut sessions = Sessions::<S>::default();
    let mut sum = 0u64;
    for row in &load.rows {
        let ([kind, user, number], seen) = (row.keys, row.value);
        let token = digits(number, DIGITS);
        let met = if whole {
            let expired = sessions.expire(seen - load.number as u64);
            let met = match kind {
                0 => sessions.open(user, token, seen),
                1 => sessions.touch(&token, seen),
                2 => sessions.by_user.get(&user).map_or(0, |found| found.seen),
                _ => sessions.close(&token),
            };
            met.wrapping_add(expired)
        } else {
            token.len() as u64
        };
        sum = sum.wrapping_add(met);
    }
    sum
}

/// Draws events of so many users. A session lives for half as many events. Three of four events are of an eighth of the users.
fn events(number: usize, users: usize) -> Workload<3> {
    let life = users / 2;
    let mut tokens = vec![0; users];
    let mut draws = (0..).map(mix);
    let mut draw = move |below: usize| draws.next().unwrap_or_default() as usize % below;
    let mut drawn = |at: usize| {
        let often = draw(4) < 3;
        let user = draw(if often { users / 8 } else { users });
        let kind = match draw(100) {
            0..25 => 0,
            25..80 => 1,
            80..95 => 2,
            _ => 3,
        };
        if kind == 0 {
            tokens[user] = mix(at as u64 + (1 << 40));
        }
        event(kind, [user as u64, tokens[user]], (life + at) as u64)
    };
    let rows: Vec<Row<3>> = (0..number).map(&mut drawn).collect();
    Workload::new(rows, Vec::new(), life, number)
}

pub fn program() -> Program {
    let by_hand = [
        (
            "two `HashMap`s, `BTreeSet`",
            Run::ByHand(run::<BuildHasherDefault<FoldHasher>>),
        ),
        (
            "the same with std's own hasher",
            Run::ByHand(run::<RandomState>),
        ),
    ];
    let here = here! { "`BiHashOrdMap`" "sessions" two, };
    Program {
        name: "sessions that expire",
        events,
        sizes: [(200_000, "users"), (5_000, "users")],
        forms: here.chain(by_hand).collect(),
    }
}
