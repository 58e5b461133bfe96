//! Sessions, found by number and by token, in the order in which they expire. A request keeps its session alive, which moves it in the order; the next
//! one to expire is the first.
use facetweave::{BiHashItem, BiHashItemMut, BiHashOrdMap, Sortable};
use std::time::{Duration, Instant};

type Token = [u8; 8];

#[derive(Debug)]
struct Session {
    number: u64,
    token: Token,
    user: &'static str,
    expires: Instant,
}

impl BiHashItem for Session {
    type K1 = u64;
    type K2 = Token;

    fn key1(&self) -> &u64 {
        &self.number
    }

    fn key2(&self) -> &Token {
        &self.token
    }
}

impl BiHashItemMut for Session {
    type Data = Instant;

    fn data_mut(&mut self) -> &mut Instant {
        &mut self.expires
    }
}

// Several sessions may expire at the same time.
impl Sortable for Session {
    type SortKey = Instant;

    fn sort_key(&self) -> Instant {
        self.expires
    }
}

struct Sessions {
    open: BiHashOrdMap<Session>,
    last: u64,
    life: Duration,
}

impl Sessions {
    fn open(&mut self, user: &'static str, now: Instant) -> Token {
        self.last += 1;
        // A server draws it at random.
        let token = (self.last * 0x9E37_79B9).to_be_bytes();
        let session = Session { number: self.last, token, user, expires: now + self.life };
        self.open.try_insert(session).expect("the number and the token are new");
        token
    }

    /// Prolongs a session. Returns its user, or `None` if it has expired.
    fn request(&mut self, token: &Token, now: Instant) -> Option<&'static str> {
        self.expire(now);
        self.open.update2(token, |_| now + self.life);
        self.open.get2(token).map(|session| session.user)
    }

    /// Takes out the sessions that expire now or did before.
    fn expire(&mut self, now: Instant) {
        while let Some(session) = self.open.pop_to(&now) {
            println!("session {} of {} has expired", session.number, session.user);
        }
    }
}

fn main() {
    let start = Instant::now();
    let at = |seconds| start + Duration::from_secs(seconds);
    let mut sessions = Sessions { open: BiHashOrdMap::new(), last: 0, life: Duration::from_secs(60) };
    let ann = sessions.open("ann", at(0));
    let bob = sessions.open("bob", at(10));
    sessions.open("cid", at(10));

    println!("at 30: {:?}", sessions.request(&ann, at(30)));
    println!("at 70: {:?}", sessions.request(&bob, at(70)));
    println!("at 80: {:?}", sessions.request(&ann, at(80)));

    sessions.open("bob", at(85));
    let (first, last) = (sessions.open.first().unwrap(), sessions.open.last().unwrap());
    println!("{} expires at {}, {} at {}", first.user, (first.expires - start).as_secs(), last.user, (last.expires - start).as_secs());
    println!("until 140: {}", sessions.open.range(..=at(140)).count());
    sessions.open.remove1(1);
    println!("left: {:?}", sessions.open.iter().map(|session| session.user).collect::<Vec<_>>());
}
