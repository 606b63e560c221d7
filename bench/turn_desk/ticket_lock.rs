//! A plain ticket lock round one count, to compare the turn desk with: `ticket_lock THREADS TURNS times`.
use std::cell::UnsafeCell;
use std::env;
use std::hint;
use std::sync::atomic::{AtomicU64, Ordering};
use std::thread;
use std::time::Instant;

struct TicketLock {
    tickets: AtomicU64,
    serving: AtomicU64,
    count: UnsafeCell<u64>,
}

// One thread at a time has the count: the one whose ticket is served.
unsafe impl Sync for TicketLock {}

impl TicketLock {
    fn turn(&self) {
        let ticket = self.tickets.fetch_add(1, Ordering::SeqCst);
        let mut spins = 0;
        while self.serving.load(Ordering::SeqCst) != ticket {
            if spins < 63 {
                spins += 1;
                hint::spin_loop();
            } else {
                thread::yield_now();
            }
        }
        unsafe { *self.count.get() = (*self.count.get()).wrapping_add(1) };
        self.serving.fetch_add(1, Ordering::SeqCst);
    }
}

fn main() {
    let number = |at: usize, or: u64| env::args().nth(at).and_then(|w| w.parse().ok()).unwrap_or(or);
    let threads = number(1, 4);
    let turns = number(2, 250);
    let lock = TicketLock {
        tickets: AtomicU64::new(0),
        serving: AtomicU64::new(0),
        count: UnsafeCell::new(0),
    };
    let start = Instant::now();
    thread::scope(|scope| {
        for _ in 0..threads {
            scope.spawn(|| (0..turns).for_each(|_| lock.turn()));
        }
    });
    let each = start.elapsed().as_nanos() / u128::from(threads * turns).max(1);
    println!("{} counted by {threads} threads", unsafe { *lock.count.get() });
    println!("{each} ns a turn");
}
