//! A line on the error stream each second, so that long work is seen to go on.

use std::time::{Duration, Instant};

pub struct Progress {
    what: &'static str,
    /// How many there are, if that is known.
    all: Option<u64>,
    done: u64,
    said: Instant,
}

impl Progress {
    pub fn new(what: &'static str, all: u64) -> Progress {
        Progress { what, all: Some(all), done: 0, said: Instant::now() }
    }

    /// Of work whose end is not known.
    pub fn open(what: &'static str) -> Progress {
        Progress { what, all: None, done: 0, said: Instant::now() }
    }

    pub fn step(&mut self) {
        self.done += 1;
        if self.said.elapsed() > Duration::from_secs(1) {
            self.said = Instant::now();
            eprintln!("  {}", self.so_far());
        }
    }

    fn so_far(&self) -> String {
        let of_all = self.all.map(|all| format!(" of {all}")).unwrap_or_default();
        format!("{}: {}{of_all}", self.what, self.done)
    }
}

#[cfg(test)]
mod tests {
    use super::*;

    #[test]
    fn it_counts() {
        let (mut closed, mut open) = (Progress::new("orders", 9), Progress::open("pictures"));
        [&mut closed, &mut open].into_iter().for_each(Progress::step);
        assert_eq!([closed.so_far(), open.so_far()], ["orders: 1 of 9", "pictures: 1"]);
    }
}
