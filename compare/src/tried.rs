//! How often each kind of something came up, so that none stays untried.

/// A kind: what it is called, and what is of it.
pub type Kind<T> = (&'static str, fn(&T) -> bool);

/// How many there were, and how many of each kind.
pub struct Tried<T: 'static> {
    kinds: &'static [Kind<T>],
    all: u64,
    of_kind: Vec<u64>,
}

impl<T> Tried<T> {
    pub fn new(kinds: &'static [Kind<T>]) -> Tried<T> {
        Tried {
            kinds,
            all: 0,
            of_kind: vec![0; kinds.len()],
        }
    }

    pub fn note(&mut self, one: &T) {
        self.all += 1;
        for (count, (_, shows)) in self.of_kind.iter_mut().zip(self.kinds) {
            *count += u64::from(shows(one));
        }
    }

    /// The first kind that never came up.
    pub fn missing(&self) -> Option<&'static str> {
        let never = self.of_kind.iter().position(|count| *count == 0)?;
        Some(self.kinds[never].0)
    }

    pub fn print(&self, what: &str) {
        println!("{} {what}, of which so many were", self.all);
        for (count, (name, _)) in self.of_kind.iter().zip(self.kinds) {
            println!("{count:>8} {name}");
        }
    }
}
