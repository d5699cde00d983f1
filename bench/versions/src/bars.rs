//! How many times slower each call may be.

/// The bar of every call, but for some that have one of their own, and some that have none.
pub struct Bars {
    usual: f64,
    own: Vec<(String, f64)>,
    free: Vec<&'static str>,
}

impl Bars {
    pub fn new() -> Bars {
        Bars {
            usual: 1.1,
            own: Vec::new(),
            free: Vec::new(),
        }
    }

    /// Leaves a call without a bar, unless it has one of its own.
    pub fn free(&mut self, call: &'static str) {
        self.free.push(call);
    }

    /// Sets bars by a text such as `1.15,step=2,keying=2`, where a call is named as in the tables.
    pub fn set(&mut self, text: &str) {
        for word in text.split(',') {
            let (call, times) = word.rsplit_once('=').unwrap_or(("", word));
            let times = times.parse().expect("a number of times");
            match call {
                "" => self.usual = times,
                _ => self.own.push((call.to_string(), times)),
            }
        }
    }

    /// The bar of a call, which no time is over where it has none.
    pub fn of(&self, call: &str) -> f64 {
        let own = self.own.iter().rev().find(|(name, _)| name == call);
        let usual = match self.free.contains(&call) {
            true => f64::INFINITY,
            false => self.usual,
        };
        own.map_or(usual, |own| own.1)
    }

    /// The calls that have a bar of their own.
    pub fn named(&self) -> impl Iterator<Item = &str> {
        self.own.iter().map(|(name, _)| name.as_str())
    }
}
