//! Does the wall chart of document 01 derive a row of tokens? Answered from the chart's rules alone, by Earley's method, which
//! tries all of them at once: no parser stands behind it.

mod rules;
mod tokens;

pub use tokens::{OTHERS, SPELLINGS, kind_of};

use rules::{Part, Rules};
use tokens::Kinds;

/// Stands behind the last token.
const END: u8 = 81;

/// An alternative, read up to a part of it, that began at a place of the row.
#[derive(Debug, Clone, Copy, PartialEq, Eq)]
struct Item {
    state: u32,
    from: u32,
}

/// What a state waits for.
#[derive(Debug, Clone, Copy)]
enum Wait {
    Token(Kinds),
    Rule(usize),
    Not(Kinds),
    /// The alternative of this rule is read to its end.
    Over(usize),
}

pub struct Chart {
    states: Vec<Wait>,
    /// For each rule the states at which its alternatives begin.
    begins: Vec<Vec<u32>>,
    file: usize,
}

impl Default for Chart {
    fn default() -> Self {
        Chart::new()
    }
}

impl Chart {
    pub fn new() -> Self {
        Chart::of(Rules::chart())
    }

    /// A chart with a planted fault.
    pub fn with_fault() -> Self {
        Chart::of(Rules::with_fault())
    }

    fn of(rules: Rules) -> Self {
        assert!(rules.alternatives.len() <= 128, "a set of rules is a number of 128 bits");
        let mut chart = Chart { states: Vec::new(), begins: Vec::new(), file: rules.file };
        for (rule, alternatives) in rules.alternatives.iter().enumerate() {
            let begins = alternatives.iter().map(|parts| chart.add(rule, parts)).collect();
            chart.begins.push(begins);
        }
        chart
    }

    fn add(&mut self, rule: usize, parts: &[Part]) -> u32 {
        let begin = self.states.len() as u32;
        self.states.extend(parts.iter().map(|part| match *part {
            Part::Token(kinds) => Wait::Token(kinds),
            Part::Rule(rule) => Wait::Rule(rule),
            Part::Not(kinds) => Wait::Not(kinds),
        }));
        self.states.push(Wait::Over(rule));
        begin
    }

    pub fn derives(&self, row: &[u8]) -> bool {
        let mut reading = Reading::new(self);
        row.iter().all(|kind| reading.push(*kind)) && reading.is_whole()
    }
}

/// A row, read so far. Tokens can be taken back.
pub struct Reading<'a> {
    chart: &'a Chart,
    /// The items at each place of the row; those at the last one without what they lead to there.
    places: Vec<Vec<Item>>,
    /// Of the items of a place that is being closed: the round in which each was seen.
    seen: Vec<u32>,
    round: u32,
}

impl<'a> Reading<'a> {
    pub fn new(chart: &'a Chart) -> Self {
        let begin = |state: &u32| Item { state: *state, from: 0 };
        let first = chart.begins[chart.file].iter().map(begin).collect();
        Reading { chart, places: vec![first], seen: Vec::new(), round: 0 }
    }

    /// Goes past a token; answers whether what is read can still be the beginning of a row.
    pub fn push(&mut self, kind: u8) -> bool {
        let items = self.closed(kind);
        let passes = |item: &&Item| match self.chart.states[item.state as usize] {
            Wait::Token(kinds) => kinds >> kind & 1 == 1,
            _ => false,
        };
        let next: Vec<Item> = items.iter().filter(passes).map(|item| after(*item)).collect();
        let place = self.places.len() - 1;
        let goes_on = !next.is_empty();
        self.places[place] = items;
        self.places.push(next);
        goes_on
    }

    pub fn pop(&mut self) {
        self.places.pop();
    }

    /// Is what is read a whole file?
    pub fn is_whole(&mut self) -> bool {
        let file = self.chart.file;
        self.closed(END).iter().any(|item| {
            item.from == 0
                && matches!(self.chart.states[item.state as usize], Wait::Over(rule) if rule == file)
        })
    }

    /// The items at the last place with all that they lead to, where this token is next. Items that a longer row brought are
    /// led to again, so it may be asked more than once.
    fn closed(&mut self, next: u8) -> Vec<Item> {
        self.round += 1;
        let place = self.places.len() - 1;
        self.seen.resize(self.seen.len().max((place + 1) * self.chart.states.len()), 0);
        let kernel = if place == 0 { self.begins(self.chart.file, 0) } else { self.kernel(place) };
        let mut closing =
            Closing { reading: self, place: place as u32, items: Vec::new(), over: 0 };
        kernel.into_iter().for_each(|item| closing.add(item));
        let mut at = 0;
        while let Some(item) = closing.items.get(at).copied() {
            closing.lead(item, next);
            at += 1;
        }
        closing.items
    }

    fn begins(&self, rule: usize, place: u32) -> Vec<Item> {
        self.chart.begins[rule].iter().map(|state| Item { state: *state, from: place }).collect()
    }

    /// Those that a token led to: they are past one.
    fn kernel(&self, place: usize) -> Vec<Item> {
        let is_past_token = |item: &&Item| {
            let before = item.state.checked_sub(1).map(|state| self.chart.states[state as usize]);
            (item.from as usize) < place && matches!(before, Some(Wait::Token(_)))
        };
        self.places[place].iter().filter(is_past_token).copied().collect()
    }
}

/// The items of one place while they grow.
struct Closing<'r, 'a> {
    reading: &'r mut Reading<'a>,
    place: u32,
    items: Vec<Item>,
    /// The rules that derive nothing at this place.
    over: u128,
}

impl Closing<'_, '_> {
    fn add(&mut self, item: Item) {
        let slot = item.from as usize * self.reading.chart.states.len() + item.state as usize;
        if self.reading.seen[slot] != self.reading.round {
            self.reading.seen[slot] = self.reading.round;
            self.items.push(item);
        }
    }

    fn lead(&mut self, item: Item, next: u8) {
        match self.reading.chart.states[item.state as usize] {
            Wait::Token(_) => {}
            Wait::Not(kinds) => {
                if kinds >> next & 1 == 0 {
                    self.add(after(item));
                }
            }
            Wait::Rule(rule) => {
                self.reading.begins(rule, self.place).into_iter().for_each(|begin| self.add(begin));
                if self.over >> rule & 1 == 1 {
                    self.add(after(item));
                }
            }
            Wait::Over(rule) => self.end(rule, item.from),
        }
    }

    /// A rule that began at a place is over: those that waited for it there go on.
    fn end(&mut self, rule: usize, from: u32) {
        let here = from == self.place;
        if here {
            self.over |= 1 << rule;
        }
        let waiting = if here { &self.items } else { &self.reading.places[from as usize] };
        let states = &self.reading.chart.states;
        let waits = |item: &&Item| matches!(states[item.state as usize], Wait::Rule(wanted) if wanted == rule);
        let next: Vec<Item> = waiting.iter().filter(waits).map(|item| after(*item)).collect();
        next.into_iter().for_each(|item| self.add(item));
    }
}

fn after(item: Item) -> Item {
    Item { state: item.state + 1, ..item }
}

#[cfg(test)]
mod tests {
    use super::*;

    fn derives(row: &str) -> bool {
        let kinds: Vec<u8> = row.split_whitespace().map(kind_of).collect();
        Chart::new().derives(&kinds)
    }

    #[test]
    fn what_the_chart_says() {
        for row in [
            "",
            "init { }",
            "const a = 1 ;",
            "const a : a = - a . a ( a , ) ;",
            "init { { } ( a ) }",
            "init { comptime { } ( a ) }",
            "init { if a { } else if a { } else { } a }",
            "use a :: { a , a as a , } ;",
            "const a = struct { a : a fn a ( ) a { } } ;",
            "const a = a { a : a } ;",
            "init { { } { } }",
            "const a = \"s\" hex\"41\" ;",
        ] {
            assert!(derives(row), "{row}");
        }
    }

    #[test]
    fn what_the_chart_does_not_say() {
        for row in [
            "a",
            "const a = ;",
            "init { a a }",
            "init { { } - a a }",
            "init { while a { } ; }",
            "init { comptime { } . a }",
            "use a :: { a } ;",
            "const a = struct { fn a ( ) a { } a : a } ;",
            "const a = struct { a : a a : a } ;",
            "init { if a { a : a } { } ; }",
            "const @b = 1 ;",
            "const a = 1 ; #",
        ] {
            assert!(!derives(row), "{row}");
        }
    }

    #[test]
    fn a_token_taken_back_leaves_no_trace() {
        let chart = Chart::new();
        let mut reading = Reading::new(&chart);
        let row: Vec<u8> = "init { a }".split_whitespace().map(kind_of).collect();
        for kind in &row {
            for other in 0..75 {
                reading.push(other);
                reading.pop();
            }
            reading.push(*kind);
        }
        assert!(reading.is_whole());
    }
}
