//! The rows of a form, and how one is cleared at a new row's pivot.

use crate::divide::{gcd128, gcd64, Content, Divisor, Quotient};
use crate::limit::ROWS;

/// How many free columns the quick test of width looks at.
pub const FRONT: usize = 8;

#[derive(Clone, Copy)]
pub struct Entry {
    pub place: u16,
    pub value: i128,
}

#[derive(Clone)]
pub struct Row {
    pub pivot: u16,
    pub head: i64,
    /// No number of the row is greater.
    pub most: i64,
    pub entries: Vec<Entry>,
}

/// A row that is 0 at the form's pivots: what a set would add.
pub struct NewRow<const MOST: usize = ROWS> {
    pub pivot: u16,
    pub head: i64,
    pub most: i64,
    /// In ascending order, the pivot first.
    pub places: Vec<u16>,
    /// By place.
    pub values: Box<[i64; MOST]>,
}

#[inline]
pub fn at<const MOST: usize>(place: u16) -> usize {
    usize::from(place) & (MOST - 1)
}

pub fn wide(size: i64) -> i128 {
    i128::from(size)
}

impl<const MOST: usize> NewRow<MOST> {
    pub fn led(places: Vec<u16>, mut values: Box<[i64; MOST]>, most: i64) -> NewRow<MOST> {
        let pivot = places[0];
        if values[at::<MOST>(pivot)] < 0 {
            for place in &places {
                values[at::<MOST>(*place)] = -values[at::<MOST>(*place)];
            }
        }
        NewRow {
            pivot,
            head: values[at::<MOST>(pivot)],
            most,
            places,
            values,
        }
    }

    #[inline]
    pub fn value(&self, place: u16) -> i64 {
        self.values[at::<MOST>(place)]
    }

    /// The row as one of a form.
    pub fn row(&self) -> Row {
        let entries = self.places[1..].iter().map(|place| Entry {
            place: *place,
            value: wide(self.value(*place)),
        });
        Row {
            pivot: self.pivot,
            head: self.head,
            most: self.most,
            entries: entries.collect(),
        }
    }

    pub fn same(&self, other: &NewRow<MOST>) -> bool {
        self.places == other.places
            && self
                .places
                .iter()
                .all(|place| self.value(*place) == other.value(*place))
    }
}

/// What clearing a row needs besides.
pub struct Room<const MOST: usize> {
    pub numbers: [i64; MOST],
    pub seen: [bool; MOST],
    /// What no number of a cleared row is above.
    pub width: i64,
}

impl<const MOST: usize> Room<MOST> {
    pub fn new(width: i64) -> Room<MOST> {
        Room {
            numbers: [0; MOST],
            seen: [false; MOST],
            width,
        }
    }
}

/// What a pass over a row's entries found: places of the new row, bits of sizes, numbers that are 0.
#[derive(Clone, Copy, Default)]
struct Pass {
    hits: usize,
    bits: u64,
    zeros: usize,
}

impl Pass {
    #[inline]
    fn note(&mut self, new: i64, number: i64) {
        self.hits += usize::from(new != 0);
        self.zeros += usize::from(number == 0);
        self.bits |= (number ^ (number >> 63)) as u64;
    }

    /// A power of two that no size is above, or the width.
    fn bound(&self, width: i64) -> i64 {
        if self.bits == 0 {
            return 1;
        }
        (1i64 << (64 - self.bits.leading_zeros())).min(width)
    }
}

/// The multiples that clear a row at a new pivot: `a` times the row less `b` times the new row is 0 there.
#[derive(Clone, Copy)]
struct Factors {
    a: i64,
    b: i64,
}

impl Factors {
    #[inline]
    fn of<const MOST: usize>(new: &NewRow<MOST>, entry: i64) -> Factors {
        let common = match new.head {
            1 => 1,
            head => gcd64(head as u64, entry.unsigned_abs()) as i64,
        };
        if common == 1 {
            return Factors {
                a: new.head,
                b: entry,
            };
        }
        Factors {
            a: new.head / common,
            b: entry / common,
        }
    }

    #[inline]
    fn number<const MOST: usize>(self, entry: &Entry, new: &NewRow<MOST>) -> i128 {
        wide(self.a) * wide(entry.value as i64) - wide(self.b) * wide(new.value(entry.place))
    }

    /// The number at a place of the new row that the row has not.
    #[inline]
    fn extra<const MOST: usize>(self, place: u16, new: &NewRow<MOST>) -> i128 {
        -wide(self.b) * wide(new.value(place))
    }

    fn head(self, row: &Row) -> i128 {
        wide(self.a) * wide(row.head)
    }

    fn is_surely_narrow<const MOST: usize>(
        self,
        row: &Row,
        new: &NewRow<MOST>,
        width: i64,
    ) -> bool {
        wide(self.a) * wide(row.most) + wide(self.b.abs()) * wide(new.most) <= wide(width)
    }
}

impl Row {
    #[inline]
    fn place_of(&self, column: u16) -> usize {
        self.entries.partition_point(|entry| entry.place < column)
    }

    /// Where the row has an entry at the column.
    #[inline]
    fn find(&self, column: u16) -> Option<usize> {
        let k = match self.entries.first() {
            Some(entry) if entry.place < column => self.place_of(column),
            _ => 0,
        };
        let entry = self.entries.get(k)?;
        (entry.place == column).then_some(k)
    }

    #[inline(never)]
    pub fn is_parallel<const MOST: usize>(&self, new: &NewRow<MOST>) -> bool {
        let first = wide(self.entries[0].value as i64);
        let mut pairs = self.entries.iter().zip(&new.places);
        pairs.all(|(entry, place)| {
            entry.place == *place
                && wide(new.head) * wide(entry.value as i64) == first * wide(new.value(*place))
        })
    }

    pub fn is_wide_in_front(
        &self,
        front: &[u16],
        new: &[i128; FRONT],
        lead: usize,
        width: i64,
    ) -> bool {
        let mut numbers = [0i64; FRONT];
        let last = front[front.len() - 1];
        let mut k = 0;
        for entry in self.entries.iter().take_while(|entry| entry.place <= last) {
            while front[k] < entry.place {
                k += 1;
            }
            numbers[k] = entry.value as i64;
        }
        let (a, b) = (new[lead], numbers[lead]);
        if b == 0 {
            return false;
        }
        let head = a.unsigned_abs() * self.head as u128;
        let (mut content, mut most) = (head, head);
        for (number, new) in numbers.iter().zip(new) {
            let size = (a * wide(*number) - wide(b) * new).unsigned_abs();
            most = most.max(size);
            if content != 1 && size != 0 {
                content = match u64::try_from(content) {
                    Ok(short) => u128::from(gcd64(short, (size % content) as u64)),
                    Err(_) => gcd128(content, size),
                };
            }
        }
        most / content > width as u128
    }

    pub fn is_narrow_with<const MOST: usize>(&self, new: &NewRow<MOST>, width: i64) -> bool {
        let Some(k) = self.find(new.pivot) else {
            return true;
        };
        let factors = Factors::of(new, self.entries[k].value as i64);
        if factors.is_surely_narrow(self, new, width) {
            return true;
        }
        let (content, most) = self.survey(new, factors);
        most.max(factors.head(self) as u128) / content <= width as u128
    }

    /// The pivot's entry once the row is cleared at the new row's pivot; None if it is wide then.
    pub fn cleared_head<const MOST: usize>(&self, new: &NewRow<MOST>, width: i64) -> Option<i64> {
        let Some(k) = self.find(new.pivot) else {
            return Some(self.head);
        };
        let factors = Factors::of(new, self.entries[k].value as i64);
        let head = factors.head(self);
        if factors.is_surely_narrow(self, new, width) {
            let content = if head == 1 {
                1
            } else {
                self.content(new, k, factors)
            };
            return Some((head / content as i128) as i64);
        }
        let (content, most) = self.survey(new, factors);
        if most.max(head as u128) / content > width as u128 {
            return None;
        }
        Some(if content == 1 {
            head as i64
        } else {
            (head / content as i128) as i64
        })
    }

    /// The new row's places that the row has not.
    fn for_extras<const MOST: usize>(&self, new: &NewRow<MOST>, mut each: impl FnMut(u16)) {
        let mut k = 0;
        for place in &new.places {
            while k < self.entries.len() && self.entries[k].place < *place {
                k += 1;
            }
            if k == self.entries.len() || self.entries[k].place != *place {
                each(*place);
            }
        }
    }

    /// The content of the cleared row, and the greatest size of its numbers before they are divided.
    #[inline(never)]
    fn survey<const MOST: usize>(&self, new: &NewRow<MOST>, factors: Factors) -> (u128, u128) {
        let mut content = Content::new(factors.head(self) as u128);
        let mut most = 0;
        let mut hits = 0;
        let mut take = |number: i128| {
            most = most.max(number.unsigned_abs());
            if !content.is_one() {
                content.take(number);
            }
        };
        for entry in &self.entries {
            hits += usize::from(new.value(entry.place) != 0);
            take(factors.number(entry, new));
        }
        if hits < new.places.len() {
            self.for_extras(new, |place| take(factors.extra(place, new)));
        }
        (content.value(), most)
    }

    /// The content alone: it ends as soon as it is 1.
    #[inline(never)]
    fn content<const MOST: usize>(&self, new: &NewRow<MOST>, k: usize, factors: Factors) -> u128 {
        let mut content = Content::new(factors.head(self) as u128);
        for entry in self.entries[k + 1..].iter().chain(&self.entries[..k]) {
            if content.is_one() {
                return 1;
            }
            content.take(factors.number(entry, new));
        }
        self.for_extras(new, |place| {
            if !content.is_one() {
                content.take(factors.extra(place, new));
            }
        });
        content.value()
    }

    /// A multiple of the content that mostly is the content: from the head and a few numbers after the new pivot.
    fn first_divisor<const MOST: usize>(
        &self,
        new: &NewRow<MOST>,
        k: usize,
        factors: Factors,
    ) -> u128 {
        let mut content = Content::new(factors.head(self) as u128);
        for entry in &self.entries[k + 1..] {
            if content.is_one() || content.agreed == 2 {
                break;
            }
            content.take(factors.number(entry, new));
        }
        content.value()
    }

    /// The numbers of the cleared row over its content, which is given: a divisor is tried until all agree.
    #[inline(never)]
    fn quotients<const MOST: usize>(
        &self,
        new: &NewRow<MOST>,
        k: usize,
        factors: Factors,
        first: u128,
        out: &mut [i64],
    ) -> u128 {
        let mut content = first;
        while content != 1 {
            let Ok(short) = u64::try_from(content) else {
                return self.content(new, k, factors);
            };
            let divisor = Divisor::new(short);
            match self.divided(new, factors, &divisor, out) {
                Err(number) => content = gcd128(content, number.unsigned_abs()),
                Ok(hits) if hits == new.places.len() => return content,
                Ok(_) => {
                    let mut smaller = content;
                    self.for_extras(new, |place| {
                        let number = factors.extra(place, new);
                        if divisor.quotient(number).is_none() {
                            smaller = gcd128(smaller, number.unsigned_abs());
                        }
                    });
                    if smaller == content {
                        return content;
                    }
                    content = smaller;
                }
            }
        }
        1
    }

    /// The numbers at the row's entries over a divisor, or the first that isn't a multiple; with how many the new row has.
    #[inline]
    fn divided<const MOST: usize>(
        &self,
        new: &NewRow<MOST>,
        factors: Factors,
        divisor: &Divisor,
        out: &mut [i64],
    ) -> Result<usize, i128> {
        let mut hits = 0;
        for (entry, out) in self.entries.iter().zip(out) {
            hits += usize::from(new.value(entry.place) != 0);
            let number = factors.number(entry, new);
            *out = divisor.quotient(number).ok_or(number)?;
        }
        Ok(hits)
    }

    /// Clears the row at the new row's pivot.
    #[inline(never)]
    pub fn clear<const MOST: usize>(&mut self, new: &NewRow<MOST>, room: &mut Room<MOST>) {
        let Some(k) = self.find(new.pivot) else {
            return;
        };
        let factors = Factors::of(new, self.entries[k].value as i64);
        let head = factors.head(self);
        if head == 1 && new.places.len() * 8 < self.entries.len() {
            return self.edit(new, factors.b);
        }
        let count = self.entries.len();
        let numbers = &mut room.numbers[..count];
        let content = match head {
            1 => 1,
            _ => self.quotients(
                new,
                k,
                factors,
                self.first_divisor(new, k, factors),
                numbers,
            ),
        };
        let quotient = Quotient::new(content);
        if new.places.len() > count + count / 8 + 2 {
            self.merge(new, factors, &quotient);
        } else {
            let pass = match quotient {
                Quotient::Short(_) => write_up(&mut self.entries, k, new, numbers),
                _ => combine(&mut self.entries, k, new, factors, &quotient),
            };
            self.entries.truncate(count - 1);
            self.most = pass.bound(room.width);
            let missing = new.places.len() - 1 - pass.hits;
            if missing > 0 {
                self.add_missing(new, factors, &quotient, &mut room.seen, missing);
            }
            if pass.zeros > 0 {
                self.entries.retain(|entry| entry.value != 0);
            }
        }
        self.head = quotient.of(head);
        self.most = self.most.max(self.head);
    }

    /// Takes a multiple of the new row off, entry by entry of the new row.
    #[inline(never)]
    fn edit<const MOST: usize>(&mut self, new: &NewRow<MOST>, b: i64) {
        for place in &new.places {
            let less = b * new.value(*place);
            let k = self.place_of(*place);
            match self.entries.get_mut(k) {
                Some(entry) if entry.place == *place => {
                    let value = entry.value as i64 - less;
                    entry.value = wide(value);
                    self.most = self.most.max(value.abs());
                    if value == 0 {
                        self.entries.remove(k);
                    }
                }
                _ => {
                    let value = wide(-less);
                    self.entries.insert(
                        k,
                        Entry {
                            place: *place,
                            value,
                        },
                    );
                    self.most = self.most.max(less.abs());
                }
            }
        }
    }

    #[inline(never)]
    fn merge<const MOST: usize>(
        &mut self,
        new: &NewRow<MOST>,
        factors: Factors,
        quotient: &Quotient,
    ) {
        let mut entries = Vec::with_capacity(self.entries.len() + new.places.len());
        let mut most = 0;
        let mut put = |place, number| {
            let value = quotient.of(number);
            most = most.max(value.unsigned_abs());
            if value != 0 {
                let value = wide(value);
                entries.push(Entry { place, value });
            }
        };
        let (mut old, mut places) = (self.entries.as_slice(), new.places.as_slice());
        while let ([entry, rest @ ..], [place, later @ ..]) = (old, places) {
            if entry.place <= *place {
                put(entry.place, factors.number(entry, new));
                old = rest;
                places = if entry.place == *place { later } else { places };
            } else {
                put(*place, factors.extra(*place, new));
                places = later;
            }
        }
        old.iter()
            .for_each(|entry| put(entry.place, factors.number(entry, new)));
        places
            .iter()
            .for_each(|place| put(*place, factors.extra(*place, new)));
        self.entries = entries;
        self.most = most as i64;
    }

    /// Adds entries at the new row's places that the row had not: from the back, each old entry moves once.
    #[inline(never)]
    fn add_missing<const MOST: usize>(
        &mut self,
        new: &NewRow<MOST>,
        factors: Factors,
        quotient: &Quotient,
        seen: &mut [bool; MOST],
        missing: usize,
    ) {
        for entry in &self.entries {
            seen[at::<MOST>(entry.place)] = true;
        }
        let mut from = self.entries.len();
        let mut to = from + missing;
        self.entries.resize(to, Entry { place: 0, value: 0 });
        for place in new.places[1..].iter().rev() {
            if seen[at::<MOST>(*place)] {
                continue;
            }
            let k = self.entries[..from].partition_point(|entry| entry.place < *place);
            self.entries.copy_within(k..from, to - (from - k));
            to -= from - k + 1;
            from = k;
            let value = quotient.of(factors.extra(*place, new));
            self.most = self.most.max(value.abs());
            self.entries[to] = Entry {
                place: *place,
                value: wide(value),
            };
        }
        *seen = [false; MOST];
    }
}

/// Each entry but that at `k` takes its number; those after it move up by one.
#[inline(never)]
fn write_up<const MOST: usize>(
    entries: &mut [Entry],
    k: usize,
    new: &NewRow<MOST>,
    numbers: &[i64],
) -> Pass {
    let mut pass = Pass::default();
    for (entry, number) in entries[..k].iter_mut().zip(numbers) {
        pass.note(new.value(entry.place), *number);
        entry.value = wide(*number);
    }
    for (j, number) in (k..).zip(&numbers[k + 1..]) {
        let place = entries[j + 1].place;
        pass.note(new.value(place), *number);
        entries[j] = Entry {
            place,
            value: wide(*number),
        };
    }
    pass
}

/// Each entry but that at `k` takes its new value; those after it move up by one.
#[inline(never)]
fn combine<const MOST: usize>(
    entries: &mut [Entry],
    k: usize,
    new: &NewRow<MOST>,
    factors: Factors,
    quotient: &Quotient,
) -> Pass {
    match quotient {
        Quotient::Same if factors.a == 1 => pass_over(entries, k, new, |entry, value| {
            (entry.value as i64).wrapping_sub(factors.b.wrapping_mul(value))
        }),
        Quotient::Same => pass_over(entries, k, new, |entry, _| {
            factors.number(&entry, new) as i64
        }),
        _ => pass_over(entries, k, new, |entry, _| {
            quotient.of(factors.number(&entry, new))
        }),
    }
}

#[inline]
fn pass_over<const MOST: usize>(
    entries: &mut [Entry],
    k: usize,
    new: &NewRow<MOST>,
    number: impl Fn(Entry, i64) -> i64,
) -> Pass {
    let mut pass = Pass::default();
    let (front, back) = entries.split_at_mut(k);
    for entry in front {
        let value = new.value(entry.place);
        let number = number(*entry, value);
        pass.note(value, number);
        entry.value = wide(number);
    }
    let cells = std::cell::Cell::from_mut(back).as_slice_of_cells();
    for (to, from) in cells.iter().zip(&cells[1..]) {
        let entry = from.get();
        let value = new.value(entry.place);
        let number = number(entry, value);
        pass.note(value, number);
        to.set(Entry {
            place: entry.place,
            value: wide(number),
        });
    }
    pass
}
