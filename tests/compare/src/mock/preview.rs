//! The preview of one more order, wrong in one way. It is found otherwise than in
//! `second`: by the analysis of a copy of the list.

use super::fault;
use crate::check::ENOUGH;
use second::order::{self, Before};
use second::{joins, packed, tree, MOST_HOURS, MOST_JOBS, MOST_ORDERS};

/// An answer's number and places.
type Answer = (u64, [u64; 4]);

fn at(place: usize) -> [u64; 4] {
    [place as u64, 0, 0, 0]
}

/// A pair list, its hours and one more order.
struct Asked<'a> {
    count: u16,
    list: &'a [u16],
    hours: &'a [u16],
    order: (u16, u16),
}

pub fn wrong_preview(count: u16, list: &[u16], hours: &[u16], order: (u16, u16)) -> u64 {
    let mut asked = Asked {
        count,
        list,
        hours,
        order,
    };
    asked.order = asked.taken_order();
    let mut answer = asked.with(&asked.copy(), hours);
    // Each has the faults of one kind, and leaves the answer where there is none.
    for wrong in [
        Asked::at_the_limits,
        Asked::tested_early,
        Asked::about_hours,
        Asked::about_the_list,
        Asked::misplaced,
        Asked::not_followed_on,
        Asked::accepted,
    ] {
        answer = wrong(&asked, answer);
    }
    let (number, mut places) = answer;
    if fault("the third place of a preview is packed eight bits too high") {
        places.swap(2, 3);
    }
    packed(number, places)
}

impl Asked<'_> {
    /// The answer to a list and hours, with areas long enough.
    fn with(&self, list: &[u16], hours: &[u16]) -> Answer {
        let outcome = second::analyse_pairs(self.count, list, hours, ENOUGH.0, ENOUGH.1);
        (outcome.number, outcome.places)
    }

    /// The answer to the list without the order.
    fn alone(&self) -> Answer {
        self.with(self.list, self.hours)
    }

    fn jobs(&self) -> usize {
        self.count as usize
    }

    fn orders(&self) -> usize {
        self.list.len() / 2
    }

    fn is_odd(&self) -> bool {
        self.list.len() % 2 == 1
    }

    fn has_jobs(&self) -> bool {
        (1..=MOST_JOBS).contains(&self.jobs())
    }

    fn is_outside(&self) -> [bool; 2] {
        [self.order.0, self.order.1].map(|number| number >= self.count)
    }

    fn is_itself(&self) -> bool {
        self.order.0 == self.order.1
    }

    fn taken_order(&self) -> (u16, u16) {
        let (first, second) = self.order;
        if fault("the order of a preview is turned") {
            return (second, first);
        }
        if fault("the first number of the order has 8 bits") {
            return (first % 256, second);
        }
        if fault("the second number of the order has 8 bits") {
            return (first, second % 256);
        }
        if fault("the numbers of the order have 15 bits") {
            return (first % 32_768, second % 32_768);
        }
        if fault("a number of the order above 127 is taken for 127") {
            return (first.min(127), second.min(127));
        }
        (first, second)
    }

    /// The copy of the list that is analysed.
    fn copy(&self) -> Vec<u16> {
        let (first, second) = self.order;
        let pair = [first, second];
        let mut list = self.list;
        let outside = self.is_outside();
        if fault("the order is put ahead of the list") {
            return [&pair, list].concat();
        }
        let left_out = fault("the order is left out")
            || (outside.contains(&true) && fault("an order outside is left out"))
            || (outside == [true, false] && fault("the order's first number is not tested"))
            || (outside == [false, true] && fault("the order's second number is not tested"))
            || (first.max(second) == self.count && fault("the count is let pass in the order"))
            || (self.is_itself() && fault("an order from a job to itself is left out"))
            || (fault("an order that is there already is left out")
                && list.chunks_exact(2).any(|own| own == pair));
        if left_out {
            return list.to_vec();
        }
        if self.orders() > 0 && fault("the order takes the place of the last one") {
            list = &list[..list.len() - 2];
        }
        if self.is_odd() && fault("an odd list is previewed without its last number") {
            list = &list[..list.len() - 1];
        }
        if self.is_odd() && fault("an odd list is closed by the order's first number") {
            return [list, &[first]].concat();
        }
        for (name, orders) in [
            ("a full list has room for the order", MOST_ORDERS),
            (
                "a list of 4,097 orders has room for the order",
                MOST_ORDERS + 1,
            ),
        ] {
            if list.len() == 2 * orders && fault(name) {
                list = &list[2 * (orders + 1 - MOST_ORDERS)..];
            }
        }
        if fault("the length of a previewed list has 16 bits") {
            list = &list[..list.len() % 65_536];
        }
        [list, &pair].concat()
    }

    fn at_the_limits(&self, answer: Answer) -> Answer {
        let number = answer.0;
        let later = !matches!(number, 2..=4);
        if later && self.orders() == 4095 && fault("a list of 4,095 orders is full") {
            return (4, [0; 4]);
        }
        if later && self.count == 128 && fault("128 jobs are too many for a preview") {
            return (3, [0; 4]);
        }
        if number == 3 && self.count == 129 && fault("129 jobs are not too many for a preview") {
            return (12, [0; 4]);
        }
        if number == 3 && self.count == 0 && fault("no jobs are enough for a preview") {
            return (5, [0; 4]);
        }
        if self.list.is_empty() && fault("a list with no orders has no preview") {
            return (2, [0; 4]);
        }
        if number == 4 && fault("4 is told with the list's length in a preview") {
            return (4, at(self.orders()));
        }
        if number == 2 && fault("2 is told with the list's length in a preview") {
            return (2, at(self.list.len()));
        }
        answer
    }

    /// A refusal that is tested ahead of its turn.
    fn tested_early(&self, answer: Answer) -> Answer {
        let number = answer.0;
        let full = self.list.len() >= 2 * MOST_ORDERS;
        let other_length = self.hours.len() != self.jobs();
        let above = |&hours: &u16| hours as usize > MOST_HOURS;
        let above = self.hours.iter().position(above);
        let own = self.list.chunks_exact(2);
        let own_itself = own.clone().position(|own| own[0] == own[1]);
        let itself = own_itself.or(self.is_itself().then_some(self.orders()));
        let outside = self.is_outside().contains(&true);
        for (name, turn, early) in [
            (
                "3 is tested ahead of 2 in a preview",
                2,
                (!self.has_jobs()).then_some((3, 0)),
            ),
            (
                "4 is tested ahead of 2 in a preview",
                2,
                full.then_some((4, 0)),
            ),
            (
                "4 is tested ahead of 3 in a preview",
                3,
                full.then_some((4, 0)),
            ),
            (
                "12 is tested ahead of 3 in a preview",
                3,
                other_length.then_some((12, 0)),
            ),
            (
                "12 is tested ahead of 4 in a preview",
                4,
                other_length.then_some((12, 0)),
            ),
            (
                "13 is tested ahead of 4 in a preview",
                4,
                above.map(|job| (13, job)),
            ),
            (
                "13 is tested ahead of 12 in a preview",
                12,
                above.map(|job| (13, job)),
            ),
            (
                "6 is tested ahead of 5 in a preview",
                5,
                itself.map(|place| (6, place)),
            ),
            (
                "5 of the order is tested ahead of 12",
                12,
                outside.then_some((5, self.orders())),
            ),
            (
                "5 of the order is tested ahead of 13",
                13,
                outside.then_some((5, self.orders())),
            ),
        ] {
            if let Some((early, place)) = early.filter(|_| number == turn && fault(name)) {
                return (early, at(place));
            }
        }
        answer
    }

    fn about_hours(&self, answer: Answer) -> Answer {
        let (number, hours, jobs) = (answer.0, self.hours, self.jobs());
        let with = |hours: Vec<u16>| self.with(&self.copy(), &hours);
        let above = |&hours: &u16| hours as usize > MOST_HOURS;
        if matches!(number, 12 | 13) && fault("hours are not heeded in a preview") {
            return with(vec![0; jobs]);
        }
        let most = hours.iter().position(|&hours| hours as usize == MOST_HOURS);
        if let Some(job) = most.filter(|_| matches!(number, 0 | 5..=8)) {
            if fault("hours of 4,095 are too many in a preview") {
                return (13, at(job));
            }
        }
        if number == 13 && fault("hours of 4,096 are let pass in a preview") {
            let cut = |&hours: &u16| if hours == 4096 { 0 } else { hours };
            return with(hours.iter().map(cut).collect());
        }
        if number == 13 && fault("the place of 13 is the last such job in a preview") {
            return (13, at(hours.iter().rposition(above).unwrap_or(0)));
        }
        if number == 13 && fault("13 has no place in a preview") {
            return (13, [0; 4]);
        }
        let mut as_long = hours.to_vec();
        as_long.resize(jobs, 0);
        for (name, passes) in [
            (
                "a longer hours list is let pass in a preview",
                hours.len() > jobs,
            ),
            (
                "a shorter hours list is let pass in a preview",
                hours.len() < jobs,
            ),
            (
                "the length of previewed hours has 8 bits",
                hours.len() % 256 == jobs,
            ),
            (
                "the length of previewed hours has 16 bits",
                hours.len() % 65_536 == jobs,
            ),
        ] {
            if number == 12 && passes && fault(name) {
                return with(as_long);
            }
        }
        answer
    }

    /// The list's own faults and the order's in the wrong sequence.
    fn about_the_list(&self, answer: Answer) -> Answer {
        let (number, places) = answer;
        if !matches!(number, 0 | 5..=8) {
            return answer;
        }
        let last = at(self.orders());
        let (outside, itself) = (self.is_outside().contains(&true), self.is_itself());
        if outside && fault("5 of the order is told ahead of 5 of the list") {
            return (5, last);
        }
        if itself && number == 6 && fault("6 of the order is told ahead of 6 of the list") {
            return (6, last);
        }
        if itself && fault("6 of the order is told ahead of 5 of the list") {
            return (6, last);
        }
        if number == 6 && itself && fault("an order from a job to itself is told as outside") {
            return (5, places);
        }
        if number == 6 && itself && fault("an order from a job to itself is told as a circle") {
            return (7, at(self.order.0 as usize));
        }
        if fault("a list that is refused is told without the order") {
            let alone = self.alone();
            return if alone.0 == 0 { answer } else { alone };
        }
        for (name, turn, own) in [
            ("6 of the list is told ahead of 5 of the order", 5, 6),
            ("7 of the list is told ahead of 5 of the order", 5, 7),
            ("7 of the list is told ahead of 6 of the order", 6, 7),
            ("8 of the list is told ahead of 6 of the order", 6, 8),
            ("8 of the list is told ahead of 7", 7, 8),
            ("8 of the list is told though the order undoes it", 0, 8),
            ("the N of the list is told", 8, 8),
            ("the circle of the list is told", 7, 7),
        ] {
            if number == turn && fault(name) {
                let alone = self.alone();
                return if alone.0 == own { alone } else { answer };
            }
        }
        answer
    }

    /// The answer with wrong places.
    fn misplaced(&self, answer: Answer) -> Answer {
        let (number, mut places) = answer;
        let orders = self.orders();
        if matches!(number, 5 | 6) && places[0] == orders as u64 {
            for (name, place) in [
                ("the place of the order is one too far", orders + 1),
                (
                    "the place of the order is one too near",
                    orders.saturating_sub(1),
                ),
                ("the place of the order is 0", 0),
                ("the place of the order is counted in numbers", 2 * orders),
                ("the place of the order has 8 bits", orders % 256),
                ("the place of the order has 11 bits", orders % 2048),
            ] {
                if fault(name) {
                    return (number, at(place));
                }
            }
        } else if matches!(number, 5 | 6) {
            if fault("the places of the list's orders count from 1 in a preview") {
                places[0] += 1;
            }
            if fault("a fault of the list is told at the order") {
                places = at(orders);
            }
        }
        if number == 7 {
            if fault("a circle is told at the order's first job") {
                places = at(self.order.0 as usize);
            }
            if fault("a circle is told at the order's second job") {
                places = at(self.order.1 as usize);
            }
            if fault("a circle is told at its greatest job") {
                let table = self.table(&self.copy());
                let greatest = (0..self.jobs()).rfind(|&job| table[job][job]);
                places = at(greatest.unwrap_or(0));
            }
            if places[0] > 0 && fault("a circle without job 0 is missed in a preview") {
                return self.alone();
            }
        }
        if number == 8 && fault("c and d of the N are exchanged in a preview") {
            places.swap(2, 3);
        }
        if number == 8 && fault("an N is told without its places in a preview") {
            places = [0; 4];
        }
        (number, places)
    }

    /// The followed-on order of a list without numbers that are no jobs.
    fn table(&self, list: &[u16]) -> Before {
        let orders: Vec<(usize, usize)> = joins::different(list).into_iter().collect();
        order::before(self.jobs(), &orders)
    }

    /// The answer where the order is put into the list's table in part.
    fn not_followed_on(&self, answer: Answer) -> Answer {
        let whole = fault("an N or a circle is not sought in a preview");
        if whole && matches!(answer.0, 7 | 8) {
            return (0, [0; 4]);
        }
        let up = fault("what is before the order's first job is not put before its second");
        let on = fault("what is after the order's second job is not put after its first");
        let neither = fault("the order is not followed on");
        if !matches!(answer.0, 0 | 7 | 8) || !(up || on || neither) {
            return answer;
        }
        let mut table = self.table(self.list);
        let (first, second) = (self.order.0 as usize, self.order.1 as usize);
        let jobs = 0..self.jobs();
        let before = |&u: &usize| u == first || !(up || neither) && table[u][first];
        let after = |&v: &usize| v == second || !(on || neither) && table[second][v];
        let before: Vec<usize> = jobs.clone().filter(before).collect();
        let after: Vec<usize> = jobs.filter(after).collect();
        for &u in &before {
            after.iter().for_each(|&v| table[u][v] = true);
        }
        self.answer_by(&table)
    }

    /// The answer from refusal 7 on by a table, followed on or not.
    fn answer_by(&self, table: &Before) -> Answer {
        if let Some(job) = (0..self.jobs()).find(|&job| table[job][job]) {
            return (7, at(job));
        }
        if let Some(places) = order::first_n(table) {
            return (8, places.map(|place| place as u64));
        }
        let hours = vec![0; self.jobs()];
        let groups = tree::of_order(table, &hours).map_or(0, |tree| tree.groups());
        let bytes = (7 + 20 * self.jobs() + 9 * groups).div_ceil(8);
        let reduced = order::reduced(table).len();
        (0, [bytes, reduced, groups, 0].map(|place| place as u64))
    }

    /// Acceptance told wrong.
    fn accepted(&self, answer: Answer) -> Answer {
        let (number, mut places) = answer;
        if number != 0 {
            return answer;
        }
        let [bytes, reduced, groups, _] = places;
        let (jobs, orders) = (self.jobs() as u64, self.orders() as u64);
        for (name, refused, given) in [
            ("9 is given for an accepted preview", 9, true),
            ("10 is given for an accepted preview", 10, true),
            ("the record area of a preview has 463 bytes", 9, bytes > 463),
            ("the record area of a preview has 272 bytes", 9, bytes > 272),
            (
                "a preview has room for 4,095 reduced orders",
                10,
                reduced > 4095,
            ),
            (
                "a preview has room for 2,048 reduced orders",
                10,
                reduced > 2048,
            ),
        ] {
            if given && fault(name) {
                return (refused, [0; 4]);
            }
        }
        if fault("an accepted preview has no places") {
            return (0, [0; 4]);
        }
        for (name, which) in [
            ("an accepted preview has the places of the list alone", 0..4),
            (
                "an accepted preview has the record bytes of the list alone",
                0..1,
            ),
            (
                "an accepted preview has the reduced orders of the list alone",
                1..2,
            ),
            ("an accepted preview has the groups of the list alone", 2..3),
        ] {
            if fault(name) {
                let (number, alone) = self.alone();
                if number == 0 {
                    places[which.clone()].copy_from_slice(&alone[which]);
                }
            }
        }
        if fault("an accepted preview has one more reduced order than the list alone") {
            let (number, alone) = self.alone();
            if number == 0 {
                places[1] = alone[1] + 1;
            }
        }
        if fault("an accepted preview has all different orders") {
            places[1] = joins::different(&self.copy()).len() as u64;
        }
        let bits = 7 + 20 * jobs + 9 * groups;
        for (name, place, told) in [
            ("an accepted preview has all written orders", 1, orders + 1),
            (
                "the record of a preview has no hours",
                0,
                (bits - 12 * jobs).div_ceil(8),
            ),
            (
                "the last bits of a preview's record are not counted",
                0,
                bits / 8,
            ),
            ("the record of a preview is counted in bits", 0, bits),
            (
                "leaves are counted among the groups of a preview",
                2,
                groups + jobs,
            ),
            ("the fourth place of a preview is the job count", 3, jobs),
        ] {
            if fault(name) {
                places[place] = told;
            }
        }
        (0, places)
    }
}
