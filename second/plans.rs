//! Networks and hours planned backwards, so that their sheets are right outcomes.
//!
//! An accepted sheet is rare among random ones, so nothing here is found by search. The net injections come first; the
//! limits follow from their flows, so that many lines bind exactly; then shadow prices for lines that bind, lambda, and
//! with them the zone prices; and last the orders, each with a price on the side where it is content with its quantity.

use crate::answers::*;
use crate::commands::Script;
use crate::random::Random;

type Injections = Vec<i64>;

/// A network with net injections that keep all its limits.
pub struct Grid {
    pub zones: usize,
    /// The parents of zones 1, 2, ... of a tree; none for a table.
    parents: Option<Vec<usize>>,
    /// Of all lines, the monitored ones last.
    pub sensitivities: Vec<[i64; MOST_ZONES]>,
    monitored: usize,
    /// What is left of each line's limit.
    pub limits: Vec<i64>,
    stated_limits: Vec<i64>,
    held_back: Vec<(usize, i64)>,
    /// Injections that keep the limits, many of them with lines that bind.
    fitting: Vec<Injections>,
    /// Injections for which the limits were not made.
    wild: Vec<Injections>,
}

pub struct Size {
    pub zones: usize,
    pub most_lines: usize,
}

impl Grid {
    /// Of any size, more often small.
    pub fn random(random: &mut Random) -> Grid {
        let zones = random.pick(&[1, 2, 2, 3, 3, 4, 4, 5, 6, 8, 12, 24]);
        let most_lines = random.pick(&[4, 8, 20, MOST_LINES]);
        Grid::of_size(random, &Size { zones, most_lines })
    }

    pub fn of_size(random: &mut Random, size: &Size) -> Grid {
        let zones = size.zones;
        let tree = 2 * (zones - 1) <= size.most_lines && random.chance(50);
        let unit = random.pick(&[1, 1, 3, 8, 20, 40, 1000]);
        let fitting: Vec<Injections> = (0..random.between(1, 3)).map(|_| injections(random, zones, unit)).collect();
        let wild = (0..2).map(|_| injections(random, zones, unit)).collect();

        let (parents, mut sensitivities) = if tree {
            let parents = parents(random, zones);
            let lines = tree_lines(&parents);
            (Some(parents), lines)
        } else {
            (None, Vec::new())
        };
        let below = sensitivities.len();
        let rows = match tree {
            true => 0,
            false if random.chance(30) => size.most_lines,
            false => random.below(size.most_lines + 1),
        };
        let room = MOST_LINES - below - rows;
        let monitored = if random.chance(50) { random.below(MOST_MONITORED.min(room) + 1) } else { 0 };
        while sensitivities.len() < below + rows + monitored {
            let row = row(random, zones, &fitting);
            sensitivities.push(row);
            // Both directions of one line are usual.
            if sensitivities.len() < below + rows && random.chance(40) {
                sensitivities.push(row.map(|sensitivity| -sensitivity));
            }
        }

        let mut grid = Grid {
            zones,
            parents,
            sensitivities,
            monitored,
            limits: Vec::new(),
            stated_limits: Vec::new(),
            held_back: Vec::new(),
            fitting,
            wild,
        };
        grid.set_limits(random);
        grid
    }

    /// Limits as tight as the fitting injections allow, but for some.
    fn set_limits(&mut self, random: &mut Random) {
        let slack = random.pick(&[0, 10, 40]);
        let held = random.pick(&[0, 0, 30, 100]);
        let lines = self.sensitivities.len();
        // In some networks no line but one can ever be full, so that one is named whenever a flow is too large.
        let alone = (lines > 0 && random.chance(25)).then(|| [0, lines - 1, random.below(lines)][random.below(3)]);
        for line in 0..lines {
            let largest =
                self.fitting.iter().map(|injections| self.flow(line, injections)).max().expect("one at least").max(0);
            let mut limit = (largest + 999) / 1000;
            if alone.is_some_and(|alone| alone != line) {
                limit += 5_000_000;
            } else if random.chance(slack) {
                limit += random.pick(&[1, 10, 1000]);
            }
            let mut stated = limit;
            if random.chance(held) {
                if random.chance(20) {
                    // Another amount first: the last one counts.
                    self.held_back.push((line, random.between(0, MOST_ENERGY)));
                }
                let held_back = random.pick(&[0, 1, 7, 1000, 100_000]);
                if limit == 0 && random.chance(50) {
                    stated = random.between(0, held_back);
                } else {
                    stated += held_back;
                }
                self.held_back.push((line, held_back));
            }
            self.limits.push(limit);
            self.stated_limits.push(stated);
        }
    }

    pub fn lines(&self) -> usize {
        self.limits.len()
    }

    fn flow(&self, line: usize, injections: &[i64]) -> i64 {
        injections.iter().zip(&self.sensitivities[line]).map(|(injection, sensitivity)| injection * sensitivity).sum()
    }

    fn binds(&self, line: usize, injections: &[i64]) -> bool {
        self.flow(line, injections) == 1000 * self.limits[line]
    }

    pub fn fitting(&self, random: &mut Random) -> Injections {
        let injections = &self.fitting[random.below(self.fitting.len())];
        let (numerator, denominator) = random.pick(&[(1, 1), (1, 1), (1, 1), (1, 1), (1, 2), (3, 4), (0, 1)]);
        if injections.iter().all(|injection| injection % denominator == 0) {
            injections.iter().map(|injection| injection / denominator * numerator).collect()
        } else {
            injections.clone()
        }
    }

    pub fn wild(&self, random: &mut Random) -> Injections {
        self.wild[random.below(self.wild.len())].clone()
    }

    /// Write the network block, `G` included.
    pub fn write(&self, script: &mut Script) {
        let zones = self.zones as i64;
        let below = self.lines() - self.monitored;
        if let Some(parents) = &self.parents {
            script.put(b'Z', &[zones]).expect("a tree");
            for (link, &parent) in parents.iter().enumerate() {
                let (to_parent, to_child) = (self.stated_limits[2 * link], self.stated_limits[2 * link + 1]);
                script.put(b'K', &[parent as i64, to_parent, to_child]).expect("a link");
            }
        } else {
            script.put(b'Y', &[zones]).expect("a table");
        }
        for line in 0..self.lines() {
            if self.parents.is_some() && line < below {
                continue;
            }
            let mut operands = vec![self.stated_limits[line]];
            operands.extend(self.sensitivities[line]);
            script.put(if line < below { b'R' } else { b'V' }, &operands).expect("a row");
        }
        for &(line, energy) in &self.held_back {
            script.put(b'H', &[line as i64, energy]).expect("a line");
        }
        script.put(b'G', &[]).expect("a complete network");
    }
}

/// Balanced net injections, small enough to leave room for other orders.
fn injections(random: &mut Random, zones: usize, unit: i64) -> Injections {
    let mut injections = vec![0; zones];
    for _ in 0..random.between(1, zones as i64) {
        let energy = unit * random.between(1, 60);
        injections[random.below(zones)] += energy;
        injections[random.below(zones)] -= energy;
    }
    injections
}

fn parents(random: &mut Random, zones: usize) -> Vec<usize> {
    let shape = random.below(4);
    (1..zones)
        .map(|zone| match shape {
            0 => 0,
            1 => zone - 1,
            _ => random.below(zone),
        })
        .collect()
}

/// The two lines of each link, from the definition: the first has 1000 for the zone and for all zones below it.
fn tree_lines(parents: &[usize]) -> Vec<[i64; MOST_ZONES]> {
    let mut lines = Vec::new();
    for child in 1..=parents.len() {
        let mut line = [0; MOST_ZONES];
        for zone in 1..=parents.len() {
            let mut above = zone;
            while above > child {
                above = parents[above - 1];
            }
            if above == child {
                line[zone] = 1000;
            }
        }
        lines.push(line);
        lines.push(line.map(|sensitivity| -sensitivity));
    }
    lines
}

/// A row of a table, or a monitored one.
fn row(random: &mut Random, zones: usize, fitting: &[Injections]) -> [i64; MOST_ZONES] {
    let grain = random.pick(&[1, 1, 8, 50, 100, 125, 250, 500, 1000]);
    let sparse = random.pick(&[0, 30, 80]);
    let mut row = [0; MOST_ZONES];
    for sensitivity in &mut row[..zones] {
        if !random.chance(sparse) {
            *sensitivity = grain * random.between(-1000 / grain, 1000 / grain);
        }
    }
    if random.chance(70) {
        tune(&mut row, &fitting[random.below(fitting.len())]);
    }
    row
}

/// Alter one sensitivity, if that can do it, so that the flow is a whole number of kWh: else no limit can bind.
fn tune(row: &mut [i64; MOST_ZONES], injections: &[i64]) {
    let flow: i64 = injections.iter().zip(row.iter()).map(|(injection, sensitivity)| injection * sensitivity).sum();
    let coprime = injections.iter().position(|injection| injection % 2 != 0 && injection % 5 != 0);
    if let Some(zone) = coprime {
        let step = (0..1000).find(|step| (flow + step * injections[zone]) % 1000 == 0).expect("a coprime injection");
        row[zone] += step;
        if row[zone] > 1000 {
            row[zone] -= 1000;
        }
    }
}

// ---------------------------------------------------------------------------------------------------------------------
// Hours

#[derive(Clone)]
pub struct PlannedOrder {
    pub list: usize,
    pub house: i64,
    /// An offer or bid has its zone twice.
    pub zones: (usize, usize),
    pub price: i64,
    pub largest: i64,
    pub quantity: i64,
    pub standing: bool,
}

impl PlannedOrder {
    /// The price, in thousandths, at which a kWh of the order gains nothing.
    fn threshold(&self, zone_prices: &[i64]) -> i64 {
        threshold(self.list, self.zones, zone_prices)
    }

    /// What a kWh of the order gains.
    fn gain(&self, zone_prices: &[i64]) -> i64 {
        let surplus = 1000 * self.price - self.threshold(zone_prices);
        if self.list == OFFERS {
            -surplus
        } else {
            surplus
        }
    }

    /// How much the net injections grow in sum with each kWh.
    pub fn imbalance(&self) -> i64 {
        [1, -1, 0][self.list]
    }

    /// A price at which the order is not content with its quantity any more, as close as possible.
    pub fn spoilt_price(&self, random: &mut Random, zone_prices: &[i64]) -> Option<i64> {
        let threshold = self.threshold(zone_prices);
        let below = (threshold - 1).div_euclid(1000);
        let above = threshold.div_euclid(1000) + 1;
        let gains_above = self.list != OFFERS;
        let price = if self.quantity == 0 {
            if gains_above {
                above
            } else {
                below
            }
        } else if self.quantity == self.largest {
            if gains_above {
                below
            } else {
                above
            }
        } else {
            random.pick(&[below, above])
        };
        (0..=HIGHEST_PRICE).contains(&price).then_some(price)
    }
}

fn threshold(list: usize, zones: (usize, usize), zone_prices: &[i64]) -> i64 {
    if list == TRANSFERS {
        zone_prices[zones.1] - zone_prices[zones.0]
    } else {
        zone_prices[zones.0]
    }
}

/// A price at which an order is content to be accepted in full, or not at all; often on the edge.
fn content_price(random: &mut Random, list: usize, threshold: i64, accepted: bool) -> Option<i64> {
    let high = accepted == (list != OFFERS);
    let (low_end, high_end) = if high {
        ((-(-threshold).div_euclid(1000)).max(0), HIGHEST_PRICE)
    } else {
        (0, threshold.div_euclid(1000).min(HIGHEST_PRICE))
    };
    if low_end > high_end {
        return None;
    }
    let (edge, inward, far) = if high { (low_end, 1, high_end) } else { (high_end, -1, low_end) };
    Some(match random.below(5) {
        0 | 1 => edge,
        2 if low_end < high_end => edge + inward,
        3 => far,
        _ => random.between(low_end, high_end),
    })
}

/// The orders of an hour with their quantities, and the prices of its sheet.
#[derive(Clone)]
pub struct Plan {
    pub orders: Vec<PlannedOrder>,
    pub lambda: i64,
    pub shadow_prices: Vec<i64>,
    pub zone_prices: Vec<i64>,
}

/// Orders in the making, within the energy of an hour.
struct Desk<'a> {
    random: &'a mut Random,
    orders: Vec<PlannedOrder>,
    energy: i64,
}

impl Desk<'_> {
    fn full(&self, list: usize) -> bool {
        self.orders.iter().filter(|order| order.list == list).count() == MOST_ORDERS
    }

    fn add(&mut self, list: usize, zones: (usize, usize), price: i64, largest: i64, quantity: i64) {
        assert!(!self.full(list));
        self.energy += largest;
        let house = self.random.between(0, 1);
        self.orders.push(PlannedOrder { list, house, zones, price, largest, quantity, standing: true });
    }

    /// A share of the energy that is left, small where that is much.
    fn spare(&mut self) -> i64 {
        let most = (MOST_ENERGY - self.energy) / 64;
        if most < 1 {
            return 0;
        }
        self.random.between(1, most).min(self.random.pick(&[1, 5, 50, 5000, most]))
    }

    /// Orders that take this energy together, each content with its part.
    fn accept(&mut self, list: usize, zones: (usize, usize), energy: i64, threshold: i64, most_parts: usize) {
        let parts = self.random.between(1, most_parts as i64).min(energy);
        let mut left = energy;
        for part in 0..parts {
            let quantity = if part + 1 == parts { left } else { self.random.between(1, left - (parts - part - 1)) };
            left -= quantity;
            let edge = threshold / 1000;
            let on_edge = threshold % 1000 == 0 && (0..=HIGHEST_PRICE).contains(&edge);
            if on_edge && self.random.chance(60) {
                let room = self.spare();
                self.add(list, zones, edge, quantity + room, quantity);
            } else {
                let price = content_price(self.random, list, threshold, true).expect("a price that was asked for before");
                self.add(list, zones, price, quantity, quantity);
            }
        }
    }

    /// An order that gets nothing and is content with that, if there is a price for it.
    fn reject(&mut self, list: usize, zones: (usize, usize), threshold: i64) {
        let largest = self.spare();
        if largest > 0 && !self.full(list) {
            if let Some(price) = content_price(self.random, list, threshold, false) {
                self.add(list, zones, price, largest, 0);
            }
        }
    }
}

impl Plan {
    /// An hour whose sheet has these injections. It is accepted if they keep the limits.
    pub fn new(random: &mut Random, grid: &Grid, injections: Injections, most_parts: usize) -> Plan {
        let zones = grid.zones;
        let dear = random.pick(&[0, 1, 100, 1000, 20_000, HIGHEST_SHADOW_PRICE]);
        let mut shadow_prices: Vec<i64> = (0..grid.lines())
            .map(|line| {
                if dear > 0 && grid.binds(line, &injections) && random.chance(75) {
                    match random.below(4) {
                        0 => dear,
                        1 => 1000 * random.between(0, dear / 1000),
                        _ => random.between(1, dear),
                    }
                } else {
                    0
                }
            })
            .collect();

        // Transfers depend on price differences only, so they can be had before lambda; lambda must then be high enough
        // for offers wherever something is still to be fed in, and keep all zone prices in range.
        let (premiums, transfers, residual, lowest, highest) = loop {
            let premiums: Vec<i64> = (0..zones)
                .map(|zone| {
                    -shadow_prices.iter().zip(&grid.sensitivities).map(|(price, line)| price * line[zone]).sum::<i64>()
                })
                .collect();
            let mut residual = injections.clone();
            let mut transfers = Vec::new();
            if zones > 1 {
                for _ in 0..random.between(0, most_parts as i64) {
                    let pair = two_zones(random, zones);
                    let most = random.pick(&[10, 1000, 20_000]);
                    let energy = random.between(1, most);
                    if content_price(random, TRANSFERS, threshold(TRANSFERS, pair, &premiums), true).is_some() {
                        residual[pair.0] -= energy;
                        residual[pair.1] += energy;
                        transfers.push((pair, energy));
                    }
                }
            }
            let least = *premiums.iter().min().expect("a zone");
            let most = *premiums.iter().max().expect("a zone");
            let mut lowest = (-HIGHEST_ZONE_PRICE - least).max(-HIGHEST_LAMBDA);
            for (premium, residual) in premiums.iter().zip(&residual) {
                if *residual > 0 {
                    lowest = lowest.max(-premium);
                }
            }
            let highest = (HIGHEST_ZONE_PRICE - most).min(HIGHEST_LAMBDA);
            if lowest <= highest {
                break (premiums, transfers, residual, lowest, highest);
            }
            for shadow_price in &mut shadow_prices {
                *shadow_price /= 2;
            }
        };
        let mut lambda = match random.below(8) {
            0 => lowest,
            1 => highest,
            2 => random.between(lowest, highest),
            _ => lowest + random.between(0, (highest - lowest).min(20_000_000)),
        };
        if random.chance(80) {
            // Whole cents in some zone, so that orders there can be accepted in part.
            lambda -= (lambda + premiums[random.below(zones)]).rem_euclid(1000);
            if lambda < lowest {
                lambda = lowest;
            }
        }
        let zone_prices: Vec<i64> = premiums.iter().map(|premium| lambda + premium).collect();

        let mut desk = Desk { random, orders: Vec::new(), energy: 0 };
        for (pair, energy) in transfers {
            desk.accept(TRANSFERS, pair, energy, threshold(TRANSFERS, pair, &zone_prices), 1);
        }
        for zone in 0..zones {
            let price = zone_prices[zone];
            // Beside what must be fed in or drawn, some energy is traded within the zone; for that, offers must pay.
            let within = if price >= 0 && desk.random.chance(40) { desk.random.between(0, 500) } else { 0 };
            let (fed, drawn) = (residual[zone].max(0) + within, (-residual[zone]).max(0) + within);
            if fed > 0 {
                desk.accept(OFFERS, (zone, zone), fed, price, most_parts);
            }
            if drawn > 0 {
                desk.accept(BIDS, (zone, zone), drawn, price, most_parts);
            }
        }
        for _ in 0..desk.random.between(0, most_parts as i64) {
            let (list, pair) = place_for_order(desk.random, zones);
            desk.reject(list, pair, threshold(list, pair, &zone_prices));
        }
        // Withdrawn orders may have any price.
        for _ in 0..desk.random.between(0, most_parts as i64 / 2) {
            let (list, pair) = place_for_order(desk.random, zones);
            let largest = desk.spare();
            if largest > 0 && !desk.full(list) {
                let price = desk.random.between(0, HIGHEST_PRICE);
                desk.add(list, pair, price, largest, 0);
                desk.orders.last_mut().expect("the order").standing = false;
            }
        }
        if desk.random.chance(8) && desk.energy < MOST_ENERGY {
            // Exactly as much as an hour may have.
            let zone = desk.random.below(zones);
            let largest = MOST_ENERGY - desk.energy;
            if let Some(price) = content_price(desk.random, OFFERS, zone_prices[zone], false) {
                desk.add(OFFERS, (zone, zone), price, largest, 0);
            }
        }
        let mut orders = desk.orders;
        random.shuffle(&mut orders);
        Plan { orders, lambda, shadow_prices, zone_prices }
    }

    /// Add orders that get nothing until each list is full, as far as there are prices and energy for them.
    pub fn fill_lists(&mut self, random: &mut Random, zones: usize) {
        let energy = self.orders.iter().map(|order| order.largest).sum();
        let mut desk = Desk { random, orders: std::mem::take(&mut self.orders), energy };
        for list in [OFFERS, BIDS, TRANSFERS] {
            for _ in 0..4 * MOST_ORDERS {
                let pair = if list == TRANSFERS { two_zones(desk.random, zones) } else { one_zone(desk.random, zones) };
                desk.reject(list, pair, threshold(list, pair, &self.zone_prices));
            }
        }
        self.orders = desk.orders;
    }

    /// The number that each order gets in its list.
    pub fn numbers(&self) -> Vec<usize> {
        let mut entered = [0; 3];
        self.orders
            .iter()
            .map(|order| {
                entered[order.list] += 1;
                entered[order.list] - 1
            })
            .collect()
    }

    /// Enter the orders, and withdraw those that shall not stand, at once or later.
    pub fn enter(&self, script: &mut Script, random: &mut Random) {
        let mut leaving = Vec::new();
        for (order, number) in self.orders.iter().zip(self.numbers()) {
            let (first, second) = (order.zones.0 as i64, order.zones.1 as i64);
            let entered = match order.list {
                OFFERS => script.put(b'O', &[order.house, first, order.price, order.largest]),
                BIDS => script.put(b'B', &[order.house, first, order.price, order.largest]),
                _ => script.put(b'T', &[order.house, first, second, order.price, order.largest]),
            };
            entered.expect("a place for the order");
            if !order.standing {
                leaving.push([order.house, order.list as i64, number as i64]);
            }
            if random.chance(30) {
                withdraw(script, &mut leaving);
            }
        }
        withdraw(script, &mut leaving);
    }

    /// The commands that fill a house's empty sheet, in any order.
    pub fn fills(&self, random: &mut Random, house: i64) -> Vec<(u8, Vec<i64>)> {
        let mut fills = Vec::new();
        let idle = random.pick(&[0, 0, 10]);
        for (order, number) in self.orders.iter().zip(self.numbers()) {
            if order.quantity != 0 || random.chance(idle) {
                fills.push((b'A', vec![house, order.list as i64, number as i64, order.quantity]));
            }
        }
        if self.lambda != 0 || random.chance(idle) {
            fills.push((b'L', vec![house, self.lambda]));
        }
        for (line, &shadow_price) in self.shadow_prices.iter().enumerate() {
            if shadow_price != 0 || random.chance(idle) {
                fills.push((b'M', vec![house, line as i64, shadow_price]));
            }
        }
        random.shuffle(&mut fills);
        fills
    }

    pub fn fill(&self, script: &mut Script, random: &mut Random, house: i64) {
        for (letter, operands) in self.fills(random, house) {
            script.put(letter, &operands).expect("a fill in range");
        }
    }

    /// How far the zone prices can move along a direction, backwards and forwards, while all orders stay content and all
    /// zone prices in range.
    pub fn room(&self, direction: &[i64]) -> (i64, i64) {
        let mut range = (-2 * HIGHEST_LAMBDA, 2 * HIGHEST_LAMBDA);
        // Keep `rate * steps` at least at `-reserve`.
        let keep = |range: &mut (i64, i64), reserve: i64, rate: i64| {
            if rate > 0 {
                range.0 = range.0.max(-reserve.div_euclid(rate));
            } else if rate < 0 {
                range.1 = range.1.min(reserve.div_euclid(-rate));
            }
        };
        for (price, step) in self.zone_prices.iter().zip(direction) {
            keep(&mut range, HIGHEST_ZONE_PRICE - price, -step);
            keep(&mut range, HIGHEST_ZONE_PRICE + price, *step);
        }
        for order in self.orders.iter().filter(|order| order.standing) {
            let gain = order.gain(&self.zone_prices);
            let moved: Vec<i64> = self.zone_prices.iter().zip(direction).map(|(price, step)| price + step).collect();
            let rate = order.gain(&moved) - gain;
            if order.quantity > 0 {
                keep(&mut range, gain, rate);
            }
            if order.quantity < order.largest {
                keep(&mut range, -gain, -rate);
            }
        }
        range
    }
}

fn withdraw(script: &mut Script, leaving: &mut Vec<[i64; 3]>) {
    for operands in leaving.drain(..) {
        script.put(b'W', &operands).expect("a standing order of its house");
    }
}

fn one_zone(random: &mut Random, zones: usize) -> (usize, usize) {
    let zone = random.below(zones);
    (zone, zone)
}

pub fn two_zones(random: &mut Random, zones: usize) -> (usize, usize) {
    let first = random.below(zones);
    (first, (first + 1 + random.below(zones - 1)) % zones)
}

fn place_for_order(random: &mut Random, zones: usize) -> (usize, (usize, usize)) {
    if zones > 1 && random.chance(30) {
        (TRANSFERS, two_zones(random, zones))
    } else {
        (random.pick(&[OFFERS, BIDS]), one_zone(random, zones))
    }
}
