//! Judges one full hour many times: by the proved library, linked as C, and by a plain program that does the same work.
//! Prints both times and their ratio. Both are called in turn, several times, and the least time of each counts.

use std::hint::black_box;
use std::time::Instant;

extern "C" {
    fn judge_full_hour(rounds: u32) -> u32;
}

const ZONES: usize = 24;
const LINES: usize = 60;
const ORDERS: usize = 512;

struct Line {
    limit: i64,
    sensitivities: [i64; ZONES],
}

#[derive(Clone, Copy)]
enum Kind {
    Offer,
    Bid,
    Transfer,
}

#[derive(Clone, Copy)]
struct Order {
    house: u8,
    standing: bool,
    kind: Kind,
    first: usize,
    second: usize,
    price: i64,
    largest: i64,
}

impl Order {
    fn worth(&self, q: i64) -> i64 {
        match self.kind {
            Kind::Offer => -self.price * q,
            Kind::Bid | Kind::Transfer => self.price * q,
        }
    }

    fn injection(&self, q: i64, zone: usize) -> i64 {
        match self.kind {
            Kind::Offer => if zone == self.first { q } else { 0 },
            Kind::Bid => if zone == self.first { -q } else { 0 },
            Kind::Transfer => {
                let fed = if zone == self.first { q } else { 0 };
                let taken = if zone == self.second { q } else { 0 };
                fed - taken
            }
        }
    }

    fn content(&self, q: i64, prices: &[i64; ZONES]) -> bool {
        let slope = match self.kind {
            Kind::Offer => prices[self.first] - 1000 * self.price,
            Kind::Bid => 1000 * self.price - prices[self.first],
            Kind::Transfer => 1000 * self.price + prices[self.first] - prices[self.second],
        };
        q <= self.largest && (q == 0 || slope >= 0) && (q == self.largest || slope <= 0)
    }
}

struct Sheet {
    quantities: [Vec<i64>; 3],
    lambda: i64,
    shadow: [i64; LINES],
}

struct Verdict {
    welfare: i64,
    rent: i64,
    amounts: [i64; 2],
}

fn judge(lines: &[Line], lists: &[Vec<Order>; 3], sheet: &Sheet) -> Result<Verdict, (u8, usize, usize)> {
    for (l, list) in lists.iter().enumerate() {
        for (n, order) in list.iter().enumerate() {
            let q = sheet.quantities[l][n];
            if q < 0 || q > if order.standing { order.largest } else { 0 } {
                return Err((10, l, n));
            }
        }
    }
    let mut nets = [0i64; ZONES];
    for (zone, net) in nets.iter_mut().enumerate() {
        for (l, list) in lists.iter().enumerate() {
            for (n, order) in list.iter().enumerate() {
                *net += order.injection(sheet.quantities[l][n], zone);
            }
        }
    }
    if nets.iter().sum::<i64>() != 0 {
        return Err((11, 0, 0));
    }
    let flow = |line: &Line| -> i64 { (0..ZONES).map(|z| line.sensitivities[z] * nets[z]).sum() };
    for (l, line) in lines.iter().enumerate() {
        if flow(line) > 1000 * line.limit {
            return Err((12, l, 0));
        }
    }
    let mut prices = [0i64; ZONES];
    for zone in 0..ZONES {
        let off: i64 = lines.iter().enumerate().map(|(l, line)| sheet.shadow[l] * line.sensitivities[zone]).sum();
        prices[zone] = sheet.lambda - off;
        if prices[zone].abs() > 500_000_000 {
            return Err((13, zone, 0));
        }
    }
    for (l, line) in lines.iter().enumerate() {
        if sheet.shadow[l] > 0 && flow(line) != 1000 * line.limit {
            return Err((14, l, 0));
        }
    }
    for (l, list) in lists.iter().enumerate() {
        for (n, order) in list.iter().enumerate() {
            if order.standing && !order.content(sheet.quantities[l][n], &prices) {
                return Err((15, l, n));
            }
        }
    }
    let mut verdict = Verdict { welfare: 0, rent: 0, amounts: [0, 0] };
    for (l, list) in lists.iter().enumerate() {
        for (n, order) in list.iter().enumerate() {
            let q = sheet.quantities[l][n];
            verdict.welfare += order.worth(q);
            let paid: i64 = (0..ZONES).map(|z| prices[z] * order.injection(q, z)).sum();
            verdict.amounts[order.house as usize] -= paid;
        }
    }
    verdict.rent = lines.iter().enumerate().map(|(l, line)| 1000 * sheet.shadow[l] * line.limit).sum();
    Ok(verdict)
}

fn full_hour() -> (Vec<Line>, [Vec<Order>; 3], Sheet) {
    let mut sensitivities = [0i64; ZONES];
    for (zone, s) in sensitivities.iter_mut().enumerate() {
        *s = 7 * zone as i64 - 80;
    }
    let lines = (0..LINES).map(|_| Line { limit: 1000, sensitivities }).collect();
    let order = |n: usize, house, kind, price| Order { house, standing: true, kind, first: n % ZONES, second: (n + 1) % ZONES, price, largest: 1000 };
    let offers = (0..ORDERS).map(|n| order(n, 0, Kind::Offer, 3000)).collect();
    let bids = (0..ORDERS).map(|n| order(n, 1, Kind::Bid, 1000)).collect();
    let transfers = (0..ORDERS).map(|n| order(n, 1, Kind::Transfer, 0)).collect();
    let none = vec![0i64; ORDERS];
    let sheet = Sheet { quantities: [none.clone(), none.clone(), none], lambda: 2_000_000, shadow: [0; LINES] };
    (lines, [offers, bids, transfers], sheet)
}

fn plain(rounds: u32) -> u32 {
    let (lines, lists, sheet) = full_hour();
    let mut accepted = 0;
    for _ in 0..rounds {
        if let Ok(v) = judge(black_box(&lines), black_box(&lists), black_box(&sheet)) {
            black_box((v.welfare, v.rent, v.amounts));
            accepted += 1;
        }
    }
    accepted
}

fn main() {
    let rounds = 300;
    let (mut proved_best, mut plain_best) = (f64::MAX, f64::MAX);
    for _ in 0..7 {
        let start = Instant::now();
        let proved = unsafe { judge_full_hour(black_box(rounds)) };
        proved_best = proved_best.min(start.elapsed().as_secs_f64());
        let start = Instant::now();
        let other = plain(black_box(rounds));
        plain_best = plain_best.min(start.elapsed().as_secs_f64());
        assert_eq!((proved, other), (rounds, rounds));
    }
    let each = |t: f64| 1e6 * t / rounds as f64;
    println!("a full hour: proved {:.0} us, plain {:.0} us, ratio {:.2}", each(proved_best), each(plain_best), proved_best / plain_best);
}
