//! Makes streams for comparing the two programs, each from a kind and a seed:
//!
//!     generate KIND SEED                   one stream on standard output
//!     generate --set DIR SEED COUNT        COUNT streams of all kinds in turn, in files DIR/KIND-SEED
//!     generate --cuts DIR                  one stream with every command, cut at every length, in files DIR/cut-LENGTH
//!     generate --stats SEED COUNT          what the second program answers to those of --set
//!     generate --stats-of KIND SEED COUNT  the same for one kind
//!     generate --kinds                     the names of the kinds

mod answers;
mod commands;
mod plans;
mod random;

use answers::*;
use commands::{encode, stream_of, Script};
use plans::{two_zones, Grid, Plan, Size};
use random::Random;
use std::collections::{BTreeMap, BTreeSet};
use std::io::{self, Write};
use std::{env, fs, path::Path, process};

type Kind = (&'static str, fn(&mut Random, u64) -> Vec<u8>);

const KINDS: [Kind; 12] = [
    ("month", month),
    ("perturbed", perturbed),
    ("spoilt", spoilt),
    ("refused", refused),
    ("full", full),
    ("commands", commands),
    ("block", block),
    ("wide", wide),
    ("extreme", extreme),
    ("cutoff", cutoff),
    ("bytes", bytes),
    ("long", long),
];

const LETTERS: &[u8] = b"ZYKRVHGOBTWCALMQSX";

// ---------------------------------------------------------------------------------------------------------------------
// Months of accepted hours

fn month(random: &mut Random, _: u64) -> Vec<u8> {
    let bytes = random.pick(&[2000, 8000, 20_000, 60_000]);
    let mut script = Script::new();
    let grid = Grid::random(random);
    grid.write(&mut script);
    while script.bytes.len() < bytes && script.clearing.settled() < MOST_HOURS {
        hour(&mut script, random, &grid);
    }
    script.bytes
}

/// One hour with tries by both houses, most of them accepted, and its end. The month must have a place for it.
fn hour(script: &mut Script, random: &mut Random, grid: &Grid) {
    let most_parts = random.pick(&[1, 2, 3, 6]);
    let injections = grid.fitting(random);
    let plan = Plan::new(random, grid, injections, most_parts);
    plan.enter(script, random);
    script.put(b'C', &[random.between(0, 1)]).expect("a place in the month");
    let house = random.between(0, 1);
    plan.fill(script, random, house);
    let tried = script.put(b'Q', &[house]);
    assert!(tried.is_ok(), "a planned sheet is refused: {tried:?}");
    if random.chance(40) {
        move_lambda(script, random, &plan, house);
    }
    if random.chance(40) {
        move_shadow_price(script, random, grid, &plan, house);
    }
    if random.chance(40) {
        trade_places(script, random, &plan, house);
    }
    let mut settling = house;
    if random.chance(30) {
        script.put(b'Q', &[1 - house]).ok();
        plan.fill(script, random, 1 - house);
        move_lambda(script, random, &plan, 1 - house);
        script.put(b'Q', &[1 - house]).expect("the other house's sheet");
        settling = random.between(0, 1);
    }
    if random.chance(10) {
        // Anything, which may even spoil the sheet or end the hour.
        script.put(random.pick(LETTERS), &[random.between(0, 3), random.between(0, 3)]).ok();
    }
    if random.chance(94) {
        script.put(b'S', &[settling]).ok();
    }
    if script.clearing.closed() {
        script.put(b'X', &[settling]).expect("a closed hour");
    }
}

/// Other values of lambda that are right too, up to the edges, and a step beyond them.
fn move_lambda(script: &mut Script, random: &mut Random, plan: &Plan, house: i64) {
    let (back, forth) = plan.room(&vec![1; plan.zone_prices.len()]);
    for step in [back, forth, random.between(back, forth), back - 1, forth + 1, 0] {
        if (plan.lambda + step).abs() <= HIGHEST_LAMBDA {
            script.put(b'L', &[house, plan.lambda + step]).expect("lambda in range");
            let tried = script.put(b'Q', &[house]);
            assert!(tried.is_ok() || !(back..=forth).contains(&step), "lambda {step} away is refused: {tried:?}");
        }
    }
}

/// The same for the shadow price of a line that binds.
fn move_shadow_price(script: &mut Script, random: &mut Random, grid: &Grid, plan: &Plan, house: i64) {
    let priced: Vec<usize> = (0..grid.lines()).filter(|&line| plan.shadow_prices[line] > 0).collect();
    if priced.is_empty() {
        return;
    }
    let line = random.pick(&priced);
    let direction: Vec<i64> = grid.sensitivities[line][..grid.zones].iter().map(|sensitivity| -sensitivity).collect();
    let (back, forth) = plan.room(&direction);
    for step in [back, forth, back - 1, forth + 1, 0] {
        let shadow_price = plan.shadow_prices[line] + step;
        if (0..=HIGHEST_SHADOW_PRICE).contains(&shadow_price) {
            script.put(b'M', &[house, line as i64, shadow_price]).expect("a shadow price in range");
            let tried = script.put(b'Q', &[house]);
            assert!(tried.is_ok() || !(back..=forth).contains(&step), "a shadow price {step} away is refused: {tried:?}");
        }
    }
}

/// Let one order take over from another at the same place, both indifferent: the same outcome in other quantities.
fn trade_places(script: &mut Script, random: &mut Random, plan: &Plan, house: i64) {
    let numbers = plan.numbers();
    for giving in 0..plan.orders.len() {
        let taking = random.below(plan.orders.len());
        let (from, to) = (&plan.orders[giving], &plan.orders[taking]);
        let alike = (from.list, from.zones, from.price) == (to.list, to.zones, to.price);
        let energy = from.quantity.min(to.largest - to.quantity);
        if giving != taking && alike && to.standing && energy > 0 {
            script.put(b'A', &[house, from.list as i64, numbers[giving] as i64, from.quantity - energy]).expect("a fill");
            script.put(b'A', &[house, to.list as i64, numbers[taking] as i64, to.quantity + energy]).expect("a fill");
            script.put(b'Q', &[house]).expect("an equal outcome");
            script.put(b'A', &[house, from.list as i64, numbers[giving] as i64, from.quantity]).expect("a fill");
            script.put(b'A', &[house, to.list as i64, numbers[taking] as i64, to.quantity]).expect("a fill");
        }
    }
}

// ---------------------------------------------------------------------------------------------------------------------
// Sheets that break a rule

type Fills = Vec<(u8, Vec<i64>)>;

/// Right sheets with one or two fills altered at a time.
fn perturbed(random: &mut Random, _: u64) -> Vec<u8> {
    let mut script = Script::new();
    let grid = Grid::random(random);
    grid.write(&mut script);
    for _ in 0..random.between(2, 4) {
        let injections = if random.chance(75) { grid.fitting(random) } else { grid.wild(random) };
        let most_parts = random.pick(&[2, 3, 5]);
        let plan = Plan::new(random, &grid, injections, most_parts);
        plan.enter(&mut script, random);
        perturb(&mut script, random, &grid, &plan, 190);
    }
    script.bytes
}

/// Close the hour, fill a sheet, and try it with alterations; then settle or void.
fn perturb(script: &mut Script, random: &mut Random, grid: &Grid, plan: &Plan, most_tries: usize) {
    script.put(b'C', &[0]).expect("an open hour");
    let house = random.between(0, 1);
    plan.fill(script, random, house);
    script.put(b'Q', &[house]).ok();
    let mut alterations = alterations(random, grid, plan, house);
    random.shuffle(&mut alterations);
    alterations.truncate(most_tries);
    for number in 0..alterations.len() {
        let mut fills = alterations[number].clone();
        if random.chance(20) {
            fills.extend(alterations[random.below(alterations.len())].clone());
        }
        for (letter, operands) in &fills {
            script.put(*letter, operands).expect("a fill in range");
        }
        let refused = script.put(b'Q', &[house]).is_err();
        if refused && random.chance(3) {
            script.put(b'S', &[house]).expect_err("a refused sheet");
        }
        for (letter, operands) in &fills {
            script.put(*letter, &restored(plan, *letter, operands)).expect("a fill in range");
        }
    }
    if script.put(b'S', &[house]).is_err() {
        script.put(b'X', &[house]).expect("a closed hour");
    }
}

/// The fill that undoes this one.
fn restored(plan: &Plan, letter: u8, operands: &[i64]) -> Vec<i64> {
    let mut operands = operands.to_vec();
    let value = match letter {
        b'A' => {
            let numbers = plan.numbers();
            let place = (operands[1] as usize, operands[2] as usize);
            let order = (0..numbers.len()).find(|&order| (plan.orders[order].list, numbers[order]) == place);
            plan.orders[order.expect("a planned order")].quantity
        }
        b'L' => plan.lambda,
        _ => plan.shadow_prices[operands[1] as usize],
    };
    *operands.last_mut().expect("operands") = value;
    operands
}

fn alterations(random: &mut Random, grid: &Grid, plan: &Plan, house: i64) -> Vec<Fills> {
    let numbers = plan.numbers();
    let mut alterations: Vec<Fills> = Vec::new();
    let fill = |order: usize, quantity: i64| {
        let (list, number) = (plan.orders[order].list as i64, numbers[order] as i64);
        (0..=MOST_ENERGY).contains(&quantity).then(|| (b'A', vec![house, list, number, quantity]))
    };

    // Single quantities, at the ends and in the middle of each list.
    for list in [OFFERS, BIDS, TRANSFERS] {
        let orders: Vec<usize> = (0..numbers.len()).filter(|&order| plan.orders[order].list == list).collect();
        if orders.is_empty() {
            continue;
        }
        for place in [0, orders.len() / 2, orders.len() - 1, random.below(orders.len())] {
            let order = orders[place];
            let (largest, quantity) = (plan.orders[order].largest, plan.orders[order].quantity);
            for altered in [largest + 1, largest, 0, quantity + 1, quantity - 1, MOST_ENERGY] {
                alterations.extend(fill(order, altered).map(|fill| vec![fill]));
            }
        }
    }
    // Two quantities that keep the balance: other flows, or only other orders.
    for _ in 0..40 {
        if numbers.is_empty() {
            break;
        }
        let (one, other) = (random.below(numbers.len()), random.below(numbers.len()));
        let change = random.pick(&[-100, -1, 1, 1, 100]);
        let sign = plan.orders[one].imbalance() * plan.orders[other].imbalance();
        let first = fill(one, plan.orders[one].quantity + change);
        let second = fill(other, plan.orders[other].quantity - sign * change);
        if one != other && sign != 0 {
            alterations.extend(first.zip(second).map(|(first, second)| vec![first, second]));
        }
    }
    // Shadow prices, at the ends and anywhere.
    if grid.lines() > 0 {
        let mut places = vec![0, grid.lines() / 2, grid.lines() - 1];
        places.extend((0..8).map(|_| random.below(grid.lines())));
        for line in places {
            let now = plan.shadow_prices[line];
            for altered in [0, 1, now - 1, now + 1, HIGHEST_SHADOW_PRICE] {
                if (0..=HIGHEST_SHADOW_PRICE).contains(&altered) {
                    alterations.push(vec![(b'M', vec![house, line as i64, altered])]);
                }
            }
        }
    }
    // Lambda, near and far.
    let (back, forth) = plan.room(&vec![1; grid.zones]);
    for step in [-1000, -1, 1, 1000, back, back - 1, forth, forth + 1] {
        if (plan.lambda + step).abs() <= HIGHEST_LAMBDA {
            alterations.push(vec![(b'L', vec![house, plan.lambda + step])]);
        }
    }
    alterations.extend([-HIGHEST_LAMBDA, HIGHEST_LAMBDA, 0].map(|lambda| vec![(b'L', vec![house, lambda])]));
    for _ in 0..30 {
        alterations.extend(border_prices(random, grid, plan, house));
    }
    alterations
}

/// Some shadow prices anew, and lambda so that the highest or the lowest zone price is at the edge of its range or just
/// beyond it.
fn border_prices(random: &mut Random, grid: &Grid, plan: &Plan, house: i64) -> Option<Fills> {
    let mut shadow_prices = plan.shadow_prices.clone();
    let mut fills = Vec::new();
    let dear = random.pick(&[10, 1000, HIGHEST_SHADOW_PRICE]);
    for _ in 0..random.between(0, 4) {
        if grid.lines() > 0 {
            let line = random.below(grid.lines());
            shadow_prices[line] = random.between(0, dear);
            fills.push((b'M', vec![house, line as i64, shadow_prices[line]]));
        }
    }
    let premium = |zone: usize| -> i64 {
        -shadow_prices.iter().zip(&grid.sensitivities).map(|(price, line)| price * line[zone]).sum::<i64>()
    };
    let premiums: Vec<i64> = (0..grid.zones).map(premium).collect();
    let beyond = random.pick(&[0, 0, 1, 1000]);
    let lambda = if random.chance(50) {
        HIGHEST_ZONE_PRICE + beyond - premiums.iter().max().expect("a zone")
    } else {
        -HIGHEST_ZONE_PRICE - beyond - premiums.iter().min().expect("a zone")
    };
    fills.push((b'L', vec![house, lambda]));
    (lambda.abs() <= HIGHEST_LAMBDA).then_some(fills)
}

/// Right sheets over orders of which one or two were entered otherwise than planned.
fn spoilt(random: &mut Random, _: u64) -> Vec<u8> {
    let mut script = Script::new();
    let grid = Grid::random(random);
    grid.write(&mut script);
    for _ in 0..random.between(1, 3) {
        let injections = grid.fitting(random);
        let most_parts = random.pick(&[2, 3, 5]);
        let plan = Plan::new(random, &grid, injections, most_parts);
        for list in [OFFERS, BIDS, TRANSFERS] {
            let orders: Vec<usize> = (0..plan.orders.len()).filter(|&order| plan.orders[order].list == list).collect();
            if orders.is_empty() {
                continue;
            }
            for place in [0, orders.len() / 2, orders.len() - 1] {
                let mut entered = plan.clone();
                spoil(random, &mut entered, orders[place]);
                if random.chance(25) {
                    let other = random.below(plan.orders.len());
                    spoil(random, &mut entered, other);
                }
                entered.enter(&mut script, random);
                script.put(b'C', &[1]).expect("an open hour");
                let house = random.between(0, 1);
                plan.fill(&mut script, random, house);
                script.put(b'Q', &[house]).ok();
                if script.put(random.pick(b"SX"), &[house]).is_err() {
                    script.put(b'X', &[house]).expect("a closed hour");
                }
            }
        }
    }
    script.bytes
}

/// Alter an order so that it is most often not content any more, or not possible.
fn spoil(random: &mut Random, plan: &mut Plan, order: usize) {
    let energy: i64 = plan.orders.iter().map(|order| order.largest).sum();
    let spoilt_price = plan.orders[order].spoilt_price(random, &plan.zone_prices);
    let order = &mut plan.orders[order];
    match (random.below(6), spoilt_price) {
        (0, _) if energy < MOST_ENERGY => order.largest += 1,
        (1, _) if order.largest > 1 => order.largest -= 1,
        (2, _) => order.standing = false,
        (_, Some(price)) => order.price = price,
        _ => order.house = 1 - order.house,
    }
}

// ---------------------------------------------------------------------------------------------------------------------
// Refused calls

/// What an operand is.
#[derive(Clone, Copy)]
enum Role {
    House,
    Zones,
    Zone,
    Parent,
    Line,
    List,
    Number,
    Price,
    Quantity,
    Fill,
    Energy,
    Lambda,
    ShadowPrice,
    Sensitivity,
}

fn roles(letter: u8) -> Vec<Role> {
    use Role::*;
    match letter {
        b'Z' | b'Y' => vec![Zones],
        b'K' => vec![Parent, Energy, Energy],
        b'R' | b'V' => [Energy].into_iter().chain([Sensitivity; MOST_ZONES]).collect(),
        b'H' => vec![Line, Energy],
        b'O' | b'B' => vec![House, Zone, Price, Quantity],
        b'T' => vec![House, Zone, Zone, Price, Quantity],
        b'W' => vec![House, List, Number],
        b'A' => vec![House, List, Number, Fill],
        b'L' => vec![House, Lambda],
        b'M' => vec![House, Line, ShadowPrice],
        b'C' | b'Q' | b'S' | b'X' => vec![House],
        _ => vec![],
    }
}

/// Values worth trying: both ends of the range, just beyond, and what the bytes can hold at most.
fn borders(role: Role, clearing: &ClearingBox) -> Vec<i64> {
    let (zones, lines) = (clearing.zones() as i64, clearing.lines() as i64);
    match role {
        Role::House => vec![0, 1, 2, 255],
        Role::Zones => vec![0, 1, 24, 25, 255],
        Role::Zone => vec![0, (zones - 1).max(0), zones, 23, 24, 255],
        Role::Parent => vec![0, lines / 2, lines / 2 + 1, 255],
        Role::Line => vec![0, (lines - 1).max(0), lines, 59, 60, 255],
        Role::List => vec![0, 1, 2, 3, 255],
        Role::Number => {
            let mut numbers: Vec<i64> = (0..3).map(|list| clearing.entered(list) as i64).collect();
            numbers.extend([0, 1, 511, 512, 65_535]);
            numbers
        }
        Role::Price => vec![0, HIGHEST_PRICE, HIGHEST_PRICE + 1, u32::MAX.into()],
        Role::Quantity => vec![0, 1, 2, MOST_ENERGY, MOST_ENERGY + 1, u32::MAX.into()],
        Role::Fill | Role::Energy => vec![0, 1, MOST_ENERGY, MOST_ENERGY + 1, u32::MAX.into()],
        Role::Lambda => {
            let edge = HIGHEST_LAMBDA;
            vec![0, edge, edge + 1, -edge, -edge - 1, i32::MAX.into(), i32::MIN.into()]
        }
        Role::ShadowPrice => vec![0, 1, HIGHEST_SHADOW_PRICE, HIGHEST_SHADOW_PRICE + 1, u32::MAX.into()],
        Role::Sensitivity => vec![0, 1, 1000, 1001, -1000, -1001, i16::MAX.into(), i16::MIN.into()],
    }
}

/// Operands that exist and are in range, as far as the state of the box gives any.
fn valid(letter: u8, clearing: &ClearingBox) -> Vec<i64> {
    let last_zone = (clearing.zones() as i64 - 1).max(0);
    match letter {
        b'Z' | b'Y' => vec![3],
        b'K' => vec![0, 7, 9],
        b'R' | b'V' => {
            let mut row = vec![50; 1];
            row.extend((0..MOST_ZONES as i64).map(|zone| if zone <= last_zone { 10 * zone - 20 } else { 0 }));
            row
        }
        b'H' => vec![0, 3],
        b'O' | b'B' => vec![1, last_zone, 40, 1],
        b'T' => vec![1, 0, last_zone, 40, 1],
        b'W' => vec![0, 0, (clearing.entered(OFFERS) as i64 - 1).max(0)],
        b'A' => vec![0, 1, 0, 1],
        b'L' => vec![0, 1000],
        b'M' => vec![1, 0, 1],
        b'C' | b'Q' | b'S' | b'X' => vec![1],
        _ => vec![],
    }
}

/// Every command in one state of the box, with at most two operands other than valid: which question comes first?
fn refused(random: &mut Random, seed: u64) -> Vec<u8> {
    let mut script = Script::new();
    let state = seed % 14;
    reach(&mut script, random, state);
    let start = script.clone();
    let mut letters = LETTERS.to_vec();
    random.shuffle(&mut letters);
    for letter in letters {
        let roles = roles(letter);
        let mut operand_lists = vec![valid(letter, &script.clearing)];
        let varied: Vec<usize> = if matches!(letter, b'R' | b'V') {
            let zones = script.clearing.zones();
            vec![0, 1, zones.max(1), (zones + 1).min(MOST_ZONES), MOST_ZONES]
        } else {
            (0..roles.len()).collect()
        };
        for &one in &varied {
            for first in borders(roles[one], &script.clearing) {
                let mut operands = valid(letter, &script.clearing);
                operands[one] = first;
                operand_lists.push(operands.clone());
                for &other in varied.iter().filter(|&&other| other > one) {
                    for second in borders(roles[other], &script.clearing) {
                        operands[other] = second;
                        if !matches!(letter, b'R' | b'V') || random.chance(8) {
                            operand_lists.push(operands.clone());
                        }
                    }
                    operands[other] = valid(letter, &script.clearing)[other];
                }
            }
        }
        for operands in operand_lists {
            stay(&mut script, state, letter, operands);
        }
    }
    // Whatever was refused changed nothing: the state still takes what it took at first.
    if state < 6 {
        for letter in [b'K', b'R', b'V', b'H', b'G'] {
            script.put(letter, &valid(letter, &start.clearing)).ok();
        }
    }
    script.bytes
}

/// Put a command, and if it was taken, return to the state.
fn stay(script: &mut Script, state: u64, letter: u8, mut operands: Vec<i64>) {
    if state < 6 && b"ZYKRVHG".contains(&letter) {
        // There is no way back in the block, so what would be taken and lead out of the state is left out.
        let mut ahead = script.clone();
        if ahead.put(letter, &operands).is_ok() && (state, letter) != (5, b'H') {
            return;
        }
    }
    let open = state >= 6 && !script.clearing.closed();
    if open && (0..3).any(|list| script.clearing.entered(list) > 500) && state != 10 {
        script.put(b'C', &[0]).ok();
        script.put(b'X', &[0]).ok();
    }
    if letter == b'W' && open && state != 10 && state != 11 {
        script.put(b'O', &[0, 0, 5, 1]).ok();
        if operands[2] == script.clearing.entered(OFFERS) as i64 - 2 {
            operands[2] += 1;
        }
    }
    let closed = script.clearing.closed();
    let taken = script.put(letter, &operands).is_ok();
    let list = b"OBT".iter().position(|&entering| entering == letter);
    if let (true, Some(list)) = (taken, list) {
        let number = script.clearing.entered(list) as i64 - 1;
        script.put(b'W', &[operands[0], list as i64, number]).expect("the order just entered");
    }
    if script.clearing.closed() && !closed {
        script.put(b'X', &[0]).expect("a closed hour");
    }
    if state >= 6 && closed && !script.clearing.closed() {
        script.put(b'O', &[0, 0, 5, 1]).ok();
        script.put(b'B', &[1, 0, 5, 1]).ok();
        script.put(b'C', &[0]).ok();
    }
}

/// Bring the box to one of 14 states.
fn reach(script: &mut Script, random: &mut Random, state: u64) {
    let zones = random.between(2, 5);
    let tree = random.chance(50);
    match state {
        0 => {}
        1 => {
            script.put(b'Z', &[zones]).expect("a tree");
            for _ in 0..random.between(0, zones - 2) {
                script.put(b'K', &[0, 5, 6]).expect("a link");
            }
        }
        2 => {
            script.put(b'Y', &[zones]).expect("a table");
            script.put(b'R', &valid(b'R', &script.clearing)).expect("a row");
        }
        3 => {
            script.put(b'Y', &[random.pick(&[1, 24])]).expect("a table");
            let lines = random.pick(&[MOST_LINES, MOST_LINES - 3]);
            while script.clearing.lines() < lines {
                script.put(b'R', &valid(b'R', &script.clearing)).expect("a row");
            }
            while script.clearing.lines() < MOST_LINES {
                script.put(b'V', &valid(b'V', &script.clearing)).expect("a row");
            }
        }
        _ => {
            script.put(if tree { b'Z' } else { b'Y' }, &[zones]).expect("a network");
            for _ in 1..zones {
                if tree {
                    script.put(b'K', &[0, 5, 6]).expect("a link");
                } else {
                    script.put(b'R', &valid(b'R', &script.clearing)).expect("a row");
                }
            }
        }
    }
    if state == 4 || state > 5 {
        for _ in 0..random.pick(&[1, MOST_MONITORED]) {
            script.put(b'V', &valid(b'V', &script.clearing)).expect("a monitored row");
        }
    }
    if state == 5 {
        script.put(b'H', &[0, 2]).expect("a line");
    }
    if state < 6 {
        return;
    }
    script.put(b'G', &[]).expect("a complete network");
    if state == 9 {
        for _ in 0..MOST_HOURS {
            script.put(b'C', &[0]).expect("an open hour");
            script.put(b'S', &[1]).expect("an empty hour");
        }
    }
    for _ in 0..3 {
        script.put(b'O', &[random.between(0, 1), 0, 5, 1]).expect("an offer");
        script.put(b'B', &[random.between(0, 1), 1, 5, 1]).expect("a bid");
        script.put(b'T', &[random.between(0, 1), 0, 1, 5, 1]).expect("a transfer");
    }
    match state {
        // Each list full, or all energy taken.
        10 => {
            let list = random.below(3);
            while script.clearing.entered(list) < MOST_ORDERS {
                let (letter, operands) =
                    [(b'O', vec![0, 0, 1, 1]), (b'B', vec![0, 0, 1, 1]), (b'T', vec![0, 0, 1, 1, 1])][list].clone();
                script.put(letter, &operands).expect("an order");
            }
        }
        11 => {
            script.put(b'O', &[0, 0, 5, MOST_ENERGY - 9 - random.between(0, 1)]).expect("an offer");
        }
        7 | 8 => {
            script.put(b'C', &[0]).expect("an open hour");
        }
        12 | 13 => {
            script.put(b'C', &[0]).expect("an open hour");
            for _ in 0..MOST_TRIES {
                script.put(b'Q', &[random.between(0, 1)]).ok();
            }
        }
        _ => {}
    }
}

// ---------------------------------------------------------------------------------------------------------------------
// Full lists, hours and months

fn full(random: &mut Random, seed: u64) -> Vec<u8> {
    let mut script = Script::new();
    script.put(b'Z', &[2]).expect("a tree");
    script.put(b'K', &[0, 1000, 1000]).expect("a link");
    script.put(b'G', &[]).expect("a complete network");
    let order = |list: usize, house: i64, price: i64, quantity: i64| match list {
        OFFERS => (b'O', vec![house, 0, price, quantity]),
        BIDS => (b'B', vec![house, 1, price, quantity]),
        _ => (b'T', vec![house, 1, 0, price, quantity]),
    };
    match seed % 6 {
        // A list of 512, of which some are withdrawn: that leaves no place.
        list @ 0..=2 => {
            let list = list as usize;
            let mut owners = Vec::new();
            for _ in 0..MOST_ORDERS {
                owners.push(random.between(0, 1));
                let (letter, operands) =
                    order(list, owners[owners.len() - 1], random.between(0, 100), random.between(1, 50));
                script.put(letter, &operands).expect("an order");
            }
            for _ in 0..3 {
                for list in 0..3 {
                    let (letter, operands) = order(list, 1, 5, 1);
                    script.put(letter, &operands).ok();
                }
                let number = random.pick(&[0, 255, 256, 511, 512]);
                script.put(b'W', &[owners[number.min(511)], list as i64, number as i64]).ok();
            }
            script.put(b'C', &[0]).expect("an open hour");
            for number in [0, 511, 512, 256, 65_535] {
                script.put(b'A', &[0, list as i64, number, random.pick(&[0, 1, 60])]).ok();
                script.put(b'Q', &[0]).ok();
            }
            script.put(b'L', &[1, random.pick(&[0, 50_000, 100_001, -1])]).ok();
            script.put(b'S', &[1]).ok();
            for list in 0..3 {
                let (letter, operands) = order(list, 1, 5, 1);
                script.put(letter, &operands).ok();
            }
            script.put(b'C', &[1]).ok();
            script.put(b'X', &[1]).ok();
            // A full list in which all but one order are content with nothing.
            let (patient, eager) = [(10, 5), (5, 10), (0, 1)][list];
            let one = random.pick(&[0, 255, 256, 511, 511]);
            for number in 0..MOST_ORDERS {
                let (letter, operands) = order(list, 0, if number == one { eager } else { patient }, 1);
                script.put(letter, &operands).expect("an order");
            }
            script.put(b'C', &[1]).expect("an open hour");
            script.put(b'L', &[0, 8000]).expect("a closed hour");
            script.put(b'S', &[0]).expect_err("an order that wants more");
        }
        // All the energy of an hour, given back and taken again.
        3 => {
            for _ in 0..60 {
                let list = random.below(3);
                let (letter, operands) = order(
                    list,
                    random.between(0, 1),
                    10,
                    random.pick(&[1, 4_999_999, 5_000_000, MOST_ENERGY - 1, MOST_ENERGY]),
                );
                script.put(letter, &operands).ok();
                let (list, number) = (random.below(3), random.between(0, 5));
                script.put(b'W', &[random.between(0, 1), list as i64, number]).ok();
                for list in 0..3 {
                    let (letter, operands) = order(list, 0, 10, random.pick(&[1, 2, 5_000_001]));
                    script.put(letter, &operands).ok();
                }
                if random.chance(5) {
                    script.put(b'C', &[0]).ok();
                    script.put(b'X', &[1]).ok();
                }
            }
        }
        // 200 tries, by both houses, accepted and refused; an hour's end brings new ones.
        4 => {
            for _ in 0..3 {
                script.put(b'O', &[0, 0, 10, 5]).ok();
                script.put(b'B', &[1, 0, 20, 5]).ok();
                script.put(b'C', &[0]).ok();
                for list in 0..2 {
                    script.put(b'A', &[1, list, 0, 5]).ok();
                }
                script.put(b'L', &[1, 15_000]).ok();
                // Calls that do not reach the sheet use up nothing.
                for _ in 0..20 {
                    script.put(random.pick(b"QS"), &[random.pick(&[2, 255])]).ok();
                }
                for _ in 0..random.pick(&[MOST_TRIES - 1, MOST_TRIES]) {
                    let house = random.between(0, 1);
                    script.put(if house == 0 && random.chance(30) { b'S' } else { b'Q' }, &[house]).ok();
                }
                script.put(b'S', &[0]).ok();
                script.put(b'S', &[1]).ok();
                script.put(b'Q', &[1]).ok();
                script.put(b'X', &[1]).ok();
            }
        }
        // 744 settled hours.
        _ => {
            while script.clearing.settled() < MOST_HOURS {
                if random.chance(20) {
                    script.put(b'O', &[random.between(0, 1), 0, 10, 5]).ok();
                    script.put(b'B', &[random.between(0, 1), 0, 20, 5]).ok();
                    script.put(b'C', &[0]).ok();
                    for list in 0..2 {
                        script.put(b'A', &[1, list, 0, 5]).ok();
                    }
                    script.put(b'L', &[1, random.between(10_000, 20_000)]).ok();
                } else {
                    script.put(b'C', &[0]).ok();
                }
                script.put(if random.chance(4) { b'X' } else { b'S' }, &[1]).ok();
            }
            for letter in [b'C', b'O', b'W', b'B', b'C', b'T', b'A', b'Q', b'S', b'X', b'C'] {
                let operands = valid(letter, &script.clearing);
                script.put(letter, &operands).ok();
            }
        }
    }
    script.bytes
}

/// Hours with the largest amounts of money there can be, 744 times.
fn extreme(random: &mut Random, seed: u64) -> Vec<u8> {
    let mut script = Script::new();
    let energy = random.pick(&[MOST_ENERGY, MOST_ENERGY, MOST_ENERGY - 1]);
    let payer = random.between(0, 1);
    script.put(b'Z', &[2]).expect("a tree");
    script.put(b'K', &[0, random.pick(&[0, MOST_ENERGY]), energy]).expect("a link");
    if seed % 2 == 0 {
        // Rows that never bind but where they are held back to nothing, for a rent of many lines.
        for _ in 0..MOST_MONITORED {
            script.put(b'V', &[random.between(0, 9)]).expect("a row");
        }
        for line in 2..2 + MOST_MONITORED as i64 {
            script.put(b'H', &[line, MOST_ENERGY]).expect("a line");
        }
    }
    script.put(b'G', &[]).expect("a complete network");
    for hour in 0..MOST_HOURS + 1 {
        let house = if random.chance(95) { payer } else { 1 - payer };
        let caller = random.between(0, 1);
        if seed % 4 < 2 {
            // A transfer over a line that binds pays its whole worth as rent.
            script.put(b'T', &[house, 0, 1, HIGHEST_PRICE, energy]).expect("a transfer");
            script.put(b'C', &[caller]).ok();
            script.put(b'A', &[caller, 2, 0, energy]).ok();
            script.put(b'L', &[caller, random.pick(&[0, -HIGHEST_ZONE_PRICE, 0, 1])]).ok();
            script.put(b'M', &[caller, 1, random.pick(&[HIGHEST_PRICE, HIGHEST_PRICE, HIGHEST_PRICE - 1, 0])]).ok();
        } else {
            // Dear energy from one house to the other, in one zone.
            let half = energy / 2;
            script.put(b'O', &[1 - house, 1, random.between(0, HIGHEST_PRICE), half]).expect("an offer");
            script.put(b'B', &[house, 1, HIGHEST_PRICE, half]).expect("a bid");
            script.put(b'C', &[caller]).ok();
            script.put(b'A', &[caller, 0, 0, half]).ok();
            script.put(b'A', &[caller, 1, 0, half]).ok();
            script.put(b'L', &[caller, HIGHEST_ZONE_PRICE + random.pick(&[0, 0, 0, 1])]).ok();
        }
        if seed % 2 == 0 && hour % 50 == 0 {
            script.put(b'M', &[caller, 2 + random.between(0, 9), HIGHEST_SHADOW_PRICE]).ok();
        }
        if script.put(b'S', &[caller]).is_err() {
            script.put(b'X', &[caller]).ok();
        }
    }
    script.bytes
}

/// An hour with as many zones, lines and orders as there can be; in some, one order is spoilt.
fn wide(random: &mut Random, seed: u64) -> Vec<u8> {
    let mut script = Script::new();
    let grid = Grid::of_size(random, &Size { zones: MOST_ZONES, most_lines: MOST_LINES });
    grid.write(&mut script);
    let injections = grid.fitting(random);
    let mut plan = Plan::new(random, &grid, injections, 20);
    plan.fill_lists(random, grid.zones);
    if seed % 3 == 0 {
        let orders: Vec<usize> =
            (0..plan.orders.len()).filter(|&order| plan.orders[order].list as u64 == seed / 3 % 3).collect();
        if let [first, .., last] = orders[..] {
            let order = &mut plan.orders[[first, orders[random.below(orders.len())], last][random.below(3)]];
            order.price = order.spoilt_price(random, &plan.zone_prices).unwrap_or(order.price);
        }
    }
    plan.enter(&mut script, random);
    perturb(&mut script, random, &grid, &plan, 150);
    script.bytes
}

// ---------------------------------------------------------------------------------------------------------------------
// Random commands and bytes

/// Commands with random operands, most of them in range, and letters that the state of the box mostly takes.
fn commands(random: &mut Random, _: u64) -> Vec<u8> {
    let mut script = Script::new();
    let faults = random.pick(&[0, 2, 10, 40]);
    let strays = random.pick(&[0, 2, 10, 100]);
    if random.chance(80) {
        small_network(&mut script, random);
    }
    let bytes = random.pick(&[300, 3000, 20_000]);
    while script.bytes.len() < bytes {
        let clearing = &script.clearing;
        let letter = if random.chance(strays) {
            random.pick(LETTERS)
        } else if clearing.zones() == 0 {
            random.pick(b"ZY")
        } else if clearing.closed() {
            random.pick(b"AAAAAAAALLLMMQQQQSSSX")
        } else {
            random.pick(b"OOOBBBTTWCCKRVHG")
        };
        let mut operands: Vec<i64> = roles(letter).iter().map(|&role| operand(random, clearing, role, faults)).collect();
        // Operands that only make sense together.
        let entered: Vec<usize> = (0..3).filter(|&list| clearing.entered(list) > 0).collect();
        if b"AW".contains(&letter) && !entered.is_empty() && !random.chance(faults) {
            let list = random.pick(&entered);
            operands[1] = list as i64;
            operands[2] = random.below(clearing.entered(list)) as i64;
        }
        if letter == b'T' && clearing.zones() > 1 && !random.chance(faults) {
            let (first, second) = two_zones(random, clearing.zones());
            operands[1] = first as i64;
            operands[2] = second as i64;
        }
        script.put(letter, &operands).ok();
    }
    script.bytes
}

fn small_network(script: &mut Script, random: &mut Random) {
    let zones = random.between(1, 3);
    if random.chance(60) {
        script.put(b'Z', &[zones]).expect("a tree");
        for _ in 1..zones {
            script.put(b'K', &[0, random.between(0, 3), random.between(0, 3)]).expect("a link");
        }
    } else {
        script.put(b'Y', &[zones]).expect("a table");
        for _ in 0..random.between(0, 3) {
            let mut row = vec![random.between(0, 2)];
            row.extend((0..zones).map(|_| 500 * random.between(-2, 2)));
            script.put(b'R', &row).expect("a row");
        }
    }
    script.put(b'G', &[]).expect("a complete network");
}

/// A value for an operand: at a border of its range or out of it in so many of 100 cases, else small and likely to fit.
fn operand(random: &mut Random, clearing: &ClearingBox, role: Role, faults: u64) -> i64 {
    if random.chance(faults) {
        return random.pick(&borders(role, clearing));
    }
    let below = |random: &mut Random, count: usize| random.below(count.max(1)) as i64;
    match role {
        Role::House => random.between(0, 1),
        Role::Zones => random.between(1, 4),
        Role::Zone => below(random, clearing.zones()),
        Role::Parent => below(random, clearing.lines() / 2 + 1),
        Role::Line => below(random, clearing.lines()),
        Role::List => random.between(0, 2),
        Role::Number => {
            let entered = (0..3).map(|list| clearing.entered(list)).max().unwrap_or(0);
            below(random, entered)
        }
        Role::Price => random.between(0, 3),
        Role::Quantity => random.pick(&[1, 1, 2]),
        Role::Fill => random.pick(&[0, 1, 1, 2]),
        Role::Energy => random.between(0, 4),
        Role::Lambda => random.pick(&[0, 1000, 1000, 1000, 2000, 2000, 3000, 500, -1000]),
        Role::ShadowPrice => random.between(0, 2),
        Role::Sensitivity => random.pick(&[0, 0, 0, 1000, -1000, 500]),
    }
}

/// Random bytes, random letters of commands, or a right stream with some bytes altered.
fn bytes(random: &mut Random, seed: u64) -> Vec<u8> {
    match seed % 4 {
        0 => (0..random.between(0, 200)).map(|_| random.next() as u8).collect(),
        1 => (0..random.between(0, 3000)).map(|_| random.pick(LETTERS)).collect(),
        2 => (0..random.between(0, 3000))
            .map(|_| random.pick(b"ZYKRVHGOBTWCALMQSX\0\0\0\0\0\0\0\0\0\0\0\0\x01\x02"))
            .collect(),
        _ => {
            let mut stream = month(random, seed);
            stream.truncate(20_000);
            for _ in 0..random.between(1, 6) {
                let place = random.below(stream.len());
                match random.below(4) {
                    0 => stream[place] = random.next() as u8,
                    1 => stream[place] ^= 1 << random.below(8),
                    2 => {
                        stream.remove(place);
                    }
                    _ => stream.insert(place, random.pick(LETTERS)),
                }
            }
            stream
        }
    }
}

// ---------------------------------------------------------------------------------------------------------------------
// The length of a stream

/// A month that ends anywhere.
fn cutoff(random: &mut Random, seed: u64) -> Vec<u8> {
    let mut stream = month(random, seed);
    stream.truncate(3000);
    stream.truncate(random.below(stream.len() + 1));
    stream
}

/// A stream around or beyond the length that is read, with any command at the cut.
fn long(random: &mut Random, seed: u64) -> Vec<u8> {
    let mut script = Script::new();
    let grid = Grid::random(random);
    grid.write(&mut script);
    let beyond = random.pick(&[0, 100, 10_000, 100_000]);
    let bytes = if seed % 3 == 0 { LONGEST_STREAM + beyond } else { 60_000 };
    while script.bytes.len() < bytes {
        if script.clearing.settled() < MOST_HOURS {
            hour(&mut script, random, &grid);
        } else {
            script.put(b'O', &[0, 0, 0, 1]).ok();
        }
    }
    if seed % 3 == 0 {
        return script.bytes;
    }
    if random.chance(50) {
        script.put(b'C', &[0]).ok();
    }
    script.bytes.truncate(LONGEST_STREAM - 200);
    let mut stream = whole_commands(&script.bytes);
    let letter = LETTERS[seed as usize % LETTERS.len()];
    let command = encode(letter, &valid(letter, &script.clearing));
    let before_cut = random.below(command.len() + 1);
    stream.resize(LONGEST_STREAM - before_cut, b'G');
    stream.extend(command);
    stream.extend(random.pick(&[&b""[..], b"G", b"\0", b"C\0Q\0S\0"]));
    stream
}

/// The stream up to the end of its last whole command.
fn whole_commands(stream: &[u8]) -> Vec<u8> {
    let mut end = 0;
    while let Some(spelling) = stream.get(end).and_then(|&letter| spelling(letter)) {
        let next = end + 1 + spelling.iter().map(|operand| operand.width()).sum::<usize>();
        if next > stream.len() {
            break;
        }
        end = next;
    }
    stream[..end].to_vec()
}

/// Every command, and every kind of answer but the rare ones, in few bytes.
fn every_command() -> Vec<u8> {
    stream_of(
        "Z 2; Y 3; K 0 40 30; R 5; V 1000 500 -500; H 2 7; G; \
         O 0 0 3000 100; O 0 1 5000 50; B 1 1 9000 60; T 1 0 1 2 10; W 1 2 0; C 0; \
         A 0 0 0 30; A 0 0 1 30; A 0 1 0 60; L 0 3000000; M 0 1 2000; Q 0; S 0; \
         C 1; X 0; T 0 1 0 1 1",
    )
}

// ---------------------------------------------------------------------------------------------------------------------
// Networks

/// A network block with faults, and probes of what it made.
fn block(random: &mut Random, seed: u64) -> Vec<u8> {
    let mut script = Script::new();
    let faults = random.pick(&[0, 3, 15]);
    stray_block_commands(&mut script, random, faults, 5);
    // In every third network only one line has a limit that matters, so that it is named wherever it stands.
    let alone = (seed % 3 == 1).then(|| [0, MOST_LINES - 1, random.below(MOST_LINES)][(seed / 3 % 3) as usize]);
    let limit = |random: &mut Random, line: usize| match alone {
        Some(alone) if alone != line => MOST_ENERGY,
        Some(_) => random.between(0, 1000),
        None => any_energy(random),
    };
    let tree = alone.is_none() && random.chance(50);
    let zones = if seed % 4 == 0 { 24 } else { random.between(1, 24) };
    script.put(if tree { b'Z' } else { b'Y' }, &[zones]).ok();
    let zones = script.clearing.zones();
    // More than fit, of either kind of row.
    let rows = match (tree, alone) {
        (true, _) => zones - 1,
        (false, Some(_)) => random.pick(&[50, 61]),
        (false, None) => random.pick(&[0, 3, 50, 53, 61]),
    };
    for link in 0..rows {
        stray_block_commands(&mut script, random, faults, 1);
        let line = script.clearing.lines();
        if tree {
            script.put(b'K', &[random.between(0, link as i64), limit(random, line), limit(random, line + 1)]).ok();
        } else {
            let limit = limit(random, line);
            script.put(b'R', &random_row(random, zones, limit, faults)).ok();
        }
    }
    while tree && script.clearing.lines() < 2 * (zones - 1) {
        script.put(b'K', &[0, any_energy(random), any_energy(random)]).ok();
    }
    let monitored = if alone.is_some() { 11 } else { random.pick(&[0, 1, 5, 11]) };
    for _ in 0..monitored {
        stray_block_commands(&mut script, random, faults, 1);
        let limit = limit(random, script.clearing.lines());
        script.put(b'V', &random_row(random, zones, limit, faults)).ok();
    }
    for _ in 0..random.pick(&[0, 1, 20]) {
        stray_block_commands(&mut script, random, faults, 1);
        let line = alone.unwrap_or(random.below(script.clearing.lines() + 1));
        script.put(b'H', &[line as i64, any_energy(random)]).ok();
    }
    script.put(b'G', &[]).ok();
    stray_block_commands(&mut script, random, faults.max(3), 10);
    probe(&mut script, random, alone);
    script.bytes
}

fn any_energy(random: &mut Random) -> i64 {
    random.pick(&[0, 1, 40, 1000, MOST_ENERGY]).min(random.between(0, MOST_ENERGY))
}

fn random_row(random: &mut Random, zones: usize, limit: i64, faults: u64) -> Vec<i64> {
    let grain = random.pick(&[1, 100, 1000]);
    let mut row = vec![limit];
    row.extend((0..zones).map(|_| grain * random.between(-1000 / grain, 1000 / grain)));
    row.resize(1 + MOST_ZONES, 0);
    if random.chance(faults) {
        let place = random.pick(&[1, zones, (zones + 1).min(MOST_ZONES), MOST_ZONES]);
        row[place] = random.pick(&[1, 1001, -1001, 32_767, -32_768]);
    }
    if random.chance(faults) {
        row[0] = MOST_ENERGY + 1;
    }
    row
}

/// Commands that the block may or may not take now; what it takes goes on with the block in its own way.
fn stray_block_commands(script: &mut Script, random: &mut Random, faults: u64, count: usize) {
    for _ in 0..count {
        if random.chance(faults) {
            let letter = random.pick(LETTERS);
            let operands: Vec<i64> = roles(letter).iter().map(|&role| operand(random, &script.clearing, role, 30)).collect();
            // A network without zones, or one opened too early, would end the matter.
            let mut ahead = script.clone();
            let taken = ahead.put(letter, &operands).is_ok();
            if !taken || !b"ZYG".contains(&letter) {
                script.put(letter, &operands).ok();
            }
        }
    }
}

/// Find out the limits by flows just within and just beyond them, and the sensitivities by zone prices in the same way;
/// most often of the one line that matters, if there is one.
fn probe(script: &mut Script, random: &mut Random, alone: Option<usize>) {
    let lines = script.clearing.network().lines.clone();
    let zones = script.clearing.zones();
    if zones < 2 || lines.is_empty() {
        script.put(b'C', &[0]).ok();
        script.put(b'S', &[0]).ok();
        return;
    }
    for _ in 0..4 {
        let pair = two_zones(random, zones);
        let price = random.between(0, 1000);
        script.put(b'T', &[0, pair.0 as i64, pair.1 as i64, price, MOST_ENERGY]).ok();
        script.put(b'C', &[0]).ok();
        for _ in 0..30 {
            let number = alone.filter(|&line| line < lines.len() && random.chance(60)).unwrap_or(random.below(lines.len()));
            let line = &lines[number];
            let rate = line.sensitivities[pair.0] - line.sensitivities[pair.1];
            if rate > 0 && 1000 * line.left() / rate < MOST_ENERGY {
                let energy = 1000 * line.left() / rate;
                for energy in [energy, energy + 1] {
                    script.put(b'A', &[0, 2, 0, energy]).ok();
                    script.put(b'Q', &[0]).ok();
                }
                // If the line binds exactly, its shadow price can make the transfer indifferent.
                script.put(b'A', &[0, 2, 0, energy]).ok();
                if 1000 * price % rate == 0 {
                    script.put(b'M', &[0, number as i64, 1000 * price / rate]).ok();
                    script.put(b'Q', &[0]).ok();
                    script.put(b'M', &[0, number as i64, 0]).ok();
                }
                script.put(b'A', &[0, 2, 0, 0]).ok();
            }
            let zone = random.below(zones);
            let shadow_price = random.pick(&[1, 1000, 500_000]);
            script.put(b'M', &[0, number as i64, shadow_price]).ok();
            for lambda in [HIGHEST_ZONE_PRICE, HIGHEST_ZONE_PRICE + 1, -HIGHEST_ZONE_PRICE, -HIGHEST_ZONE_PRICE - 1] {
                script.put(b'L', &[0, lambda + shadow_price * line.sensitivities[zone]]).ok();
                script.put(b'Q', &[0]).ok();
            }
            script.put(b'M', &[0, number as i64, 0]).ok();
            script.put(b'L', &[0, 0]).ok();
        }
        script.put(b'X', &[0]).ok();
    }
}

// ---------------------------------------------------------------------------------------------------------------------
// The program

fn make(kind: &Kind, seed: u64) -> Vec<u8> {
    let salt = kind.0.bytes().fold(0, |salt: u64, byte| salt.wrapping_mul(257) + u64::from(byte));
    kind.1(&mut Random::new(seed ^ (salt << 20)), seed)
}

/// All kinds in turn, the next seed after each round.
fn in_turn(seed: u64, count: u64) -> impl Iterator<Item = (&'static Kind, u64)> {
    let kinds = KINDS.len() as u64;
    (0..count).map(move |number| (&KINDS[(number % kinds) as usize], seed + number / kinds))
}

#[derive(Default)]
struct Statistics {
    streams: usize,
    bytes: usize,
    /// Settled hours in which someone traded, and those of them with a congestion rent.
    traded: usize,
    congested: usize,
    /// The account farthest from 0.
    largest_account: i128,
    /// By letter and answer.
    answers: BTreeMap<(char, String), usize>,
    /// The places at which each rule of the sheet was broken first.
    places: BTreeMap<u32, BTreeMap<(usize, usize), usize>>,
}

impl Statistics {
    fn add(&mut self, stream: &[u8]) {
        self.streams += 1;
        self.bytes += stream.len();
        let mut accounts = 0;
        for line in answers(stream).lines() {
            let words: Vec<&str> = line.split(' ').collect();
            let letter = words[1].chars().next().expect("a letter");
            let answer = if words[2] == "refused" { words[3] } else { words[2] };
            *self.answers.entry((letter, answer.to_string())).or_default() += 1;
            if words[2] == "refused" && words[3].parse::<u32>().expect("a number") >= 10 {
                let place = (words[4].parse().expect("a place"), words[5].parse().expect("a place"));
                *self.places.entry(words[3].parse().expect("a number")).or_default().entry(place).or_default() += 1;
            }
            if words[2] == "accepted" {
                // What the houses pay together is the congestion rent.
                let numbers: Vec<i128> = words[3..].iter().map(|word| word.parse().expect("a number")).collect();
                let rent = if letter == 'S' { numbers[1] } else { 0 };
                self.traded += usize::from(letter == 'S' && numbers[0] > 0);
                self.congested += usize::from(rent > 0);
                self.largest_account = self.largest_account.max(numbers[2].abs()).max(numbers[3].abs());
                assert_eq!(numbers[2] + numbers[3], accounts + rent, "the accounts lose money: {line}");
                accounts = numbers[2] + numbers[3];
            }
        }
    }

    fn print(&self) {
        println!("{} streams, {} bytes", self.streams, self.bytes);
        println!("settled with trade {}, with congestion rent {}", self.traded, self.congested);
        println!("largest account {}", self.largest_account);
        let columns: Vec<String> =
            ["ok", "accepted"].into_iter().map(String::from).chain((1..=15).map(|number| number.to_string())).collect();
        let letters: BTreeSet<char> = self.answers.keys().map(|&(letter, _)| letter).collect();
        let print_row = |name: &str, cell: &dyn Fn(&String) -> usize| {
            print!("{name:>5}");
            for column in &columns {
                match cell(column) {
                    0 => print!("{:>9}", "."),
                    count => print!("{count:>9}"),
                }
            }
            println!();
        };
        print!("{:>5}", "");
        for column in &columns {
            print!("{column:>9}");
        }
        println!();
        for &letter in &letters {
            print_row(&letter.to_string(), &|column| self.answers.get(&(letter, column.clone())).copied().unwrap_or(0));
        }
        print_row("all", &|column| {
            letters.iter().map(|&letter| self.answers.get(&(letter, column.clone())).copied().unwrap_or(0)).sum()
        });
        for (rule, places) in &self.places {
            let mut by_list: BTreeMap<usize, usize> = BTreeMap::new();
            for &(first, _) in places.keys() {
                *by_list.entry(first).or_default() += 1;
            }
            match rule {
                10 | 15 => println!("rule {rule} is broken first at {} places: by list {by_list:?}", places.len()),
                _ => println!(
                    "rule {rule} is broken first at {} places, of {:?}",
                    places.len(),
                    by_list.keys().next().zip(by_list.keys().last())
                ),
            }
        }
    }
}

fn usage() -> ! {
    eprintln!("usage: generate KIND SEED | --set DIR SEED COUNT | --cuts DIR | --kinds");
    eprintln!("     | --stats SEED COUNT | --stats-of KIND SEED COUNT");
    eprintln!("kinds: {}", KINDS.map(|(name, _)| name).join(" "));
    process::exit(2)
}

fn kind_of(name: &str) -> &'static Kind {
    KINDS.iter().find(|(kind, _)| *kind == name).unwrap_or_else(|| usage())
}

fn number_of(word: &str) -> u64 {
    word.parse().unwrap_or_else(|_| usage())
}

fn main() -> io::Result<()> {
    let words: Vec<String> = env::args().skip(1).collect();
    match words.iter().map(String::as_str).collect::<Vec<_>>()[..] {
        ["--set", directory, seed, count] => {
            for (kind, seed) in in_turn(number_of(seed), number_of(count)) {
                fs::write(Path::new(directory).join(format!("{}-{seed}", kind.0)), make(kind, seed))?;
            }
        }
        ["--cuts", directory] => {
            let stream = every_command();
            for length in 0..=stream.len() {
                fs::write(Path::new(directory).join(format!("cut-{length}")), &stream[..length])?;
            }
        }
        ["--kinds"] => println!("{}", KINDS.map(|(name, _)| name).join(" ")),
        ["--stats", seed, count] => {
            let mut statistics = Statistics::default();
            for (kind, seed) in in_turn(number_of(seed), number_of(count)) {
                statistics.add(&make(kind, seed));
            }
            statistics.print();
        }
        ["--stats-of", name, seed, count] => {
            let mut statistics = Statistics::default();
            for number in 0..number_of(count) {
                statistics.add(&make(kind_of(name), number_of(seed) + number));
            }
            statistics.print();
        }
        [name, seed] => io::stdout().write_all(&make(kind_of(name), number_of(seed)))?,
        _ => usage(),
    }
    Ok(())
}
