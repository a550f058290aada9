//! Commands, answers and places in words, with their units.

#![allow(dead_code)] // each program that includes this module uses a part of it

use crate::answers::{Consent, Order, Refusal, BIDS, OFFERS};
use crate::record::{Entry, Replay};

// ---------------------------------------------------------------------------------------------------------------------
// Numbers

/// A number with commas, as the documents write them: 3000, but 10,000.
pub fn grouped(number: impl Into<i128>) -> String {
    let number: i128 = number.into();
    let digits = number.unsigned_abs().to_string();
    let mut written = String::new();
    for (place, digit) in digits.chars().enumerate() {
        if digits.len() > 4 && place > 0 && (digits.len() - place) % 3 == 0 {
            written.push(',');
        }
        written.push(digit);
    }
    if number < 0 {
        written.insert(0, '-');
    }
    written
}

/// A number of parts, of which so many powers of ten make a whole, as a decimal fraction.
pub fn decimal(parts: impl Into<i128>, power: u32) -> String {
    let parts: i128 = parts.into();
    let whole = 10i128.pow(power);
    let fraction = format!("{:0width$}", parts.abs() % whole, width = power as usize);
    let fraction = fraction.trim_end_matches('0');
    let sign = if parts < 0 { "-" } else { "" };
    let point = if fraction.is_empty() { "" } else { "." };
    format!("{sign}{}{point}{fraction}", grouped(parts.abs() / whole))
}

/// Money of the accounts, which they hold in millionths of a cent.
pub fn cents(millionths: impl Into<i128>) -> String {
    format!("{} cents", decimal(millionths, 6))
}

// ---------------------------------------------------------------------------------------------------------------------
// Things

const LIST_NAMES: [&str; 3] = ["offer", "bid", "transfer"];

pub fn order_name(list: usize, number: usize) -> String {
    match LIST_NAMES.get(list) {
        Some(name) => format!("{name} {number}"),
        None => format!("order {number} of list {list}"),
    }
}

/// What an order says.
pub fn order(list: usize, order: &Order) -> String {
    let (house, price, energy) = (order.house as i64, order.worth.abs(), order.largest);
    let zone = |zone: Option<usize>| zone.map_or(0, |zone| zone as i64);
    match list {
        OFFERS => offer(house, zone(order.fed), price, energy),
        BIDS => bid(house, zone(order.drawn), price, energy),
        _ => transfer(house, zone(order.fed), zone(order.drawn), price, energy),
    }
}

fn offer(house: i64, zone: i64, price: i64, energy: i64) -> String {
    format!("house {house} offers {} in zone {zone} at {}", kwh(energy), per_mwh(price))
}

fn bid(house: i64, zone: i64, price: i64, energy: i64) -> String {
    format!("house {house} bids for {} in zone {zone} at {}", kwh(energy), per_mwh(price))
}

fn transfer(house: i64, first: i64, second: i64, price: i64, energy: i64) -> String {
    format!("house {house} transfers {} into zone {first}, out of zone {second}, at {}", kwh(energy), per_mwh(price))
}

pub fn kwh(energy: i64) -> String {
    format!("{} kWh", grouped(energy))
}

pub fn per_mwh(price: i64) -> String {
    format!("{} {} per MWh", grouped(price), if price == 1 { "cent" } else { "cents" })
}

pub fn line(replay: &Replay, line: usize) -> String {
    match replay.ends(line) {
        Some((from, to)) => format!("line {line}, from zone {from} to zone {to}"),
        None => format!("line {line}"),
    }
}

// ---------------------------------------------------------------------------------------------------------------------
// Commands

/// A command whose operands are all there, as a sentence that names them.
pub fn command(letter: u8, operands: &[i64]) -> String {
    match (letter, operands) {
        (b'Z', [zones]) => format!("a tree of {zones} zones"),
        (b'Y', [zones]) => format!("a table over {zones} zones"),
        (b'K', &[parent, to_parent, to_child]) => {
            format!("the next zone's link: {} to its parent, zone {parent}, {} from it", kwh(to_parent), kwh(to_child))
        }
        (b'R', [limit, sensitivities @ ..]) => format!("a row: {}", row(*limit, sensitivities)),
        (b'V', [limit, sensitivities @ ..]) => format!("a monitored row: {}", row(*limit, sensitivities)),
        (b'H', &[line, energy]) => format!("hold back {} on line {line}", kwh(energy)),
        (b'G', []) => "open the box".to_string(),
        (b'O', &[house, zone, price, energy]) => offer(house, zone, price, energy),
        (b'B', &[house, zone, price, energy]) => bid(house, zone, price, energy),
        (b'T', &[house, first, second, price, energy]) => transfer(house, first, second, price, energy),
        (b'W', &[house, list, number]) => format!("house {house} withdraws {}", named_order(list, number)),
        (b'C', [house]) => format!("house {house} closes the hour"),
        (b'A', &[house, list, number, energy]) => {
            format!("house {house} fills in {} for {}", kwh(energy), named_order(list, number))
        }
        (b'L', &[house, lambda]) => {
            format!("house {house} fills in lambda {} ({} cents per MWh)", grouped(lambda), decimal(lambda, 3))
        }
        (b'M', &[house, line, price]) => {
            format!("house {house} fills in a shadow price of {} for line {line}", per_mwh(price))
        }
        (b'Q', [house]) => format!("house {house} tries its sheet"),
        (b'S', [house]) => format!("house {house} settles the hour by its sheet"),
        (b'X', [house]) => format!("house {house} voids the hour"),
        _ => unreachable!("operands as the spelling says"),
    }
}

fn named_order(list: i64, number: i64) -> String {
    order_name(list as usize, number as usize)
}

/// Most sensitivities of a row are 0: only the others are told.
fn row(limit: i64, sensitivities: &[i64]) -> String {
    let told: Vec<String> = (0..sensitivities.len())
        .filter(|&zone| sensitivities[zone] != 0)
        .map(|zone| format!("zone {zone} {}", sensitivities[zone]))
        .collect();
    let told = if told.is_empty() { "none".to_string() } else { told.join(", ") };
    format!("limit {}, sensitivities in thousandths: {told}", kwh(limit))
}

// ---------------------------------------------------------------------------------------------------------------------
// Answers

/// A refusal with its number, its place where it names one, and what they mean.
pub fn refusal(letter: u8, refusal: Refusal) -> String {
    let Refusal { number, place: (first, second) } = refusal;
    match number {
        10 | 15 => {
            format!("refused {number} at {first} {second}: {} ({})", broken(letter, number), order_name(first, second))
        }
        12 | 14 => format!("refused {number} at {first} {second}: {} (line {first})", broken(letter, number)),
        13 => format!("refused {number} at {first} {second}: {} (zone {first})", broken(letter, number)),
        _ => format!("refused {number}: {}", broken(letter, number)),
    }
}

/// What a no to a question means, as far as the letter of the command tells.
fn broken(letter: u8, number: u8) -> &'static str {
    match (number, letter) {
        (1, _) => "the byte names no command",
        (2, _) => "operands are missing",
        (3, _) => "the house is neither 0 nor 1",
        (4, b'O' | b'B' | b'T' | b'W' | b'C') => "there is no open hour now",
        (4, b'A' | b'L' | b'M' | b'Q' | b'S' | b'X') => "there is no closed hour now",
        (4, _) => "the network block does not allow this now",
        (5, b'Z' | b'Y') => "a network has 1 to 24 zones",
        (5, b'K') => "the parent is not a smaller zone",
        (5, b'R' | b'V') => "a sensitivity for a zone that the network lacks is not 0",
        (5, b'H' | b'M') => "there is no such line",
        (5, b'O' | b'B') => "there is no such zone",
        (5, b'T') => "a zone does not exist, or both are the same",
        (5, b'W' | b'A') => "no such order was entered in this hour",
        (5, _) => "something that it names does not exist",
        (6, b'K') => "a limit is out of range",
        (6, b'R' | b'V') => "the limit or a sensitivity is out of range",
        (6, b'H') => "the kWh held back are out of range",
        (6, b'O' | b'B' | b'T') => "the price or the quantity is out of range",
        (6, b'A') => "the quantity is out of range",
        (6, b'L') => "lambda is out of range",
        (6, b'M') => "the shadow price is out of range",
        (6, _) => "a number is out of range",
        (7, _) => "the order is not the house's own, or no longer stands",
        (8, b'O' | b'B' | b'T') => "no place is left: 512 orders in the list, or 10,000,000 kWh standing",
        (8, b'R') => "no place is left: 60 lines",
        (8, b'V') => "no place is left: 60 lines, or 10 monitored rows",
        (8, b'C') => "no place is left: 744 hours are settled",
        (8, _) => "no place is left",
        (9, _) => "200 tries were made in this hour",
        (10, _) => "an order takes more than it can",
        (11, _) => "the net injections do not add up to 0",
        (12, _) => "a flow is above the line's limit",
        (13, _) => "a zone price is out of range",
        (14, _) => "a line with a shadow price is not at its limit",
        (15, _) => "an order is not content",
        _ => "a question without a name",
    }
}

/// The program's answer in words. The state is that before the command.
pub fn answer(entry: &Entry, before: &Replay) -> String {
    match entry.answer {
        Ok(Consent::Done) => {
            let clearing = &before.clearing;
            match entry.letter {
                b'K' => {
                    let (zone, line) = (before.parents.len() + 1, clearing.lines());
                    format!("ok: zone {zone}, lines {line} and {}", line + 1)
                }
                b'R' | b'V' => format!("ok: line {}", clearing.lines()),
                b'O' => format!("ok: {}", order_name(0, clearing.entered(0))),
                b'B' => format!("ok: {}", order_name(1, clearing.entered(1))),
                b'T' => format!("ok: {}", order_name(2, clearing.entered(2))),
                _ => "ok".to_string(),
            }
        }
        Ok(Consent::Accepted { .. }) => entry.printed.clone(),
        Err(no) => refusal(entry.letter, no),
    }
}

/// More about an answer: the money of an accepted sheet, or what a refusal's place is. The state is that before the
/// command.
pub fn details(entry: &Entry, before: &Replay) -> Vec<String> {
    match entry.answer {
        Ok(Consent::Done) => Vec::new(),
        Ok(Consent::Accepted { welfare, rent, accounts }) => {
            let account = |house: usize| match accounts[house].signum() {
                1 => format!("house {house} has paid {}", cents(accounts[house])),
                -1 => format!("house {house} was paid {}", cents(-accounts[house])),
                _ => format!("house {house} is at 0 cents"),
            };
            vec![
                format!("welfare {} cents, congestion rent {}", decimal(welfare, 3), cents(rent)),
                format!("accounts after it: {}, {}", account(0), account(1)),
            ]
        }
        Err(Refusal { number: 10 | 15, place: (list, number) }) => {
            let entered = before.clearing.lists().get(list).and_then(|orders| orders.get(number));
            let quantity = entry.judged().and_then(|house| {
                before.clearing.sheet(house).quantities.get(list).and_then(|quantities| quantities.get(number))
            });
            match (entered, quantity) {
                (Some(entered), Some(&quantity)) => {
                    let withdrawn = if entered.standing { "" } else { " (withdrawn)" };
                    let name = order_name(list, number);
                    vec![format!("{name}: {}{withdrawn}; the sheet gives it {}", order(list, entered), kwh(quantity))]
                }
                _ => Vec::new(),
            }
        }
        Err(Refusal { number: 12 | 14, place: (number, _) }) => match before.clearing.network().lines.get(number) {
            Some(limited) => vec![format!("{}: {} at most", line(before, number), kwh(limited.left()))],
            None => Vec::new(),
        },
        Err(_) => Vec::new(),
    }
}
