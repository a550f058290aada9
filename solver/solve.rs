//! Between the box and an LP solver, for `solver/solve`:
//!
//!     solve lp STREAM LINES                     the dispatch problem of the open hour, in CPLEX's LP format
//!     solve sheet STREAM LINES SOLUTION HOUSE   the house's sheet, as readable commands, from what glpsol -w wrote
//!     solve verdict STREAM LINES                the program's last line in words, as comments; exit status 1 if it refuses
//!
//! STREAM is a file with a stream, LINES one with what the proved program printed for it.
//!
//! The dispatch problem is the auction's: the largest worth of all standing orders, each between 0 and its largest
//! quantity, with net injections that add up to 0 and each flow within its line's limit. Worth is in thousandths of a
//! cent, flows are in thousandths of a kWh, so all coefficients are whole numbers and an exact solver stays exact.
//!
//! The dual of a row is what the worth gains for one more on its right side. Asking for one more kWh of net injection
//! costs what a kWh is worth in the reference zone: lambda is minus the dual of the balance. One more thousandth of a
//! kWh on a line gains its shadow price. Duals are thousandths of a cent for a kWh, which is a cent per MWh, or for a
//! thousandth of one; lambda is in thousandths of a cent per MWh, shadow prices are in cents per MWh. So both are 1000
//! times the dual.

#[path = "../second/answers.rs"]
mod answers;
#[path = "../second/record.rs"]
mod record;
#[path = "../second/wording.rs"]
mod wording;

use answers::{Line, Order};
use record::{record, Entry, Replay};
use std::fmt::Write;
use std::{env, fs, process};

const LISTS: [&str; 3] = ["offer", "bid", "transfer"];

fn main() {
    let arguments: Vec<String> = env::args().skip(1).collect();
    let arguments: Vec<&str> = arguments.iter().map(String::as_str).collect();
    let told = match arguments.as_slice() {
        ["lp", stream, lines] => read(stream, lines).and_then(|entries| problem(&open_hour(&entries)?)),
        ["sheet", stream, lines, solution, house] => read(stream, lines).and_then(|entries| {
            let solution = fs::read_to_string(solution).map_err(|error| error.to_string())?;
            sheet(&open_hour(&entries)?, &solution, house)
        }),
        ["verdict", stream, lines] => read(stream, lines).and_then(|entries| verdict(&entries)),
        _ => Err("usage: solve lp|sheet|verdict STREAM LINES [SOLUTION HOUSE]".to_string()),
    };
    match told {
        Ok(told) => print!("{told}"),
        Err(error) => {
            eprintln!("solve: {error}");
            process::exit(2);
        }
    }
}

fn read(stream: &str, lines: &str) -> Result<Vec<Entry>, String> {
    let stream = fs::read(stream).map_err(|error| error.to_string())?;
    let lines = fs::read_to_string(lines).map_err(|error| error.to_string())?;
    record(&stream, &lines)
}

/// The box after all commands, if its hour is open for orders.
fn open_hour(entries: &[Entry]) -> Result<Replay, String> {
    let mut replay = Replay::default();
    for entry in entries {
        if let Err(no) = entry.answer {
            eprintln!("at offset {}, {}: {}", entry.offset, entry.letter as char, wording::refusal(entry.letter, no));
        }
        replay.follow(entry)?;
    }
    let opened = entries.iter().any(|entry| entry.letter == b'G' && entry.answer.is_ok());
    if !opened || replay.clearing.closed() {
        return Err("the file must end with an open hour: after G and the orders, before C".to_string());
    }
    Ok(replay)
}

/// The standing orders, each with its list and number: these are the columns of the problem, in this order.
fn standing(replay: &Replay) -> Vec<(usize, usize, &Order)> {
    let lists = replay.clearing.lists().iter().enumerate();
    lists
        .flat_map(|(list, orders)| orders.iter().enumerate().map(move |(number, order)| (list, number, order)))
        .filter(|(_, _, order)| order.standing)
        .collect()
}

// ---------------------------------------------------------------------------------------------------------------------
// The problem

fn problem(replay: &Replay) -> Result<String, String> {
    let orders = standing(replay);
    if orders.is_empty() {
        return Err("no order stands".to_string());
    }
    let mut text = String::from("\\ The dispatch problem of one hour.\nMaximize\n worth:");
    for &(list, number, order) in &orders {
        text += &term(order.worth, list, number);
    }
    text += "\nSubject To\n balance:";
    text += &sum(&orders, |order| i64::from(order.fed.is_some()) - i64::from(order.drawn.is_some()));
    text += " = 0\n";
    for (number, line) in replay.clearing.network().lines.iter().enumerate() {
        let flow = sum(&orders, |order| sensitivity(line, order.fed) - sensitivity(line, order.drawn));
        writeln!(text, " line_{number}:{flow} <= {}", 1000 * line.left()).expect("a string takes everything");
    }
    text += "Bounds\n";
    for (list, number, order) in &orders {
        writeln!(text, " 0 <= {}_{number} <= {}", LISTS[*list], order.largest).expect("a string takes everything");
    }
    text += "End\n";
    Ok(text)
}

fn sensitivity(line: &Line, zone: Option<usize>) -> i64 {
    zone.map_or(0, |zone| line.sensitivities[zone])
}

/// All orders with their coefficients, but those with 0. The format wants at least one term.
fn sum(orders: &[(usize, usize, &Order)], coefficient: impl Fn(&Order) -> i64) -> String {
    let mut terms = String::new();
    for &(list, number, order) in orders {
        if coefficient(order) != 0 {
            terms += &term(coefficient(order), list, number);
        }
    }
    if terms.is_empty() {
        let (list, number, _) = orders[0];
        terms = term(0, list, number);
    }
    terms
}

fn term(coefficient: i64, list: usize, number: usize) -> String {
    let sign = if coefficient < 0 { '-' } else { '+' };
    format!("\n  {sign} {} {}_{number}", coefficient.abs(), LISTS[list])
}

// ---------------------------------------------------------------------------------------------------------------------
// The sheet

/// Read glpsol's own format of solutions: `s bas ROWS COLUMNS PRIMAL DUAL WORTH`, where `f` says that primal and dual are
/// feasible, then `i ROW STATUS ACTIVITY DUAL` for each row and `j COLUMN STATUS ACTIVITY DUAL` for each column.
/// Answers the rows' duals and the columns' activities.
fn solved(solution: &str) -> Result<(Vec<f64>, Vec<f64>), String> {
    let (mut duals, mut activities, mut optimal) = (Vec::new(), Vec::new(), false);
    for line in solution.lines() {
        let words: Vec<&str> = line.split_whitespace().collect();
        let number = |word: &str| word.parse::<f64>().map_err(|_| format!("not a number in the solution: {line}"));
        match words.as_slice() {
            ["s", "bas", _, _, primal, dual, _] => optimal = (*primal, *dual) == ("f", "f"),
            ["i", _, _, _, dual] => duals.push(number(dual)?),
            ["j", _, _, activity, _] => activities.push(number(activity)?),
            _ => {}
        }
    }
    if optimal {
        Ok((duals, activities))
    } else {
        Err("the solver found no optimum".to_string())
    }
}

fn sheet(replay: &Replay, solution: &str, house: &str) -> Result<String, String> {
    let (duals, activities) = solved(solution)?;
    let orders = standing(replay);
    if activities.len() != orders.len() || duals.len() != 1 + replay.clearing.lines() {
        return Err("the solution is not of this problem".to_string());
    }
    let mut text = format!("C {house}\n");
    // A new sheet has a 0 everywhere.
    for (&(list, number, _), &activity) in orders.iter().zip(&activities) {
        let (quantity, remark) = whole(activity);
        if quantity != 0 || !remark.is_empty() {
            let name = wording::order_name(list, number);
            text += &format!("A {house} {list} {number} {quantity}  # {name}{remark}\n");
        }
    }
    let (lambda, remark) = whole(-1000.0 * duals[0]);
    text += &format!("L {house} {lambda}  # lambda{remark}\n");
    for (line, &dual) in duals[1..].iter().enumerate() {
        let (shadow_price, remark) = whole(1000.0 * dual);
        if shadow_price != 0 || !remark.is_empty() {
            text += &format!("M {house} {line} {shadow_price}  # {}{remark}\n", wording::line(replay, line));
        }
    }
    text += &format!("Q {house}\n");
    Ok(text)
}

/// The nearest whole number, and a remark if that is another one. The solver writes 15 digits.
fn whole(number: f64) -> (i64, String) {
    let rounded = number.round();
    let remark = if (number - rounded).abs() > 1e-6 { format!(", rounded from {number:.6}") } else { String::new() };
    (rounded as i64, remark)
}

// ---------------------------------------------------------------------------------------------------------------------
// The verdict

fn verdict(entries: &[Entry]) -> Result<String, String> {
    let (last, before) = entries.split_last().ok_or("no commands")?;
    let mut replay = Replay::default();
    for entry in before {
        replay.follow(entry)?;
    }
    let mut text = format!("# the box says: {}\n", wording::answer(last, &replay));
    for detail in wording::details(last, &replay) {
        text += &format!("#   {detail}\n");
    }
    if last.answer.is_err() {
        print!("{text}");
        process::exit(1);
    }
    Ok(text)
}
