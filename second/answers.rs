//! A second program for the stream of the sealed clearing box, written from `docs/RULES.md` and `docs/STREAM.md` alone,
//! so that whatever the two programs agree on was read out of the documents twice.
//!
//! It favours the plain way: one match over the commands, each asking its questions in the order of their numbers.
//! All numbers of a stream are held as `i64`; money, which grows over a month, as `i128`.

#![allow(dead_code)] // each program that includes this module uses a part of it

use std::fmt::Write;

pub const LONGEST_STREAM: usize = 65_536;
pub const MOST_ZONES: usize = 24;
pub const MOST_LINES: usize = 60;
pub const MOST_MONITORED: usize = 10;
pub const MOST_ORDERS: usize = 512;
pub const MOST_TRIES: usize = 200;
pub const MOST_HOURS: usize = 744;
pub const MOST_ENERGY: i64 = 10_000_000;
pub const HIGHEST_PRICE: i64 = 500_000;
pub const HIGHEST_LAMBDA: i64 = 1_000_000_000;
pub const HIGHEST_ZONE_PRICE: i64 = 500_000_000;
pub const HIGHEST_SHADOW_PRICE: i64 = 1_000_000;
pub const LARGEST_SENSITIVITY: i64 = 1000;

pub const OFFERS: usize = 0;
pub const BIDS: usize = 1;
pub const TRANSFERS: usize = 2;

// ---------------------------------------------------------------------------------------------------------------------
// Answers

/// A no: the number of the question, and the first place that got it.
#[derive(Debug, Clone, Copy, PartialEq, Eq)]
pub struct Refusal {
    pub number: u8,
    pub place: (usize, usize),
}

/// What a command gets when every question has a yes.
#[derive(Debug, Clone, Copy, PartialEq, Eq)]
pub enum Consent {
    Done,
    /// Of a try or a settle; the accounts are those after it.
    Accepted {
        welfare: i128,
        rent: i128,
        accounts: [i128; 2],
    },
}

pub type Answer = Result<Consent, Refusal>;

fn ask(number: u8, yes: bool) -> Result<(), Refusal> {
    ask_at(number, (0, 0), yes)
}

fn ask_at(number: u8, place: (usize, usize), yes: bool) -> Result<(), Refusal> {
    if yes {
        Ok(())
    } else {
        Err(Refusal { number, place })
    }
}

// ---------------------------------------------------------------------------------------------------------------------
// Networks

/// Whatever made a line (a tree's link, a row of a table, a monitored row), these are all that a judgement needs of it.
#[derive(Debug, Clone)]
pub struct Line {
    pub limit: i64,
    pub held_back: i64,
    pub sensitivities: [i64; MOST_ZONES],
}

impl Line {
    fn new(limit: i64, sensitivities: [i64; MOST_ZONES]) -> Line {
        Line { limit, held_back: 0, sensitivities }
    }

    /// The limit that is left: holding back more than there is leaves nothing, not less than nothing.
    pub fn left(&self) -> i64 {
        (self.limit - self.held_back).max(0)
    }
}

#[derive(Debug, Clone, Default)]
pub struct Network {
    pub zones: usize,
    pub lines: Vec<Line>,
}

impl Network {
    /// Add the two lines of the next zone's link.
    fn link(&mut self, child: usize, parent: usize, to_parent: i64, to_child: i64) {
        // The child is below everything that its parent is below, and below its parent itself, so each line so far
        // answers for the child as it does for the parent. Of the two new lines only the child is below, as yet.
        for line in &mut self.lines {
            line.sensitivities[child] = line.sensitivities[parent];
        }
        for (limit, sensitivity) in [(to_parent, 1000), (to_child, -1000)] {
            let mut sensitivities = [0; MOST_ZONES];
            sensitivities[child] = sensitivity;
            self.lines.push(Line::new(limit, sensitivities));
        }
    }

    /// The flow over each line, in thousandths of a kWh.
    pub fn flows(&self, injections: &[i64; MOST_ZONES]) -> Vec<i64> {
        let flow = |line: &Line| (0..self.zones).map(|zone| line.sensitivities[zone] * injections[zone]).sum();
        self.lines.iter().map(flow).collect()
    }

    /// The price of each zone that a sheet gives, in thousandths of a cent per MWh; 0 for a zone that is missing.
    pub fn zone_prices(&self, sheet: &Sheet) -> [i64; MOST_ZONES] {
        let mut zone_prices = [0; MOST_ZONES];
        for (zone, price) in zone_prices.iter_mut().enumerate().take(self.zones) {
            *price = sheet.lambda;
            for (line, shadow_price) in self.lines.iter().zip(&sheet.shadow_prices) {
                *price -= shadow_price * line.sensitivities[zone];
            }
        }
        zone_prices
    }
}

// ---------------------------------------------------------------------------------------------------------------------
// Orders, sheets and their judgement

/// An order of any of the three kinds: they differ in the sign of their worth, and in the zones they feed and draw from.
#[derive(Debug, Clone)]
pub struct Order {
    pub house: usize,
    /// The worth of one kWh: negative for an offer, which costs.
    pub worth: i64,
    /// The zone that each kWh is fed into.
    pub fed: Option<usize>,
    /// The zone that each kWh is drawn from.
    pub drawn: Option<usize>,
    pub largest: i64,
    pub standing: bool,
}

impl Order {
    pub fn offer(house: usize, zone: usize, price: i64, largest: i64) -> Order {
        Order { house, worth: -price, fed: Some(zone), drawn: None, largest, standing: true }
    }

    pub fn bid(house: usize, zone: usize, price: i64, largest: i64) -> Order {
        Order { house, worth: price, fed: None, drawn: Some(zone), largest, standing: true }
    }

    pub fn transfer(house: usize, first: usize, second: usize, price: i64, largest: i64) -> Order {
        Order { house, worth: price, fed: Some(first), drawn: Some(second), largest, standing: true }
    }

    /// What the injections of one kWh earn at these zone prices.
    fn earning(&self, zone_prices: &[i64; MOST_ZONES]) -> i64 {
        self.fed.map_or(0, |zone| zone_prices[zone]) - self.drawn.map_or(0, |zone| zone_prices[zone])
    }

    /// What one kWh gains at these zone prices.
    pub fn gain(&self, zone_prices: &[i64; MOST_ZONES]) -> i64 {
        1000 * self.worth + self.earning(zone_prices)
    }

    /// No other possible quantity gains more. All three kinds gain the same for each kWh, so it is enough to look at
    /// that: where each kWh gains, only the whole quantity is content, where each loses, only none.
    fn content(&self, quantity: i64, zone_prices: &[i64; MOST_ZONES]) -> bool {
        match self.gain(zone_prices).signum() {
            1 => quantity == self.largest,
            -1 => quantity == 0,
            _ => true,
        }
    }
}

/// A house's proposal for the hour.
#[derive(Debug, Clone, Default)]
pub struct Sheet {
    /// For each list, a quantity for each entered order.
    pub quantities: [Vec<i64>; 3],
    pub lambda: i64,
    /// One for each line.
    pub shadow_prices: Vec<i64>,
}

#[derive(Debug, Clone, Copy, PartialEq, Eq)]
pub struct Outcome {
    pub welfare: i128,
    pub rent: i128,
    pub amounts: [i128; 2],
}

/// Questions 10 to 15, the rules of the sheet.
pub fn judge(network: &Network, lists: &[Vec<Order>; 3], sheet: &Sheet) -> Result<Outcome, Refusal> {
    for (list, orders) in lists.iter().enumerate() {
        for (number, order) in orders.iter().enumerate() {
            let most = if order.standing { order.largest } else { 0 };
            let quantity = sheet.quantities[list][number];
            ask_at(10, (list, number), (0..=most).contains(&quantity))?;
        }
    }

    let injections = net_injections(lists, sheet);
    ask(11, injections.iter().sum::<i64>() == 0)?;

    let flows = network.flows(&injections);
    for (number, line) in network.lines.iter().enumerate() {
        ask_at(12, (number, 0), flows[number] <= 1000 * line.left())?;
    }

    let zone_prices = network.zone_prices(sheet);
    for zone in 0..network.zones {
        ask_at(13, (zone, 0), zone_prices[zone].abs() <= HIGHEST_ZONE_PRICE)?;
    }

    for (number, line) in network.lines.iter().enumerate() {
        let binds = flows[number] == 1000 * line.left();
        ask_at(14, (number, 0), sheet.shadow_prices[number] == 0 || binds)?;
    }

    for (list, orders) in lists.iter().enumerate() {
        for (number, order) in orders.iter().enumerate() {
            let quantity = sheet.quantities[list][number];
            ask_at(15, (list, number), !order.standing || order.content(quantity, &zone_prices))?;
        }
    }

    let mut outcome = Outcome { welfare: 0, rent: 0, amounts: [0, 0] };
    for (order, quantity) in filled(lists, sheet) {
        outcome.welfare += i128::from(order.worth * quantity);
        outcome.amounts[order.house] -= i128::from(order.earning(&zone_prices) * quantity);
    }
    for (line, shadow_price) in network.lines.iter().zip(&sheet.shadow_prices) {
        outcome.rent += i128::from(1000 * shadow_price * line.left());
    }
    Ok(outcome)
}

/// The sum of all orders' injections into each zone.
pub fn net_injections(lists: &[Vec<Order>; 3], sheet: &Sheet) -> [i64; MOST_ZONES] {
    let mut injections = [0; MOST_ZONES];
    for (order, quantity) in filled(lists, sheet) {
        if let Some(zone) = order.fed {
            injections[zone] += quantity;
        }
        if let Some(zone) = order.drawn {
            injections[zone] -= quantity;
        }
    }
    injections
}

/// Every entered order with its quantity on the sheet.
fn filled<'a>(lists: &'a [Vec<Order>; 3], sheet: &'a Sheet) -> impl Iterator<Item = (&'a Order, i64)> {
    lists.iter().zip(&sheet.quantities).flat_map(|(orders, quantities)| orders.iter().zip(quantities.iter().copied()))
}

// ---------------------------------------------------------------------------------------------------------------------
// The box

/// How far the network block has come.
#[derive(Debug, Clone, Copy, PartialEq, Eq)]
enum Stage {
    Start,
    Tree,
    Table,
    Monitored,
    HeldBack,
    Open,
}

/// One hour: it takes orders until it is closed, then fills, tries and its end.
#[derive(Debug, Clone, Default)]
struct Hour {
    closed: bool,
    lists: [Vec<Order>; 3],
    sheets: [Sheet; 2],
    tries: usize,
}

impl Hour {
    fn new(network: &Network) -> Hour {
        let mut hour = Hour::default();
        for sheet in &mut hour.sheets {
            sheet.shadow_prices = vec![0; network.lines.len()];
        }
        hour
    }

    /// The energy of all standing orders.
    fn standing(&self) -> i64 {
        self.lists.iter().flatten().filter(|order| order.standing).map(|order| order.largest).sum()
    }

    /// Does the order exist, as a list and a number entered in it?
    fn has(&self, list: i64, number: i64) -> bool {
        (0..3).contains(&list) && (0..self.lists[list as usize].len() as i64).contains(&number)
    }
}

#[derive(Debug, Clone)]
pub struct ClearingBox {
    stage: Stage,
    monitored: usize,
    network: Network,
    hour: Hour,
    settled: usize,
    accounts: [i128; 2],
}

impl Default for ClearingBox {
    fn default() -> Self {
        ClearingBox::new()
    }
}

impl ClearingBox {
    pub fn new() -> ClearingBox {
        ClearingBox {
            stage: Stage::Start,
            monitored: 0,
            network: Network::default(),
            hour: Hour::default(),
            settled: 0,
            accounts: [0, 0],
        }
    }

    pub fn network(&self) -> &Network {
        &self.network
    }

    pub fn zones(&self) -> usize {
        self.network.zones
    }

    pub fn lines(&self) -> usize {
        self.network.lines.len()
    }

    /// How many orders were entered in the list in this hour.
    pub fn entered(&self, list: usize) -> usize {
        self.hour.lists[list].len()
    }

    /// The orders entered in this hour, offers, bids and transfers.
    pub fn lists(&self) -> &[Vec<Order>; 3] {
        &self.hour.lists
    }

    pub fn sheet(&self, house: usize) -> &Sheet {
        &self.hour.sheets[house]
    }

    pub fn closed(&self) -> bool {
        self.hour.closed
    }

    pub fn settled(&self) -> usize {
        self.settled
    }

    /// Answer a command whose operands are all there. A refusal leaves everything as it was, but for a try used up.
    pub fn command(&mut self, letter: u8, operands: &[i64]) -> Answer {
        match (letter, operands) {
            (b'Z', &[zones]) => self.start(Stage::Tree, zones),
            (b'Y', &[zones]) => self.start(Stage::Table, zones),
            (b'K', &[parent, to_parent, to_child]) => self.link(parent, to_parent, to_child),
            (b'R', [limit, sensitivities @ ..]) => self.row(*limit, sensitivities),
            (b'V', [limit, sensitivities @ ..]) => self.monitor(*limit, sensitivities),
            (b'H', &[line, energy]) => self.hold_back(line, energy),
            (b'G', &[]) => self.open(),
            (b'O', &[house, zone, price, quantity]) => {
                self.enter(OFFERS, house, &[zone], price, quantity, |house, zones| {
                    Order::offer(house, zones[0], price, quantity)
                })
            }
            (b'B', &[house, zone, price, quantity]) => self
                .enter(BIDS, house, &[zone], price, quantity, |house, zones| Order::bid(house, zones[0], price, quantity)),
            (b'T', &[house, first, second, price, quantity]) => {
                self.enter(TRANSFERS, house, &[first, second], price, quantity, |house, zones| {
                    Order::transfer(house, zones[0], zones[1], price, quantity)
                })
            }
            (b'W', &[house, list, number]) => self.withdraw(house, list, number),
            (b'C', &[house]) => self.close(house),
            (b'A', &[house, list, number, quantity]) => self.fill_quantity(house, list, number, quantity),
            (b'L', &[house, lambda]) => self.fill_lambda(house, lambda),
            (b'M', &[house, line, shadow_price]) => self.fill_shadow_price(house, line, shadow_price),
            (b'Q', &[house]) => self.attempt(house, false),
            (b'S', &[house]) => self.attempt(house, true),
            (b'X', &[house]) => self.void(house),
            _ => unreachable!("operands as the spelling says"),
        }
    }

    // The network block

    fn start(&mut self, stage: Stage, zones: i64) -> Answer {
        ask(4, self.stage == Stage::Start)?;
        ask(5, (1..=MOST_ZONES as i64).contains(&zones))?;
        self.stage = stage;
        self.network.zones = zones as usize;
        Ok(Consent::Done)
    }

    /// Does a tree still lack links? Every zone but 0 has one, of two lines.
    fn links_missing(&self) -> bool {
        self.stage == Stage::Tree && self.network.lines.len() < 2 * (self.network.zones - 1)
    }

    fn link(&mut self, parent: i64, to_parent: i64, to_child: i64) -> Answer {
        let child = self.network.lines.len() / 2 + 1;
        ask(4, self.links_missing())?;
        ask(5, parent < child as i64)?;
        ask(6, is_energy(to_parent) && is_energy(to_child))?;
        self.network.link(child, parent as usize, to_parent, to_child);
        Ok(Consent::Done)
    }

    /// The questions to a row of either kind: its sensitivities for missing zones, then its numbers.
    fn ask_row(&self, limit: i64, sensitivities: &[i64]) -> Result<(), Refusal> {
        ask(5, sensitivities[self.network.zones..].iter().all(|&sensitivity| sensitivity == 0))?;
        ask(6, is_energy(limit) && sensitivities.iter().all(|sensitivity| sensitivity.abs() <= LARGEST_SENSITIVITY))
    }

    fn add_row(&mut self, limit: i64, sensitivities: &[i64]) {
        let sensitivities = sensitivities.try_into().expect("24 sensitivities");
        self.network.lines.push(Line::new(limit, sensitivities));
    }

    fn row(&mut self, limit: i64, sensitivities: &[i64]) -> Answer {
        ask(4, self.stage == Stage::Table)?;
        self.ask_row(limit, sensitivities)?;
        ask(8, self.network.lines.len() < MOST_LINES)?;
        self.add_row(limit, sensitivities);
        Ok(Consent::Done)
    }

    fn monitor(&mut self, limit: i64, sensitivities: &[i64]) -> Answer {
        ask(4, matches!(self.stage, Stage::Tree | Stage::Table | Stage::Monitored) && !self.links_missing())?;
        self.ask_row(limit, sensitivities)?;
        ask(8, self.network.lines.len() < MOST_LINES && self.monitored < MOST_MONITORED)?;
        self.stage = Stage::Monitored;
        self.monitored += 1;
        self.add_row(limit, sensitivities);
        Ok(Consent::Done)
    }

    /// Both holding back and opening want a network that is complete and not yet in use.
    fn complete(&self) -> bool {
        !matches!(self.stage, Stage::Start | Stage::Open) && !self.links_missing()
    }

    fn hold_back(&mut self, line: i64, energy: i64) -> Answer {
        ask(4, self.complete())?;
        ask(5, line < self.network.lines.len() as i64)?;
        ask(6, is_energy(energy))?;
        self.stage = Stage::HeldBack;
        self.network.lines[line as usize].held_back = energy;
        Ok(Consent::Done)
    }

    fn open(&mut self) -> Answer {
        ask(4, self.complete())?;
        self.stage = Stage::Open;
        self.hour = Hour::new(&self.network);
        Ok(Consent::Done)
    }

    // The hour

    /// Questions 3 and 4 of every command of the box.
    fn ask_hour(&self, house: i64, closed: bool) -> Result<usize, Refusal> {
        ask(3, house == 0 || house == 1)?;
        ask(4, self.stage == Stage::Open && self.hour.closed == closed)?;
        Ok(house as usize)
    }

    fn enter(
        &mut self,
        list: usize,
        house: i64,
        zones: &[i64],
        price: i64,
        quantity: i64,
        order: impl FnOnce(usize, &[usize]) -> Order,
    ) -> Answer {
        let house = self.ask_hour(house, false)?;
        let differ = zones.len() < 2 || zones[0] != zones[1];
        ask(5, differ && zones.iter().all(|&zone| zone < self.network.zones as i64))?;
        ask(6, (0..=HIGHEST_PRICE).contains(&price) && (1..=MOST_ENERGY).contains(&quantity))?;
        ask(8, self.hour.lists[list].len() < MOST_ORDERS && self.hour.standing() + quantity <= MOST_ENERGY)?;
        let zones: Vec<usize> = zones.iter().map(|&zone| zone as usize).collect();
        self.hour.lists[list].push(order(house, &zones));
        for sheet in &mut self.hour.sheets {
            sheet.quantities[list].push(0);
        }
        Ok(Consent::Done)
    }

    fn withdraw(&mut self, house: i64, list: i64, number: i64) -> Answer {
        let house = self.ask_hour(house, false)?;
        ask(5, self.hour.has(list, number))?;
        let order = &mut self.hour.lists[list as usize][number as usize];
        ask(7, order.house == house && order.standing)?;
        order.standing = false;
        Ok(Consent::Done)
    }

    fn close(&mut self, house: i64) -> Answer {
        self.ask_hour(house, false)?;
        ask(8, self.settled < MOST_HOURS)?;
        self.hour.closed = true;
        Ok(Consent::Done)
    }

    fn fill_quantity(&mut self, house: i64, list: i64, number: i64, quantity: i64) -> Answer {
        let house = self.ask_hour(house, true)?;
        ask(5, self.hour.has(list, number))?;
        ask(6, is_energy(quantity))?;
        self.hour.sheets[house].quantities[list as usize][number as usize] = quantity;
        Ok(Consent::Done)
    }

    fn fill_lambda(&mut self, house: i64, lambda: i64) -> Answer {
        let house = self.ask_hour(house, true)?;
        ask(6, lambda.abs() <= HIGHEST_LAMBDA)?;
        self.hour.sheets[house].lambda = lambda;
        Ok(Consent::Done)
    }

    fn fill_shadow_price(&mut self, house: i64, line: i64, shadow_price: i64) -> Answer {
        let house = self.ask_hour(house, true)?;
        ask(5, line < self.network.lines.len() as i64)?;
        ask(6, (0..=HIGHEST_SHADOW_PRICE).contains(&shadow_price))?;
        self.hour.sheets[house].shadow_prices[line as usize] = shadow_price;
        Ok(Consent::Done)
    }

    /// A try, or a settle: the same judgement of the caller's sheet, but that a settle takes the money and ends the hour.
    fn attempt(&mut self, house: i64, settle: bool) -> Answer {
        let house = self.ask_hour(house, true)?;
        ask(9, self.hour.tries < MOST_TRIES)?;
        self.hour.tries += 1;
        let outcome = judge(&self.network, &self.hour.lists, &self.hour.sheets[house])?;
        if settle {
            for (account, amount) in self.accounts.iter_mut().zip(outcome.amounts) {
                *account += amount;
            }
            self.settled += 1;
            self.hour = Hour::new(&self.network);
        }
        Ok(Consent::Accepted { welfare: outcome.welfare, rent: outcome.rent, accounts: self.accounts })
    }

    fn void(&mut self, house: i64) -> Answer {
        self.ask_hour(house, true)?;
        self.hour = Hour::new(&self.network);
        Ok(Consent::Done)
    }
}

fn is_energy(energy: i64) -> bool {
    (0..=MOST_ENERGY).contains(&energy)
}

// ---------------------------------------------------------------------------------------------------------------------
// The stream

/// How an operand is written: so many bytes, the lowest first, with or without a sign.
#[derive(Debug, Clone, Copy, PartialEq, Eq)]
pub enum Operand {
    Byte,
    Short,
    SignedShort,
    Word,
    SignedWord,
}

impl Operand {
    pub fn width(self) -> usize {
        match self {
            Operand::Byte => 1,
            Operand::Short | Operand::SignedShort => 2,
            Operand::Word | Operand::SignedWord => 4,
        }
    }

    pub fn value(self, bytes: &[u8]) -> i64 {
        let unsigned = bytes.iter().rev().fold(0, |value, &byte| 256 * value + i64::from(byte));
        match self {
            Operand::SignedShort => i64::from(unsigned as u16 as i16),
            Operand::SignedWord => i64::from(unsigned as u32 as i32),
            _ => unsigned,
        }
    }
}

/// A limit and a sensitivity for each possible zone.
const ROW: [Operand; 1 + MOST_ZONES] = {
    let mut row = [Operand::SignedShort; 1 + MOST_ZONES];
    row[0] = Operand::Word;
    row
};

/// The operands of a command, if the byte names one.
pub fn spelling(letter: u8) -> Option<&'static [Operand]> {
    use Operand::{Byte, Short, SignedWord, Word};
    Some(match letter {
        b'Z' | b'Y' | b'C' | b'Q' | b'S' | b'X' => &[Byte],
        b'K' => &[Byte, Word, Word],
        b'R' | b'V' => &ROW,
        b'H' => &[Byte, Word],
        b'G' => &[],
        b'O' | b'B' => &[Byte, Byte, Word, Word],
        b'T' => &[Byte, Byte, Byte, Word, Word],
        b'W' => &[Byte, Byte, Short],
        b'A' => &[Byte, Byte, Short, Word],
        b'L' => &[Byte, SignedWord],
        b'M' => &[Byte, Byte, Word],
        _ => return None,
    })
}

/// The operands at the start of these bytes and how many bytes they take, if all are there.
pub fn operands(spelling: &[Operand], bytes: &[u8]) -> Option<(Vec<i64>, usize)> {
    let mut end = 0;
    let mut operands = Vec::with_capacity(spelling.len());
    for operand in spelling {
        let start = end;
        end += operand.width();
        operands.push(operand.value(bytes.get(start..end)?));
    }
    Some((operands, end))
}

/// The lines that the program prints for a stream.
pub fn answers(stream: &[u8]) -> String {
    let stream = &stream[..stream.len().min(LONGEST_STREAM)];
    let mut clearing = ClearingBox::new();
    let mut printed = String::new();
    let mut offset = 0;
    while offset < stream.len() {
        let letter = stream[offset];
        let Some(spelling) = spelling(letter) else {
            print_line(&mut printed, offset, '?', &Err(Refusal { number: 1, place: (0, 0) }));
            break;
        };
        let Some((operands, width)) = operands(spelling, &stream[offset + 1..]) else {
            print_line(&mut printed, offset, letter.into(), &Err(Refusal { number: 2, place: (0, 0) }));
            break;
        };
        let answer = clearing.command(letter, &operands);
        print_line(&mut printed, offset, letter.into(), &answer);
        offset += 1 + width;
    }
    printed
}

fn print_line(printed: &mut String, offset: usize, letter: char, answer: &Answer) {
    let written = match answer {
        Ok(Consent::Done) => writeln!(printed, "{offset} {letter} ok"),
        Ok(Consent::Accepted { welfare, rent, accounts: [first, second] }) => {
            writeln!(printed, "{offset} {letter} accepted {welfare} {rent} {first} {second}")
        }
        Err(Refusal { number, place: (first, second) }) => {
            writeln!(printed, "{offset} {letter} refused {number} {first} {second}")
        }
    };
    written.expect("a string takes every line");
}
