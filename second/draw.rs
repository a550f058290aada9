//! Draws the last judged hour of a stream as an SVG picture, with the verdict that the proved program printed:
//!
//!     draw STREAM LINES
//!
//! STREAM is a file with the stream, LINES one with what the program printed for it. Flows and prices are worked out
//! with the second program's functions.

mod answers;
mod record;
mod wording;

use answers::{judge, net_injections, Consent, Line, Order, Outcome, Sheet, BIDS, MOST_ZONES, OFFERS, TRANSFERS};
use record::{record, Entry, Replay};
use std::f64::consts::PI;
use std::fmt::Write as _;
use std::io::{self, Write as _};
use std::{env, fs, process};
use wording::{cents, decimal, grouped, kwh};

fn main() {
    let arguments: Vec<String> = env::args().skip(1).collect();
    let [stream, lines] = arguments.as_slice() else {
        eprintln!("usage: draw STREAM LINES");
        process::exit(2);
    };
    let drawn = fs::read(stream)
        .and_then(|stream| Ok((stream, fs::read_to_string(lines)?)))
        .map_err(|error| error.to_string())
        .and_then(|(stream, lines)| Judged::last(&record(&stream, &lines)?))
        .map(|judged| draw(&judged));
    match drawn {
        Ok(drawn) => drop(io::stdout().lock().write_all(drawn.as_bytes())),
        Err(error) => {
            eprintln!("draw: {error}");
            process::exit(1);
        }
    }
}

// ---------------------------------------------------------------------------------------------------------------------
// What is drawn

/// A judged sheet with all that follows from it.
struct Judged {
    entry: Entry,
    replay: Replay,
    house: usize,
    sheet: Sheet,
    injections: [i64; MOST_ZONES],
    zone_prices: [i64; MOST_ZONES],
    flows: Vec<i64>,
    /// Of an accepted sheet.
    outcome: Option<Outcome>,
}

impl Judged {
    /// The last try or settle that got as far as the rules of the sheet.
    fn last(entries: &[Entry]) -> Result<Judged, String> {
        let last = entries.iter().rposition(|entry| entry.judged().is_some()).ok_or("no sheet of this file was judged")?;
        let mut replay = Replay::default();
        for entry in &entries[..last] {
            replay.follow(entry)?;
        }
        let entry = entries[last].clone();
        let house = entry.judged().expect("judged, as looked for");
        let sheet = replay.clearing.sheet(house).clone();
        let network = replay.clearing.network();
        let lists = replay.clearing.lists();
        let injections = net_injections(lists, &sheet);
        let outcome = match entry.answer {
            Ok(Consent::Accepted { welfare, rent, .. }) => match judge(network, lists, &sheet) {
                Ok(outcome) if (outcome.welfare, outcome.rent) == (welfare, rent) => Some(outcome),
                _ => return Err(format!("at offset {} the second program answers otherwise", entry.offset)),
            },
            _ => None,
        };
        let (zone_prices, flows) = (network.zone_prices(&sheet), network.flows(&injections));
        Ok(Judged { entry, house, sheet, injections, zone_prices, flows, outcome, replay })
    }

    fn zones(&self) -> usize {
        self.replay.clearing.zones()
    }

    fn lines(&self) -> &[Line] {
        &self.replay.clearing.network().lines
    }

    fn is_tree(&self) -> bool {
        self.zones() == 1 || !self.replay.parents.is_empty()
    }

    /// Every order with its list, its number and its quantity on the sheet.
    fn orders(&self) -> impl Iterator<Item = (usize, usize, &Order, i64)> {
        self.replay.clearing.lists().iter().enumerate().flat_map(move |(list, orders)| {
            let filled = orders.iter().zip(&self.sheet.quantities[list]).enumerate();
            filled.map(move |(number, (order, &quantity))| (list, number, order, quantity))
        })
    }

    /// Is this what the refusal's place names?
    fn refused_at(&self, numbers: &[u8], place: (usize, usize)) -> bool {
        self.entry.answer.is_err_and(|no| numbers.contains(&no.number) && no.place == place)
    }

    fn order_refused(&self, list: usize, number: usize) -> bool {
        self.refused_at(&[10, 15], (list, number))
    }

    fn line_refused(&self, line: usize) -> bool {
        self.refused_at(&[12, 14], (line, 0))
    }

    fn zone_refused(&self, zone: usize) -> bool {
        self.refused_at(&[13], (zone, 0))
    }

    fn binds(&self, line: usize) -> bool {
        self.flows[line] == 1000 * self.lines()[line].left()
    }

    /// The zones between which a line is drawn. Of a tree's link they are known. A row only has sensitivities: a real
    /// line's are largest where it starts and smallest where it ends, as no zone's energy goes over it more fully than
    /// that of its own ends. A row with the same for all zones goes nowhere.
    fn ends(&self, line: usize) -> Option<(usize, usize)> {
        self.replay.ends(line).or_else(|| {
            let sensitivities = &self.lines()[line].sensitivities[..self.zones()];
            let largest = sensitivities.iter().max()?;
            let smallest = sensitivities.iter().min()?;
            let place = |wanted: &i64| sensitivities.iter().position(|sensitivity| sensitivity == wanted);
            (largest != smallest).then_some((place(largest)?, place(smallest)?))
        })
    }
}

// ---------------------------------------------------------------------------------------------------------------------
// Shapes

const INK: &str = "#1a202c";
const FAINT: &str = "#718096";
const RULE: &str = "#cbd5e0";
const RED: &str = "#c53030";
const GREEN: &str = "#2f6f44";
const HOUSES: [&str; 2] = ["#2b5fa8", "#a85d12"];
const PALE: [&str; 2] = ["#e8f0fb", "#fbf0e2"];

#[derive(Clone, Copy, PartialEq)]
enum Anchor {
    Start,
    Middle,
    End,
}

#[derive(Clone, Copy)]
struct Area {
    left: f64,
    top: f64,
    width: f64,
    height: f64,
}

impl Area {
    fn around(x: f64, y: f64, width: f64, height: f64) -> Area {
        Area { left: x - width / 2.0, top: y - height / 2.0, width, height }
    }

    fn middle(&self) -> (f64, f64) {
        (self.left + self.width / 2.0, self.top + self.height / 2.0)
    }

    fn overlap(&self, other: &Area) -> f64 {
        let shared =
            |start: f64, length: f64, from: f64, other: f64| ((start + length).min(from + other) - start.max(from)).max(0.0);
        shared(self.left, self.width, other.left, other.width) * shared(self.top, self.height, other.top, other.height)
    }
}

/// Text in DejaVu Sans, or any other sans serif, takes about so much room.
fn text_width(text: &str, size: f64) -> f64 {
    text.chars().count() as f64 * size * 0.61
}

#[derive(Default)]
struct Picture {
    body: String,
}

impl Picture {
    fn put(&mut self, element: std::fmt::Arguments) {
        self.body.write_fmt(element).expect("a string takes everything");
        self.body.push('\n');
    }

    fn text(&mut self, x: f64, y: f64, size: f64, anchor: Anchor, colour: &str, bold: bool, text: &str) {
        let anchor = match anchor {
            Anchor::Start => "start",
            Anchor::Middle => "middle",
            Anchor::End => "end",
        };
        let weight = if bold { " font-weight=\"bold\"" } else { "" };
        let text = text.replace('&', "&amp;").replace('<', "&lt;").replace('>', "&gt;");
        self.put(format_args!(
            "<text x=\"{x:.1}\" y=\"{y:.1}\" font-size=\"{size}\" text-anchor=\"{anchor}\" fill=\"{colour}\"{weight}>\
             {text}</text>"
        ));
    }

    fn card(&mut self, area: Area, fill: &str, stroke: &str, width: f64) {
        self.put(format_args!(
            "<rect x=\"{:.1}\" y=\"{:.1}\" width=\"{:.1}\" height=\"{:.1}\" rx=\"6\" fill=\"{fill}\" stroke=\"{stroke}\" \
             stroke-width=\"{width}\"/>",
            area.left, area.top, area.width, area.height
        ));
    }

    fn rule(&mut self, from: (f64, f64), to: (f64, f64), colour: &str, width: f64) {
        self.put(format_args!(
            "<path d=\"M {:.1} {:.1} L {:.1} {:.1}\" stroke=\"{colour}\" stroke-width=\"{width}\"/>",
            from.0, from.1, to.0, to.1
        ));
    }

    /// An arrowhead with its point at `at`, coming from the direction of `from`.
    fn arrowhead(&mut self, from: (f64, f64), at: (f64, f64), colour: &str) {
        let length = (at.0 - from.0).hypot(at.1 - from.1).max(1.0);
        let (along, across) = (((at.0 - from.0) / length), ((at.1 - from.1) / length));
        let back = (at.0 - 13.0 * along, at.1 - 13.0 * across);
        self.put(format_args!(
            "<path d=\"M {:.1} {:.1} L {:.1} {:.1} L {:.1} {:.1} Z\" fill=\"{colour}\"/>",
            at.0,
            at.1,
            back.0 - 6.0 * across,
            back.1 + 6.0 * along,
            back.0 + 6.0 * across,
            back.1 - 6.0 * along
        ));
    }

    /// A table whose columns are as wide as their widest cell. Answers where it ends on the right and at the bottom.
    fn table(&mut self, left: f64, top: f64, title: &str, head: &[(&str, Anchor)], rows: &[Row]) -> (f64, f64) {
        const SIZE: f64 = 13.0;
        const STEP: f64 = 20.0;
        const GAP: f64 = 20.0;
        let widths: Vec<f64> = (0..head.len())
            .map(|column| {
                let cells = rows.iter().filter_map(|row| row.cells.get(column)).map(String::as_str);
                cells.chain([head[column].0]).map(|cell| text_width(cell, SIZE)).fold(0.0, f64::max)
            })
            .collect();
        let width = widths.iter().sum::<f64>() + GAP * (head.len() - 1) as f64;
        let width = width.max(text_width(title, 15.0));
        self.text(left, top + 15.0, 15.0, Anchor::Start, INK, true, title);
        let mut y = top + 40.0;
        self.rule((left, y + 6.0), (left + width, y + 6.0), RULE, 1.0);
        let lines = std::iter::once((FAINT, false, head.iter().map(|(name, _)| *name).collect::<Vec<_>>()))
            .chain(rows.iter().map(|row| (row.colour, row.bold, row.cells.iter().map(String::as_str).collect())));
        for (number, (colour, bold, cells)) in lines.enumerate() {
            if number == 1 {
                y += 5.0;
            }
            let mut x = left;
            for (column, cell) in cells.iter().enumerate() {
                let (anchor, at) = match head[column].1 {
                    Anchor::End => (Anchor::End, x + widths[column]),
                    anchor => (anchor, x),
                };
                self.text(at, y, SIZE, anchor, colour, bold, cell);
                x += widths[column] + GAP;
            }
            y += STEP;
        }
        (left + width, y)
    }
}

struct Row {
    colour: &'static str,
    bold: bool,
    cells: Vec<String>,
}

// ---------------------------------------------------------------------------------------------------------------------
// The network

/// More zones than this leave no room for orders in the picture of the network, only in their table.
const ROOMY: usize = 8;
/// More orders of one zone than this are only told by their number in its card.
const ORDERS_OF_CARD: usize = 5;

/// A zone's card: its name, price and net injection, and its orders.
struct Card {
    lines: Vec<(String, &'static str, bool)>,
    width: f64,
    height: f64,
}

impl Card {
    const SIZE: f64 = 13.0;
    const STEP: f64 = 18.0;

    fn new(judged: &Judged, zone: usize) -> Card {
        let net = judged.injections[zone];
        let net = if net > 0 { format!("net +{}", kwh(net)) } else { format!("net {}", kwh(net)) };
        let price = format!("{} cents/MWh", decimal(judged.zone_prices[zone], 3));
        let price_colour = if judged.zone_refused(zone) { RED } else { INK };
        let mut lines = vec![(format!("zone {zone}"), FAINT, false), (price, price_colour, true), (net, FAINT, false)];
        if judged.zones() <= ROOMY {
            let here: Vec<_> = judged
                .orders()
                .filter(|(_, _, order, _)| order.fed == Some(zone) || order.drawn == Some(zone))
                .map(|(list, number, order, quantity)| {
                    let kind = match list {
                        OFFERS => format!("offer {number}"),
                        BIDS => format!("bid {number}"),
                        _ if order.fed == Some(zone) => format!("transfer {number} in"),
                        _ => format!("transfer {number} out"),
                    };
                    let colour = if judged.order_refused(list, number) { RED } else { HOUSES[order.house] };
                    (format!("{kind}: {} of {}", grouped(quantity), kwh(order.largest)), colour, false)
                })
                .collect();
            let more = here.len().saturating_sub(ORDERS_OF_CARD);
            lines.extend(here.into_iter().take(ORDERS_OF_CARD));
            if more > 0 {
                lines.push((format!("and {more} more"), FAINT, false));
            }
        }
        let width = lines.iter().map(|(text, _, bold)| text_width(text, Card::SIZE) * if *bold { 1.1 } else { 1.0 });
        let width = width.fold(90.0, f64::max) + 20.0;
        let height = lines.len() as f64 * Card::STEP + 12.0;
        Card { lines, width, height }
    }

    fn draw(&self, picture: &mut Picture, area: Area, refused: bool) {
        picture.card(area, "#ffffff", if refused { RED } else { INK }, 1.5);
        for (number, (text, colour, bold)) in self.lines.iter().enumerate() {
            let y = area.top + 19.0 + number as f64 * Card::STEP;
            picture.text(area.left + area.width / 2.0, y, Card::SIZE, Anchor::Middle, colour, *bold, text);
        }
    }
}

/// Lines that are drawn as one: a single one, or two opposite ones.
struct Edge {
    from: usize,
    to: usize,
    line: usize,
    opposite: Option<usize>,
    /// How many edges between the same zones came before this one: it is bent so much more.
    before: usize,
}

impl Edge {
    fn lines(&self) -> impl Iterator<Item = usize> {
        [Some(self.line), self.opposite].into_iter().flatten()
    }

    /// Has it a shadow price, or does it break a rule?
    fn is_marked(&self, judged: &Judged) -> bool {
        self.lines().any(|line| judged.sheet.shadow_prices[line] > 0 || judged.line_refused(line))
    }

    /// A monitored row over a tree, which is not one of its links.
    fn is_monitored(&self, judged: &Judged) -> bool {
        judged.is_tree() && judged.replay.ends(self.line).is_none()
    }
}

fn edges(judged: &Judged) -> Vec<Edge> {
    let lines = judged.lines();
    let mut edges: Vec<Edge> = Vec::new();
    for line in 0..lines.len() {
        let Some((from, to)) = judged.ends(line) else { continue };
        let opposes = |other: usize| (0..MOST_ZONES).all(|z| lines[line].sensitivities[z] == -lines[other].sensitivities[z]);
        let partner = edges
            .iter_mut()
            .find(|edge| (edge.from, edge.to) == (to, from) && edge.opposite.is_none() && opposes(edge.line));
        match partner {
            Some(edge) => edge.opposite = Some(line),
            None => {
                let between =
                    |edge: &&Edge| (edge.from.min(edge.to), edge.from.max(edge.to)) == (from.min(to), from.max(to));
                let before = edges.iter().filter(between).count();
                edges.push(Edge { from, to, line, opposite: None, before });
            }
        }
    }
    edges
}

/// A place for each zone's middle, and the size of the whole: a tree grows downwards, other networks stand in a circle.
fn layout(judged: &Judged, cards: &[Card]) -> (Vec<(f64, f64)>, f64, f64) {
    let widest = cards.iter().map(|card| card.width).fold(0.0, f64::max);
    let highest = cards.iter().map(|card| card.height).fold(0.0, f64::max);
    if judged.is_tree() {
        // Between neighbours there is room for what is written at their links.
        let across = if cards.len() <= ROOMY { (widest + 30.0).max(215.0) } else { widest + 10.0 };
        let down = highest + if cards.len() <= ROOMY { 120.0 } else { 60.0 };
        let parents = &judged.replay.parents;
        let mut depths = vec![0; cards.len()];
        for zone in 1..cards.len() {
            depths[zone] = depths[parents[zone - 1]] + 1;
        }
        let mut columns = vec![0.0; cards.len()];
        let mut next_leaf = 0.0;
        place_below(0, parents, &mut columns, &mut next_leaf);
        let deepest = depths.iter().max().copied().unwrap_or(0);
        let places = (0..cards.len())
            .map(|zone| ((columns[zone] + 0.5) * across, highest / 2.0 + f64::from(depths[zone]) * down))
            .collect();
        (places, next_leaf * across, f64::from(deepest) * down + highest)
    } else {
        // Neighbours must not touch, wherever they stand, and there must be room for what is written between them: more
        // from left to right, so the circle is a wide one.
        let step = 2.0 * PI / cards.len() as f64;
        let apart = widest.hypot(highest) * if cards.len() <= ROOMY { 1.15 } else { 0.9 };
        let high = (apart / 2.0 / (step / 2.0).sin()).max(150.0);
        let wide = high * if cards.len() <= ROOMY { 1.5 } else { 1.3 };
        let (width, height) = (2.0 * wide + widest, 2.0 * high + highest);
        let places = (0..cards.len())
            .map(|zone| {
                let turn = step * zone as f64 - PI / 2.0;
                (width / 2.0 + wide * turn.cos(), height / 2.0 + high * turn.sin())
            })
            .collect();
        (places, width, height)
    }
}

/// Give a leaf the next column, and a parent the middle of its children.
fn place_below(zone: usize, parents: &[usize], columns: &mut [f64], next_leaf: &mut f64) {
    let children: Vec<usize> = (1..columns.len()).filter(|&child| parents[child - 1] == zone).collect();
    match (children.first(), children.last()) {
        (Some(&first), Some(&last)) => {
            for &child in &children {
                place_below(child, parents, columns, next_leaf);
            }
            columns[zone] = (columns[first] + columns[last]) / 2.0;
        }
        _ => {
            columns[zone] = *next_leaf;
            *next_leaf += 1.0;
        }
    }
}

/// What is written at an edge: the line that the energy goes along, its flow, and its shadow price if it has one.
struct Label {
    rows: Vec<(String, &'static str)>,
}

impl Label {
    const SIZE: f64 = 12.0;
    const STEP: f64 = 15.0;

    /// Where there is little room only the line's number is written, as it is for a monitored row among a tree's links.
    fn new(judged: &Judged, edge: &Edge, crowded: bool) -> Label {
        if crowded || edge.is_monitored(judged) {
            let names: Vec<String> = edge.lines().map(|line| line.to_string()).collect();
            let name = if crowded { names.join("|") } else { format!("line {}", names.join("|")) };
            return Label { rows: vec![(name, if edge.is_marked(judged) { RED } else { INK })] };
        }
        let mut rows = Vec::new();
        for line in edge.lines() {
            let (flow, shadow_price) = (judged.flows[line], judged.sheet.shadow_prices[line]);
            // Of two opposite lines the one against the flow says nothing new, unless it has a price.
            if edge.opposite.is_some() && flow < 0 && shadow_price == 0 && !judged.line_refused(line) {
                continue;
            }
            // Without any flow one of the two is enough.
            if edge.opposite == Some(line) && flow == 0 && shadow_price == 0 && !rows.is_empty() {
                continue;
            }
            let limit = judged.lines()[line].left();
            let colour = if judged.line_refused(line) || shadow_price > 0 { RED } else { INK };
            rows.push((format!("line {line}: {} of {}", decimal(flow, 3), kwh(limit)), colour));
            if shadow_price > 0 {
                rows.push((format!("shadow {} cents/MWh", grouped(shadow_price)), RED));
            }
        }
        Label { rows }
    }

    fn area(&self, x: f64, y: f64) -> Area {
        let width = self.rows.iter().map(|(row, _)| text_width(row, Label::SIZE)).fold(0.0, f64::max);
        Area::around(x, y, width + 8.0, self.rows.len() as f64 * Label::STEP + 4.0)
    }
}

/// Where the straight way from the middle of an area towards a point leaves it.
fn leave(area: &Area, towards: (f64, f64)) -> (f64, f64) {
    let middle = area.middle();
    let (dx, dy) = (towards.0 - middle.0, towards.1 - middle.1);
    let reach = (area.width / 2.0 / dx.abs().max(1e-9)).min(area.height / 2.0 / dy.abs().max(1e-9)).min(1.0);
    (middle.0 + dx * reach, middle.1 + dy * reach)
}

/// The middle of an area's bottom or top.
fn hang(area: &Area, bottom: bool) -> (f64, f64) {
    (area.left + area.width / 2.0, if bottom { area.top + area.height } else { area.top })
}

/// The way of an edge from card to card, as a start, a point that it bends towards, and an end. It is straight, but that
/// further edges between the same zones bend to both sides in turn.
fn way(judged: &Judged, edge: &Edge, areas: &[Area]) -> [(f64, f64); 3] {
    let (from, to) = (&areas[edge.from], &areas[edge.to]);
    let bend = 90.0 * edge.before.div_ceil(2) as f64;
    let beside = |start: (f64, f64), end: (f64, f64), bend: f64| {
        let (dx, dy) = (end.0 - start.0, end.1 - start.1);
        let length = dx.hypot(dy).max(1.0);
        ((start.0 + end.0) / 2.0 - bend * dy / length, (start.1 + end.1) / 2.0 + bend * dx / length)
    };
    if !judged.is_tree() {
        // Both directions between two zones count their sides alike.
        let bend = if (edge.before % 2 == 0) == (edge.from < edge.to) { bend } else { -bend };
        let bent = beside(from.middle(), to.middle(), bend);
        return [leave(from, bent), bent, leave(to, bent)];
    }
    // In a tree they go from bottom to top and bend upwards first, so that none runs through the cards beside its ends.
    // A monitored row between two zones of one depth goes above the cards between them.
    let above = from.middle().1 - to.middle().1;
    let level = above.abs() < from.height.max(to.height) / 2.0;
    let (start, end) = (hang(from, !level && above < 0.0), hang(to, !level && above > 0.0));
    let bend = if (edge.before % 2 == 0) == (start.0 < end.0) { bend } else { -bend };
    let bent = if level { ((start.0 + end.0) / 2.0, start.1 - 90.0 - bend.abs()) } else { beside(start, end, bend) };
    [start, bent, end]
}

fn draw_network(picture: &mut Picture, judged: &Judged, cards: &[Card], places: &[(f64, f64)]) {
    let areas: Vec<Area> =
        cards.iter().zip(places).map(|(card, place)| Area::around(place.0, place.1, card.width, card.height)).collect();
    let edges = edges(judged);
    let crowded = cards.len() > ROOMY || edges.len() > 14;
    let neighbours = |edge: &Edge| judged.is_tree() || [1, cards.len() - 1].contains(&edge.from.abs_diff(edge.to));
    let mut taken = areas.clone();
    let mut labels = Vec::new();
    for edge in &edges {
        let [start, bent, end] = way(judged, edge, &areas);
        let at = |part: f64| {
            let mix = |a: f64, b: f64, c: f64| (1.0 - part).powi(2) * a + 2.0 * part * (1.0 - part) * b + part.powi(2) * c;
            (mix(start.0, bent.0, end.0), mix(start.1, bent.1, end.1))
        };

        let full = edge.lines().any(|line| judged.flows[line] != 0 && judged.binds(line));
        let flow = judged.flows[edge.line];
        let colour = match (edge.is_marked(judged), flow) {
            (true, _) => RED,
            (false, 0) => RULE,
            _ => INK,
        };
        let width = if full { 3.5 } else { 1.8 };
        let dashes = if edge.is_monitored(judged) { " stroke-dasharray=\"6 4\"" } else { "" };
        picture.put(format_args!(
            "<path d=\"M {:.1} {:.1} Q {:.1} {:.1} {:.1} {:.1}\" fill=\"none\" stroke=\"{colour}\" \
             stroke-width=\"{width}\"{dashes}/>",
            start.0, start.1, bent.0, bent.1, end.0, end.1
        ));
        match flow.signum() {
            1 => picture.arrowhead(at(0.9), end, colour),
            -1 => picture.arrowhead(at(0.1), start, colour),
            _ => {}
        }

        // The label goes to the first of some points along the edge where it covers nothing, or else where it covers
        // least. Ways across the circle meet in the middle, so theirs start elsewhere.
        let label = Label::new(judged, edge, crowded);
        let points = if neighbours(edge) {
            [0.5, 0.42, 0.58, 0.34, 0.66, 0.26, 0.74, 0.18, 0.82]
        } else {
            [0.36, 0.44, 0.28, 0.64, 0.72, 0.5, 0.56, 0.2, 0.8]
        };
        let candidates = points.map(|part| label.area(at(part).0, at(part).1));
        let covered = |area: &Area| taken.iter().map(|other| area.overlap(other)).sum::<f64>();
        let best = candidates.into_iter().min_by(|a, b| covered(a).total_cmp(&covered(b))).expect("nine candidates");
        taken.push(best);
        labels.push((label, best));
    }
    for (label, area) in labels {
        picture.put(format_args!(
            "<rect x=\"{:.1}\" y=\"{:.1}\" width=\"{:.1}\" height=\"{:.1}\" fill=\"#ffffff\" fill-opacity=\"0.92\"/>",
            area.left, area.top, area.width, area.height
        ));
        for (number, (row, colour)) in label.rows.iter().enumerate() {
            let y = area.top + 13.0 + number as f64 * Label::STEP;
            picture.text(area.left + area.width / 2.0, y, Label::SIZE, Anchor::Middle, colour, false, row);
        }
    }
    for (zone, card) in cards.iter().enumerate() {
        card.draw(picture, areas[zone], judged.zone_refused(zone));
    }
}

// ---------------------------------------------------------------------------------------------------------------------
// The tables and the money

/// Of more orders than this only the first are listed, and the one at the place of a refusal.
const MOST_LISTED: usize = 40;

fn order_rows(judged: &Judged) -> Vec<Row> {
    let orders: Vec<_> = judged.orders().collect();
    let mut rows: Vec<Row> = orders
        .iter()
        .enumerate()
        .filter(|(place, (list, number, ..))| *place < MOST_LISTED || judged.order_refused(*list, *number))
        .map(|(_, order)| order)
        .map(|&(list, number, order, quantity)| {
            let zone = |zone: Option<usize>| zone.map_or(String::new(), |zone| zone.to_string());
            let zones = match list {
                TRANSFERS => format!("{} from {}", zone(order.fed), zone(order.drawn)),
                _ => zone(order.fed.or(order.drawn)),
            };
            let refused = judged.order_refused(list, number);
            let taken = if order.standing { grouped(quantity) } else { format!("{} (withdrawn)", grouped(quantity)) };
            Row {
                colour: if refused { RED } else { HOUSES[order.house] },
                bold: refused,
                cells: vec![
                    wording::order_name(list, number),
                    order.house.to_string(),
                    zones,
                    grouped(order.worth.abs()),
                    taken,
                    grouped(order.largest),
                    decimal(order.gain(&judged.zone_prices), 3),
                ],
            }
        })
        .collect();
    if orders.len() > rows.len() {
        let more = format!("and {} more", orders.len() - rows.len());
        rows.push(Row { colour: FAINT, bold: false, cells: vec![more] });
    }
    rows
}

fn line_rows(judged: &Judged) -> Vec<Row> {
    (0..judged.lines().len())
        .map(|line| {
            let shadow_price = judged.sheet.shadow_prices[line];
            let binds = judged.binds(line);
            let way = judged.ends(line).map_or("-".to_string(), |(from, to)| format!("{from} to {to}"));
            let refused = judged.line_refused(line);
            Row {
                colour: if refused || shadow_price > 0 { RED } else { INK },
                bold: refused,
                cells: vec![
                    format!("line {line}"),
                    way,
                    decimal(judged.flows[line], 3),
                    grouped(judged.lines()[line].left()),
                    grouped(shadow_price),
                    if binds { "at its limit" } else { "" }.to_string(),
                ],
            }
        })
        .collect()
}

/// The houses on both sides of the pool, with what each pays or is paid, and the rent that stays. Answers where they end
/// on the right and at the bottom.
fn draw_money(
    picture: &mut Picture,
    outcome: &Outcome,
    accounts: [i128; 2],
    settled: bool,
    left: f64,
    top: f64,
) -> (f64, f64) {
    picture.text(left, top + 15.0, 15.0, Anchor::Start, INK, true, "Money");
    const HEIGHT: f64 = 56.0;
    let account =
        |house: usize| if settled { format!("account {}", cents(accounts[house])) } else { "not settled yet".into() };
    let rent = format!("rent {}", cents(outcome.rent));
    let width =
        [account(0), account(1), rent.clone()].iter().map(|text| text_width(text, 12.0) + 24.0).fold(170.0, f64::max);
    let longest = outcome.amounts.iter().map(|amount| text_width(&cents(amount.abs()), 14.0)).fold(0.0, f64::max);
    let between = (longest + 50.0).max(150.0);
    let y = top + 34.0;
    let area = |place: f64| Area { left: left + place * (width + between), top: y, width, height: HEIGHT };
    for house in 0..2 {
        let area = area(if house == 0 { 0.0 } else { 2.0 });
        picture.card(area, PALE[house], HOUSES[house], 1.5);
        let middle = area.left + width / 2.0;
        picture.text(middle, y + 23.0, 14.0, Anchor::Middle, HOUSES[house], true, &format!("house {house}"));
        picture.text(middle, y + 43.0, 12.0, Anchor::Middle, FAINT, false, &account(house));
    }
    let pool = area(1.0);
    picture.card(pool, "#ffffff", INK, 1.5);
    picture.text(pool.left + width / 2.0, y + 23.0, 14.0, Anchor::Middle, INK, true, "pool");
    picture.text(pool.left + width / 2.0, y + 43.0, 12.0, Anchor::Middle, INK, false, &rent);
    for house in 0..2 {
        let (inner, outer) =
            if house == 0 { (pool.left, area(0.0).left + width) } else { (pool.left + width, area(2.0).left) };
        let (from, to) = if outcome.amounts[house] > 0 { (outer, inner) } else { (inner, outer) };
        let height = y + HEIGHT / 2.0 + 8.0;
        if outcome.amounts[house] != 0 {
            picture.rule((from, height), (to, height), HOUSES[house], 2.5);
            picture.arrowhead((from, height), (to, height), HOUSES[house]);
        }
        let middle = (inner + outer) / 2.0;
        let amount = cents(outcome.amounts[house].abs());
        picture.text(middle, height - 10.0, 14.0, Anchor::Middle, HOUSES[house], true, &amount);
        let way = match outcome.amounts[house].signum() {
            1 => "pays",
            -1 => "is paid",
            _ => "",
        };
        picture.text(middle, height + 18.0, 12.0, Anchor::Middle, FAINT, false, way);
    }
    (area(2.0).left + width, y + HEIGHT)
}

// ---------------------------------------------------------------------------------------------------------------------
// The whole

fn draw(judged: &Judged) -> String {
    const MARGIN: f64 = 30.0;
    let cards: Vec<Card> = (0..judged.zones()).map(|zone| Card::new(judged, zone)).collect();
    let (places, network_width, network_height) = layout(judged, &cards);

    // The tables first, as the network stands in the middle above them and the widest of all makes the picture's width.
    let tables_top = 100.0 + network_height + 50.0;
    let mut tables = Picture::default();
    let head = [
        ("order", Anchor::Start),
        ("house", Anchor::Start),
        ("zone", Anchor::Start),
        ("cents/MWh", Anchor::End),
        ("takes kWh", Anchor::End),
        ("of kWh", Anchor::End),
        ("gain*", Anchor::End),
    ];
    let (right, orders_bottom) = tables.table(MARGIN, tables_top, "Orders", &head, &order_rows(judged));
    let head = [
        ("line", Anchor::Start),
        ("zones", Anchor::Start),
        ("flow kWh", Anchor::End),
        ("limit", Anchor::End),
        ("shadow price", Anchor::End),
        ("", Anchor::Start),
    ];
    let (mut right, lines_bottom) = tables.table(right + 60.0, tables_top, "Lines", &head, &line_rows(judged));
    let mut bottom = orders_bottom.max(lines_bottom);
    let note = "* of each kWh at the zone prices, in cents/MWh. Red: with a shadow price, or at the place of a refusal.";
    tables.text(MARGIN, bottom + 4.0, 12.0, Anchor::Start, FAINT, false, note);
    bottom += 20.0;
    if let (Some(outcome), Ok(Consent::Accepted { accounts, .. })) = (&judged.outcome, judged.entry.answer) {
        let settled = judged.entry.letter == b'S';
        let (money_right, money_bottom) = draw_money(&mut tables, outcome, accounts, settled, MARGIN, bottom + 14.0);
        right = right.max(money_right);
        bottom = money_bottom;
    }

    let mut top = Picture::default();
    let deed = if judged.entry.letter == b'S' { "settles the hour by" } else { "tries" };
    let title = format!("House {} {deed} its sheet, lambda {} cents/MWh", judged.house, decimal(judged.sheet.lambda, 3));
    let (verdict, colour) = match judged.entry.answer {
        Ok(Consent::Accepted { welfare, rent, .. }) => {
            (format!("accepted: welfare {} cents, congestion rent {}", decimal(welfare, 3), cents(rent)), GREEN)
        }
        Ok(Consent::Done) => ("ok".to_string(), GREEN),
        Err(no) => (wording::refusal(judged.entry.letter, no), RED),
    };
    let printed =
        format!("the box printed: {} {} {}", judged.entry.offset, judged.entry.letter as char, judged.entry.printed);
    top.text(MARGIN, 36.0, 18.0, Anchor::Start, INK, true, &title);
    top.text(MARGIN, 60.0, 16.0, Anchor::Start, colour, true, &verdict);
    top.text(MARGIN, 80.0, 12.0, Anchor::Start, FAINT, false, &printed);
    let right =
        right.max(MARGIN + 1.1 * text_width(&title, 18.0).max(text_width(&verdict, 16.0))).max(MARGIN + network_width);
    let width = right + MARGIN;

    let mut network = Picture::default();
    draw_network(&mut network, judged, &cards, &places);
    let shift = (width - network_width) / 2.0;
    let height = bottom + MARGIN;
    format!(
        "<svg xmlns=\"http://www.w3.org/2000/svg\" viewBox=\"0 0 {width:.0} {height:.0}\" width=\"{width:.0}\" \
         height=\"{height:.0}\" font-family=\"DejaVu Sans, Verdana, Arial, sans-serif\">\n\
         <rect width=\"100%\" height=\"100%\" fill=\"#ffffff\"/>\n\
         {}<g transform=\"translate({shift:.1} 105)\">\n{}</g>\n{}</svg>\n",
        top.body, network.body, tables.body
    )
}
