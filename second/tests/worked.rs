//! Hours worked out by hand from `docs/RULES.md` and `docs/STREAM.md`. `second/tests/run` compiles and runs them.

#[path = "../answers.rs"]
mod answers;
#[path = "../commands.rs"]
mod commands;

use answers::answers;
use commands::stream_of;

fn lines(text: &str) -> Vec<String> {
    answers(&stream_of(text)).lines().map(str::to_string).collect()
}

/// The last line without its offset.
fn last(text: &str) -> String {
    let lines = lines(text);
    let line = lines.last().expect("a line");
    line.split_once(' ').expect("an offset").1.to_string()
}

/// Two zones, 40 kWh from zone 1 to zone 0 and 30 the other way. House 0 has cheap energy in zone 0 and dear energy in
/// zone 1, where house 1 wants 100 kWh; 30 come over the line, which binds.
fn worked(first_offer: i64, second_offer: i64, bid: i64, lambda: i64, shadow_prices: [i64; 2]) -> String {
    format!(
        "Z 2; K 0 40 30; G; O 0 0 3000 100; O 0 1 5000 50; B 1 1 9000 60; C 0; \
         A 0 0 0 {first_offer}; A 0 0 1 {second_offer}; A 0 1 0 {bid}; \
         L 0 {lambda}; M 0 0 {}; M 0 1 {}",
        shadow_prices[0], shadow_prices[1]
    )
}

fn tried(first_offer: i64, second_offer: i64, bid: i64, lambda: i64, shadow_prices: [i64; 2]) -> String {
    last(&format!("{}; Q 0", worked(first_offer, second_offer, bid, lambda, shadow_prices)))
}

#[test]
fn the_worked_hour() {
    let expected =
        "0 Z ok\n2 K ok\n12 G ok\n13 O ok\n24 O ok\n35 B ok\n46 C ok\n48 A ok\n57 A ok\n66 A ok\n75 L ok\n81 M ok\n\
                    88 Q accepted 300000 60000000 0 0\n90 S accepted 300000 60000000 -240000000 300000000\n";
    let text = "Z 2; K 0 40 30; G; O 0 0 3000 100; O 0 1 5000 50; B 1 1 9000 60; C 0; \
                A 0 0 0 30; A 0 0 1 30; A 0 1 0 60; L 0 3000000; M 0 1 2000; Q 0; S 0";
    assert_eq!(answers(&stream_of(text)), expected);
}

#[test]
fn the_worked_hour_altered() {
    assert_eq!(tried(30, 30, 60, 3_000_000, [0, 2000]), "Q accepted 300000 60000000 0 0");
    // Without a price on the line zone 1 costs 3000: the offer there at 5000 loses.
    assert_eq!(tried(30, 30, 60, 3_000_000, [0, 0]), "Q refused 15 0 1");
    // At 5000 everywhere the first offer wants to sell all of its 100 kWh.
    assert_eq!(tried(30, 30, 60, 5_000_000, [0, 0]), "Q refused 15 0 0");
    assert_eq!(tried(31, 29, 60, 3_000_000, [0, 2000]), "Q refused 12 1 0");
    assert_eq!(tried(31, 30, 60, 3_000_000, [0, 2000]), "Q refused 11 0 0");
    assert_eq!(tried(30, 30, 60, 3_000_000, [1, 2000]), "Q refused 14 0 0");
    assert_eq!(tried(30, 30, 61, 3_000_000, [0, 2000]), "Q refused 10 1 0");
    // At prices of 0 the bid wants its 60 kWh.
    assert_eq!(tried(0, 0, 0, 0, [0, 0]), "Q refused 15 1 0");
    // Zone 1 costs lambda + 1000 x 2000, which is 500,000,001 here and one less in the next line.
    assert_eq!(tried(30, 30, 60, 498_000_001, [0, 2000]), "Q refused 13 1 0");
    assert_eq!(tried(30, 30, 60, 498_000_000, [0, 2000]), "Q refused 15 0 0");
    assert_eq!(tried(30, 30, 60, -500_000_001, [0, 2000]), "Q refused 13 0 0");
}

#[test]
fn an_hour_without_orders() {
    assert_eq!(last("Z 1; G; C 0; Q 1"), "Q accepted 0 0 0 0");
    assert_eq!(last("Y 3; G; C 1; S 0"), "S accepted 0 0 0 0");
}

#[test]
fn any_price_between_offer_and_bid() {
    let hour =
        |lambda: i64| last(&format!("Z 1; G; O 0 0 3000 60; B 1 0 9000 60; C 0; A 1 0 0 60; A 1 1 0 60; L 1 {lambda}; S 1"));
    assert_eq!(hour(3_000_000), "S accepted 360000 0 -180000000 180000000");
    assert_eq!(hour(9_000_000), "S accepted 360000 0 -540000000 540000000");
    assert_eq!(hour(2_999_999), "S refused 15 0 0");
    assert_eq!(hour(9_000_001), "S refused 15 1 0");
}

#[test]
fn a_transfer_pays_the_rent() {
    // 30 kWh into zone 0 and out of zone 1 fill the line from 0 to 1; it is worth 2000 to house 1, which is the price of
    // the line, so the house is content with a part of it.
    let hour = "Z 2; K 0 40 30; G; T 1 0 1 2000 50; C 0; A 1 2 0 30; L 1 -7; M 1 1 2000";
    assert_eq!(last(&format!("{hour}; S 1")), "S accepted 60000 60000000 0 60000000");
    assert_eq!(last(&format!("{hour}; A 1 2 0 31; S 1")), "S refused 12 1 0");
    assert_eq!(last(&format!("{hour}; A 1 2 0 29; S 1")), "S refused 14 1 0");
    assert_eq!(last(&format!("{hour}; M 1 1 2001; S 1")), "S refused 15 2 0");
    assert_eq!(last(&format!("{hour}; M 1 1 1999; S 1")), "S refused 15 2 0");
}

#[test]
fn both_opposite_limits_of_zero_bind() {
    let hour = "Z 2; K 0 0 5; H 1 7; G; C 0; M 0 0 1000000; M 0 1 999999";
    assert_eq!(last(&format!("{hour}; Q 0")), "Q accepted 0 0 0 0");
    assert_eq!(last("Z 2; K 0 0 5; H 1 7; H 1 4; G; C 0; M 0 1 1; Q 0"), "Q refused 14 1 0");
}

#[test]
fn a_withdrawn_order_takes_nothing() {
    let hour = "Z 1; G; O 0 0 0 5; B 1 0 10 5; O 0 0 20 5; W 0 0 1; C 1; A 0 0 0 5; A 0 1 0 5; L 0 10000000";
    // At 10,000 the withdrawn offer would gladly sell, but is not asked; the bid would rather not buy.
    assert_eq!(last(&format!("{hour}; Q 0")), "Q refused 15 1 0");
    assert_eq!(last(&format!("{hour}; L 0 0; Q 0")), "Q accepted 50 0 0 0");
    assert_eq!(last(&format!("{hour}; A 0 0 1 1; Q 0")), "Q refused 10 0 1");
}

#[test]
fn each_house_has_a_sheet_and_an_hour_forgets() {
    let hour = "Z 1; G; O 0 0 3000 60; B 1 0 9000 60; C 0; A 1 0 0 60; A 1 1 0 60; L 1 3000000";
    assert_eq!(last(&format!("{hour}; Q 0")), "Q refused 15 1 0");
    assert_eq!(last(&format!("{hour}; S 1; C 0; Q 1")), "Q accepted 0 0 -180000000 180000000");
    assert_eq!(last(&format!("{hour}; X 0; C 1; S 1")), "S accepted 0 0 0 0");
    assert_eq!(last(&format!("{hour}; X 0; A 0 0 0 1")), "A refused 4 0 0");
    assert_eq!(last(&format!("{hour}; X 0; C 0; A 0 0 0 1")), "A refused 5 0 0");
}

#[test]
fn tries_are_shared_and_counted_even_when_refused() {
    let mut text = String::from("Z 1; G; C 0; L 1 1000000000");
    for _ in 0..100 {
        text += "; Q 0; S 1";
    }
    assert_eq!(last(&text), "S refused 13 0 0");
    assert_eq!(last(&format!("{text}; S 0")), "S refused 9 0 0");
    assert_eq!(last(&format!("{text}; Q 2")), "Q refused 3 0 0");
    assert_eq!(last(&format!("{text}; X 0; C 0; S 0")), "S accepted 0 0 0 0");
}

#[test]
fn a_month_has_744_hours() {
    let mut text = String::from("Z 1; G");
    for _ in 0..744 {
        text += "; C 0; S 1";
    }
    assert_eq!(last(&text), "S accepted 0 0 0 0");
    assert_eq!(last(&format!("{text}; C 0")), "C refused 8 0 0");
    assert_eq!(last(&format!("{text}; C 2")), "C refused 3 0 0");
    assert_eq!(last(&format!("{text}; S 0")), "S refused 4 0 0");
    assert_eq!(last(&format!("{text}; O 0 0 0 1")), "O ok");
}

#[test]
fn withdrawing_gives_back_energy_but_no_number() {
    let full = "Z 1; G; O 0 0 0 9999999; B 1 0 0 1";
    assert_eq!(last(&format!("{full}; B 1 0 0 1")), "B refused 8 0 0");
    assert_eq!(last(&format!("{full}; W 1 0 0")), "W refused 7 0 0");
    assert_eq!(last(&format!("{full}; W 0 0 0; W 0 0 0")), "W refused 7 0 0");
    assert_eq!(last(&format!("{full}; W 0 0 0; B 1 0 0 9999999")), "B ok");
    let mut text = String::from("Z 1; G");
    for number in 0..512 {
        text += &format!("; O 0 0 0 1; W 0 0 {number}");
    }
    assert_eq!(last(&text), "W ok");
    assert_eq!(last(&format!("{text}; O 0 0 0 1")), "O refused 8 0 0");
    assert_eq!(last(&format!("{text}; B 0 0 0 1")), "B ok");
}

#[test]
fn the_network_block_in_order() {
    assert_eq!(last("Z 0"), "Z refused 5 0 0");
    assert_eq!(last("Y 25"), "Y refused 5 0 0");
    assert_eq!(last("Z 2; Y 2"), "Y refused 4 0 0");
    assert_eq!(last("Z 2; G"), "G refused 4 0 0");
    assert_eq!(last("Z 2; K 1 0 0"), "K refused 5 0 0");
    assert_eq!(last("Z 2; K 0 0 10000001"), "K refused 6 0 0");
    assert_eq!(last("Z 2; K 0 0 0; K 0 0 0"), "K refused 4 0 0");
    assert_eq!(last("Y 1; R 0 1001 1"), "R refused 5 0 0");
    assert_eq!(last("Y 1; R 0 1001"), "R refused 6 0 0");
    assert_eq!(last("Y 1; V 10000001; R 0 -1000"), "R ok");
    assert_eq!(last("Y 1; V 0; R 0"), "R refused 4 0 0");
    assert_eq!(last("Y 1; V 0; H 1 0"), "H refused 5 0 0");
    assert_eq!(last("Y 1; V 0; H 0 0; V 0"), "V refused 4 0 0");
    assert_eq!(last("Y 1; G; G"), "G refused 4 0 0");
    assert_eq!(last("O 2 0 0 0"), "O refused 3 0 0");
    assert_eq!(last("Y 1; O 1 9 0 0"), "O refused 4 0 0");
}

#[test]
fn a_monitored_row_over_a_tree() {
    // Half of what is fed into zone 1 flows over the row, which is the third line; 2 of its 7 kWh are held back.
    let hour = "Z 2; K 0 100 100; V 7 0 500; H 2 2; G; O 0 1 10 20; B 1 0 30 20; C 0; A 0 0 0 10; A 0 1 0 10; \
                L 0 30000; M 0 2 40";
    assert_eq!(last(&format!("{hour}; S 0")), "S accepted 200 200000 -100000 300000");
    assert_eq!(last(&format!("{hour}; A 0 0 0 11; A 0 1 0 11; S 0")), "S refused 12 2 0");
}

#[test]
fn where_reading_ends() {
    assert_eq!(answers(b""), "");
    assert_eq!(answers(b"z"), "0 ? refused 1 0 0\n");
    assert_eq!(answers(b"Z\x01\nG"), "0 Z ok\n2 ? refused 1 0 0\n");
    assert_eq!(answers(b"Z"), "0 Z refused 2 0 0\n");
    assert_eq!(answers(b"Z\x02K\0\0\0\0\0\0\0\0"), "0 Z ok\n2 K refused 2 0 0\n");
    let long = answers(&vec![b'G'; 70_000]);
    assert_eq!(long.lines().count(), 65_536);
    assert_eq!(long.lines().last(), Some("65535 G refused 4 0 0"));
    let mut cut = vec![b'G'; 65_535];
    cut.extend(b"C\0");
    assert_eq!(answers(&cut).lines().last(), Some("65535 C refused 2 0 0"));
}
