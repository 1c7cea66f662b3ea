//! The calls over the practice table. It has base graph 2 with the core shape. Row i of 4 or more is a copy of column i mod 10,
//! shifted by i. So the wanted bits follow by hand.

use nr::{
    buffer, codeword, crc, cut, encode, erase, interleave, join, lengths, places, plan, rate_match, receive, receive_many,
    receive_packed, select, send, send_into, send_many, send_packed, simulate,
};
use nr::{Fault, Joined, Match, Outcome, Poly, Receiver, Settings, Table, TableCause, Tx, ERASED, FILLER};

const LINK: Settings = Settings::new(2048);

fn practice() -> String {
    let core = ["0 2 4 6 8 10 11", "1 3 5 7 9 11 12", "0 2 4 6 8 10 12 13", "1 3 5 7 9 10 13"];
    let mut text = String::new();
    let mut entry = |row: usize, column: usize, value: usize| {
        text += &format!("2,{row},{column}{}\n", format!(",{value}").repeat(8));
    };
    for (row, columns) in core.iter().enumerate() {
        for column in columns.split(' ').map(|column| column.parse().unwrap()) {
            entry(row, column, usize::from(row == 2 && column == 10));
        }
    }
    for row in 4..42 {
        entry(row, row % 10, row);
        entry(row, 10 + row, 0);
    }
    text
}

fn table() -> Table {
    Table::read(practice().as_bytes()).unwrap()
}

/// The bits of hexadecimal digits.
fn bits(digits: &str) -> Vec<u8> {
    let numbers = digits.chars().map(|digit| digit.to_digit(16).unwrap() as u8);
    numbers.flat_map(|number| (0..4).rev().map(move |place| number >> place & 1)).collect()
}

/// Columns 0 to 51 of the block 01: four bits each.
const WORD: &str = "0110210000033022000008108800000240220000081088000002";

#[test]
fn versions_agree() {
    assert_eq!(nr::version(), env!("CARGO_PKG_VERSION"));
}

#[test]
fn plans_and_lengths() {
    let found = plan(2048, 8).unwrap();
    assert_eq!((found.graph, found.c, found.kdash, found.z, found.k, found.n), (2, 1, 24, 4, 40, 200));
    assert_eq!(lengths(2048, 8, &Tx::new(184, 1)), Ok(vec![184]));
    let second = buffer(&LINK, 8, 2).unwrap();
    assert_eq!((second.ncb, second.k0), (200, 100));
    assert_eq!(crc(Poly::Crc16, b"123456789"), Ok(0x31C3));
}

#[test]
fn a_codeword_and_the_bits_sent() {
    let word = codeword(&table(), 2048, 8, &bits("011021")).unwrap();
    let mut wanted = bits(&WORD[2..]);
    wanted[16..32].fill(FILLER);
    assert_eq!(word, wanted);
    assert_eq!(cut(2048, &[1], 0), Ok(bits("011021")));
    let mut block = bits(&WORD[..10]);
    block[24..].fill(FILLER);
    assert_eq!(encode(&table(), 2, 4, &block), Ok(wanted.clone()));
    let sent = send(&table(), &LINK, &[1], &Tx::new(184, 1)).unwrap();
    let kept: Vec<u8> = wanted.into_iter().filter(|&bit| bit != FILLER).collect();
    assert_eq!(sent, kept);
}

/// Each row has what the calls for one block say.
#[test]
fn many_blocks() {
    let (table, txs, blocks) = (table(), [Tx::new(184, 1), Tx::new(24, 2).rv(2)], [1, 0x5a, 0xff]);
    let sent = send_many(&table, &LINK, 8, &txs, &blocks).unwrap();
    let one = |block: &u8| txs.map(|tx| send(&table, &LINK, &[*block], &tx).unwrap()).concat();
    assert_eq!(sent, blocks.iter().flat_map(one).collect::<Vec<u8>>());
    let mut heard = sent;
    heard[..184].fill(ERASED);
    heard[2 * 208] ^= 1;
    let found = receive_many(&table, &LINK, 8, &txs, &heard).unwrap();
    for (row, found) in heard.chunks(208).zip(&found) {
        let parts = [(txs[0], &row[..184]), (txs[1], &row[184..])];
        assert_eq!(Ok(found), receive(&table, &LINK, 8, &parts).as_ref());
    }
    assert_eq!(found.iter().map(|it| it.block.is_some()).collect::<Vec<_>>(), [false, true, false]);
    assert_eq!(found[1].block, Some(vec![0x5a]));
    assert_eq!(send_many(&table, &LINK, 8, &txs, &[]), Ok(vec![]));
    assert_eq!(send_many(&table, &LINK, 16, &txs, &blocks), Err(Fault::Size));
    assert_eq!(send_many(&table, &LINK, 0, &[Tx::new(4_194_304, 1)], &[0; 1 << 20]), Err(Fault::Size));
    assert_eq!(send_many(&table, &LINK, 8, &[txs[0], txs[1].rv(4)], &blocks), Err(Fault::Rv));
    assert_eq!(receive_many(&table, &LINK, 8, &txs, &heard[1..]), Err(Fault::Length));
    assert_eq!(receive_many(&table, &LINK, 8, &[txs[0]; 1001], &[]), Err(Fault::Many));
}

#[test]
fn the_stages_of_a_code_block() {
    let d = codeword(&table(), 2048, 8, &bits("011021")).unwrap();
    let e = select(&LINK, 8, 0, &d, 24).unwrap();
    assert_eq!((&e[..16], &e[16..]), (&d[..16], &d[32..40]));
    assert_eq!(interleave(4, &e), Ok(bits("000a51")));
    assert_eq!(select(&LINK, 8, 0, &d, u32::MAX), Err(Fault::Many));
    assert_eq!(interleave(4, &e[1..]), Err(Fault::Ragged));
    let numbers = Match { graph: 2, z: 4, fillers: 16, ncb: 200, rv: 0, qm: 4 };
    assert_eq!(rate_match(&numbers, &d, 24), Ok(bits("000a51")));
    assert_eq!(rate_match(&Match { ncb: 201, ..numbers }, &d, 24), Err(Fault::NoBuffer));
    assert_eq!(rate_match(&numbers, &d, 25), Err(Fault::Ragged));
}

/// 40 places of a code block of 24 bits, of which the first 16 of d stand before 16 fillers (rv 0), as they are sent.
#[test]
fn a_soft_receiver_finds_and_joins() {
    let (table, tx) = (table(), Tx::new(40, 2));
    let (found, d) = (places(&LINK, 8, &tx).unwrap(), codeword(&table, 2048, 8, &bits("011021")).unwrap());
    let sent = send(&table, &LINK, &[1], &tx).unwrap();
    assert_eq!(found.iter().map(|&at| d[at as usize]).collect::<Vec<_>>(), sent);
    assert_eq!(&found[..6], [0, 36, 1, 37, 2, 38]);
    assert_eq!(places(&LINK, 8, &Tx::new(25, 2)), Err(Fault::Ragged));
    let joined = Joined { block: vec![1], block_passed: true, passed: vec![true] };
    assert_eq!(join(2048, 8, &cut(2048, &[1], 0).unwrap()), Ok(joined));
    let wrong = join(2048, 8, &bits("011020")).unwrap();
    assert_eq!((wrong.block, wrong.block_passed, wrong.passed), (vec![1], false, vec![false]));
    assert_eq!(join(2048, 8, &[0; 23]), Err(Fault::Length));
    assert_eq!(join(2048, 8, &[2; 24]), Err(Fault::Bit));
}

#[test]
fn packed_forms_are_the_others() {
    let (table, tx) = (table(), Tx::new(186, 2));
    let sent = send(&table, &LINK, &[1], &tx).unwrap();
    let octets: Vec<u8> = sent.chunks(8).map(|it| it.iter().fold(0, |at, bit| at << 1 | bit) << (8 - it.len())).collect();
    assert_eq!(send_packed(&table, &LINK, &[1], &tx), Ok(octets.clone()));
    let mut known = vec![0xff; octets.len()];
    known[0] = 0x0f;
    let mut heard = sent;
    heard[..4].fill(ERASED);
    let found = receive_packed(&table, &LINK, 8, &[(tx, &octets, &known)]);
    assert_eq!(found, receive(&table, &LINK, 8, &[(tx, &heard)]));
    assert_eq!(receive_packed(&table, &LINK, 8, &[(tx, &octets, &known[1..])]), Err(Fault::Length));
}

#[test]
fn places_are_erased_where_they_are_drawn() {
    // the first words of the generator from seed 42
    let words: [u32; 4] = [0xa15c02b7, 0x7b47f409, 0xba1d3330, 0x83d2f293];
    let mut heard = [0, 1, 1, 0];
    erase(42, words[3] + 1, &mut heard);
    assert_eq!(heard, [0, ERASED, 1, ERASED]);
}

#[test]
fn rounds_end_where_the_block_is_delivered() {
    let tx = Tx::new(184, 1);
    let found = simulate(&table(), &LINK, 8, &[(tx, u32::MAX), (tx, 0)], &[1, 2, 3, 4]).unwrap();
    assert_eq!((found.delivered, found.left), (vec![2, 2], vec![24, 0, 24, 0]));
    assert_eq!(found.erased, [184, 0, 184, 0]);
    assert_eq!(simulate(&table(), &LINK, 8, &[(tx, 0), (tx, 0)], &[1]), Err(Fault::Length));
}

#[test]
fn a_block_is_delivered_and_what_clashes_is_none() {
    let tx = Tx::new(184, 1);
    let mut heard = send(&table(), &LINK, &[1], &tx).unwrap();
    let nothing = vec![ERASED; 184];
    let found = receive(&table(), &LINK, 8, &[(tx, &nothing), (tx, &heard)]).unwrap();
    assert_eq!(found.outcomes, [Outcome::Open, Outcome::Delivered]);
    assert_eq!((found.left, found.block), (vec![0], Some(vec![1])));
    heard[7] ^= 1;
    let found = receive(&table(), &LINK, 8, &[(tx, &heard)]).unwrap();
    assert_eq!((found.outcomes, found.block), (vec![Outcome::Contradiction], None));
}

#[test]
fn a_receiver_takes_up_a_transmission_at_a_call() {
    let (table, tx) = (table(), Tx::new(92, 1));
    let mut receiver = Receiver::new(&table, &LINK, 8).unwrap();
    assert_eq!(receiver.room().len(), 32 + 209);
    let first = receiver.take(&table, &tx, &[ERASED; 92]).unwrap();
    assert_eq!((first.outcome, first.left, first.block), (Outcome::Open, vec![24], None));
    let sent = send(&table, &LINK, &[1], &tx).unwrap();
    let mut again = Receiver::of_room(&LINK, 8, receiver.room().to_vec());
    let second = again.take(&table, &tx, &sent).unwrap();
    assert_eq!((second.outcome, second.left, second.block), (Outcome::Delivered, vec![0], Some(vec![1])));
    let before = again.clone();
    assert_eq!(again.take(&table, &tx, &sent[1..]), Err(Fault::Length));
    assert_eq!(again, before);
    let mut other = Receiver::of_room(&LINK, 8, vec![0; 241]);
    assert_eq!(other.take(&table, &tx, &sent), Err(Fault::State));
    assert_eq!(Receiver::new(&table, &LINK, 3832).unwrap_err(), Fault::Graph);
}

#[test]
fn refusals_are_told() {
    let table = table();
    assert_eq!(plan(0, 8), Err(Fault::RateRange));
    assert_eq!(plan(2048, 12), Err(Fault::Size));
    assert_eq!(send(&table, &LINK, &[1], &Tx::new(25, 2)), Err(Fault::Ragged));
    assert_eq!(send(&table, &LINK, &[1], &Tx::new(u32::MAX, 1)), Err(Fault::Total));
    assert_eq!(send(&table, &LINK, &[1], &Tx::new(24, 1).rv(4)), Err(Fault::Rv));
    assert_eq!(send(&table, &LINK, &[1], &Tx::new(24, 1).blocks(&[])), Err(Fault::NoneScheduled));
    assert_eq!(send(&table, &LINK, &[0; 500], &Tx::new(24, 1)), Err(Fault::Graph));
    assert_eq!(cut(2048, &[1], 1), Err(Fault::CodeBlock));
    assert_eq!(encode(&table, 2, 17, &[0; 170]), Err(Fault::Lifting));
    assert_eq!(encode(&table, 1, 4, &[0; 88]), Err(Fault::Graph));
    assert_eq!(encode(&table, 2, 4, &[0; 39]), Err(Fault::Length));
    assert_eq!(codeword(&table, 2048, 8, &[0; 23]), Err(Fault::Length));
    assert_eq!(codeword(&table, 2048, 8, &[2; 24]), Err(Fault::Bit));
    assert_eq!(receive(&table, &LINK, 8, &[(Tx::new(24, 1), &[0; 23])]), Err(Fault::Length));
    let mut room = [7; 23];
    assert_eq!(send_into(&table, &LINK, &[1], &Tx::new(24, 1), &mut room), Err(Fault::Room));
    assert_eq!(room, [7; 23]);
    assert!(Fault::Ragged.to_string().starts_with("g is not a multiple of qm * nl, or "));
}

#[test]
fn a_table_that_is_none_says_where() {
    let fault = Table::read(practice().replace("2,0,4,", "2,0,x,").as_bytes()).unwrap_err();
    assert_eq!((fault.cause, fault.place), (TableCause::Number, 3));
    assert_eq!(fault.to_string(), "a field of record 3 of the table is not 1 to 10 decimal digits");
    assert_eq!(Table::read(b"").unwrap_err().cause, TableCause::Empty);
    assert_eq!(table().entries().len(), 105);
    assert_eq!(Table::practice().entries()[316..], *table().entries());
    let said = format!("{:?} {fault:?}", Fault::Layers);
    assert_eq!(said, "Layers: nl is not 1 to 4 Number: a field of record 3 of the table is not 1 to 10 decimal digits");
}

#[test]
fn threads_share_a_table() {
    let table = table();
    let wanted = send(&table, &LINK, &[1], &Tx::new(184, 1));
    std::thread::scope(|scope| {
        for _ in 0..4 {
            scope.spawn(|| assert_eq!(send(&table, &LINK, &[1], &Tx::new(184, 1)), wanted));
        }
    });
}
