//! The line lister, as a program, beside the second program's.

use compare::generator::Generator;
use compare::lines::Kind;
use compare::programs::output_of;
use compare::tally::Tally;
use second::lister::list;

/// What the proved lister writes for this input.
fn listed(input: &[u8]) -> Vec<u8> {
    output_of("line_lister", input)
}

#[test]
fn example_of_document_01() {
    let line = [
        0x7E, 0x2C, 0x01, 0x01, 0x2C, 0x7E, 0x2C, 0x02, 0x2B, 0xC5, 0xE7, 0x7E, 0x7D, 0x7E,
    ];
    let text = "ok 2 2c 01\nok 3 2c 02 2b\nno 2\n\
                bytes 14 flags 4 delivered 9 refused 1 skipped 0 open 0\n";
    assert_eq!(String::from_utf8(listed(&line)).unwrap(), text);
}

#[test]
fn no_input() {
    let text = "bytes 0 flags 0 delivered 0 refused 0 skipped 0 open 0\n";
    assert_eq!(String::from_utf8(listed(&[])).unwrap(), text);
}

#[test]
fn lines_of_every_kind() {
    let mut tally = Tally::default();
    let mut generator = Generator::new(11);
    for kind in Kind::ALL {
        // About the size of a block, and many blocks.
        for octets in [1, 300, 65_535, 65_536, 65_537, 1_500_000] {
            let mut line = kind.line(octets, &mut generator);
            line.truncate(octets);
            let differs = listed(&line) != list(&line);
            let difference = differs.then(|| format!("{octets} {}", kind.name()));
            tally.count_many(kind.name(), octets as u64, difference);
        }
    }
    tally.close("line lister, in octets", 10_000_000);
}
