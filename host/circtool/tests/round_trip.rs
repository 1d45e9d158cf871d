//! Scripts and bytes: assembling what was disassembled gives the same bytes, and the lines say what the bytes say.

mod shared;

use circmon::Unit;
use circtool::assemble::assemble;
use circtool::disassemble::disassemble;
use circtool::request::Request;
use load::Random;
use shared::lines::request_line;
use sidebyside::SHAPES;

fn round_trip(bytes: &[u8], what: &str) -> String {
    let script = disassemble(bytes);
    match assemble(&script) {
        Ok(again) => assert_eq!(again, bytes, "{what}: the script was\n{script}"),
        Err(errors) => panic!("{what}: {errors:?}\n{script}"),
    }
    script
}

#[test]
fn runs_of_valid_and_damaged_requests() {
    let (mut requests, mut malformed) = (0, 0);
    for seed in 0..60 {
        let run = shared::run(seed, SHAPES[seed as usize % SHAPES.len()], 400);
        let mut bytes = run.table.to_vec();
        bytes.extend(run.requests.concat());
        let script = round_trip(&bytes, &format!("seed {seed}"));
        let lines: Vec<&str> = script.lines().filter(|line| !line.is_empty() && !line.starts_with("subject")).collect();
        let pieces: Vec<&[u8]> = bytes[42..].chunks(6).collect();
        assert_eq!(lines.len(), pieces.len(), "seed {seed}");
        for (line, piece) in lines.iter().zip(pieces) {
            requests += 1;
            match reference::Request::decode(piece) {
                Some(request) => assert_eq!(*line, request_line(&request), "seed {seed}: {piece:02x?}"),
                None => {
                    malformed += 1;
                    assert!(line.starts_with("bytes ") && line.contains("  # "), "seed {seed}: {line}");
                }
            }
        }
    }
    assert!(requests > 20_000 && malformed > 500, "{requests} requests, {malformed} malformed");
}

/// Those of six bytes one behind the other, the others each by itself behind the table.
#[test]
fn every_request_of_the_side_by_side_runs() {
    let mut requests = 0;
    for seed in 0..sidebyside::RUNS {
        let (table, list) = sidebyside::drawn(seed, sidebyside::shape(seed), sidebyside::RUN_REQUESTS);
        requests += list.len();
        let (whole, others): (Vec<_>, Vec<_>) = list.into_iter().partition(|request| request.len() == 6);
        round_trip(&[&table[..], &whole.concat()].concat(), &format!("seed {seed}"));
        for request in others {
            round_trip(&[&table[..], &request].concat(), &format!("seed {seed}: {request:02x?}"));
        }
    }
    assert!(requests >= 1_000_000);
}

#[test]
fn random_bytes_of_every_length_from_0_to_200() {
    for seed in 0..10 {
        for length in 0..=200 {
            let random = &mut Random::new(1000 * seed + length as u64);
            round_trip(&random.bytes(length), &format!("seed {seed}, length {length}"));
        }
    }
}

#[test]
fn random_bytes_behind_accepted_tables() {
    for seed in 0..300 {
        let random = &mut Random::new(seed);
        let mut bytes = load::table(random, SHAPES[4]).to_vec();
        let length = random.below(100);
        bytes.extend(random.bytes(length));
        let script = round_trip(&bytes, &format!("seed {seed}"));
        assert!(!script.contains("table-bytes"), "seed {seed}");
    }
}

#[test]
fn tables_with_each_bit_damaged() {
    let mut refused = 0;
    for seed in 0..10 {
        let random = &mut Random::new(seed);
        let table = load::table(random, SHAPES[seed as usize % SHAPES.len()]);
        for bit in 0..42 * 8 {
            let mut bytes = table.to_vec();
            bytes[bit / 8] ^= 0x80 >> (bit % 8);
            bytes.extend([0x50, 0x80, 0, 0, 0, 0]);
            let script = round_trip(&bytes, &format!("seed {seed}, bit {bit}"));
            let accepted = Unit::from_table(&bytes[..42]).is_ok();
            assert_eq!(script.contains("table-bytes"), !accepted, "seed {seed}, bit {bit}");
            refused += usize::from(!accepted);
        }
    }
    assert!(refused > 100, "{refused}");
}

#[test]
fn more_requests_than_the_program_reads() {
    let mut bytes = vec![0; 42];
    bytes.extend([0x50, 0x80, 0, 0, 0, 0].repeat(4097));
    let script = round_trip(&bytes, "4,097 requests");
    let at = script.lines().position(|line| line.contains("reads no further")).unwrap();
    assert_eq!(script.lines().skip(at + 1).count(), 1, "one request stands behind the remark");
    assert!(!round_trip(&bytes[..bytes.len() - 6], "4,096 requests").contains("reads no further"));
}

/// Six bytes with these fields.
fn packed(fields: [u64; 8]) -> [u8; 6] {
    let widths = [4, 5, 5, 7, 3, 4, 16, 4];
    let number = fields.iter().zip(widths).fold(0, |number, (field, width)| number << width | field);
    number.to_be_bytes()[2..].try_into().unwrap()
}

#[test]
fn bytes_are_a_request_exactly_where_the_library_does_not_reply_2() {
    let everyone = reference::Monitor::begin([Some(reference::Level { class: 1, needs: 1 }); 16]).table();
    let unit = Unit::from_table(&everyone).unwrap();
    let (mut seen, mut malformed) = (0, 0);
    for at in 0..16 * 8 * 4 * 3 * 4 * 2 * 4 * 2 {
        let mut rest = at;
        let mut draw = |from: &[u64]| {
            let value = from[rest % from.len()];
            rest /= from.len();
            value
        };
        let kind = draw(&std::array::from_fn::<u64, 16, _>(|k| k as u64));
        let mode = draw(&[0, 1, 2, 3, 4, 5, 6, 7]);
        let (actor, other, object) = (draw(&[0, 15, 16, 31]), draw(&[0, 15, 16]), draw(&[0, 63, 64, 127]));
        let (class, needs, spare) = (draw(&[0, 9]), draw(&[0, 64, 65, 0x8001]), draw(&[0, 1]));
        let bytes = packed([kind, actor, other, object, mode, class, needs, spare]);
        let reply = unit.clone().ask(&bytes);
        let decoded = Request::decode(&bytes);
        assert_eq!(decoded.is_err(), reply == 2, "{bytes:02x?}");
        match decoded {
            Ok(request) => assert_eq!(request.encode(), bytes),
            Err(reasons) => {
                assert!(!reasons.is_empty(), "{bytes:02x?} has no reason");
                malformed += 1;
            }
        }
        seen += 1;
    }
    // two actors on two objects: 4 get, 4 release, 8 give, 8 rescind, 4 create, of which 2 carry a parent, 1 delete, 8 changes of
    // level and 4 settings of companies each
    assert_eq!((seen, seen - malformed), (98_304, 4 * 41));
}

#[test]
fn each_reason_stands_behind_its_bytes() {
    for (fields, reason) in [
        ([0, 1, 0, 0, 0, 0, 0, 0], "kind 0 is not 1 to 8"),
        ([9, 1, 0, 0, 0, 0, 0, 0], "kind 9 is not 1 to 8"),
        ([1, 16, 0, 0, 1, 0, 0, 0], "actor 16 is above 15"),
        ([3, 1, 16, 0, 1, 0, 0, 0], "other subject 16 is above 15"),
        ([1, 1, 0, 64, 1, 0, 0, 0], "object 64 is above 63"),
        ([1, 1, 0, 0, 0, 0, 0, 0], "mode 0 is not allowed in get"),
        ([2, 1, 0, 0, 5, 0, 0, 0], "mode 5 is not allowed in release"),
        ([5, 1, 0, 0, 1, 0, 0, 0], "mode 1 is not allowed in create"),
        ([7, 1, 0, 0, 4, 0, 0, 0], "mode 4 is not allowed in level"),
        ([8, 1, 0, 0, 4, 0, 7, 0], "mode 4 is not allowed in companies"),
        ([8, 1, 2, 0, 0, 0, 7, 0], "the unused field other subject is 2, not 0"),
        ([8, 1, 0, 0, 0, 3, 7, 0], "the unused field class is 3, not 0"),
        ([1, 1, 2, 0, 1, 0, 0, 0], "the unused field other subject is 2, not 0"),
        ([6, 1, 0, 0, 0, 3, 0, 0], "the unused field class is 3, not 0"),
        ([6, 1, 0, 0, 0, 0, 1, 0], "the unused field needs is 1, not 0"),
        ([5, 1, 0, 0, 0, 0, 65, 0], "the field of the parent, its number plus one, is 65, above 64"),
        ([5, 1, 0, 0, 4, 0, 0xFFFF, 0], "the field of the parent, its number plus one, is 65535, above 64"),
        ([5, 1, 0, 0, 0, 3, 1, 0], "the unused field class is 3, not 0"),
        ([7, 1, 0, 0, 0, 0, 0, 8], "the unused field spare is 8, not 0"),
        ([1, 31, 0, 70, 7, 0, 0, 0], "actor 31 is above 15; object 70 is above 63; mode 7 is not allowed in get"),
    ] {
        let mut bytes = vec![0; 42];
        bytes.extend(packed(fields));
        let script = round_trip(&bytes, reason);
        assert!(script.trim_end().ends_with(&format!("  # {reason}")), "{script}");
    }
    for (length, reason) in [(1, "1 byte, not 6"), (5, "5 bytes, not 6")] {
        let script = round_trip(&vec![0; 42 + length], reason);
        assert!(script.trim_end().ends_with(&format!("  # {reason}")), "{script}");
    }
    assert_eq!(disassemble(&[]), "# table refused with 10 (another length): 0 bytes, not 42\ntable-bytes none\n");
    assert_eq!(disassemble(&[0; 42]), "# nobody is enrolled\n");
}
