//! The pool walk.

use deqbaryn_tests::model::checks;
use deqbaryn_tests::model::image::{bodies, build, Body, Record};
use deqbaryn_tests::model::operations::Operation::*;
use deqbaryn_tests::model::pool;
use deqbaryn_tests::worked::{plain, record, LOAD};
use std::fs;
use std::path::Path;

const HEAD: &str = "event pc next fcx pcxi\n";

#[test]
fn the_pool_walk_of_call_and_ret() {
    let image = build(&[Body { load: LOAD, records: vec![record(Call, 0, 0, 0, 4), plain(Ret)] }]);
    let bytes = "01000000000000800200000010000000 4000000004000000 4200000000000000".replace(' ', "");
    assert_eq!(image.iter().map(|b| format!("{b:02x}")).collect::<String>(), bytes);
    let lines = "ins 80000000 80000004 000D0001 004D0000\n\
                 ins 80000004 80000004 000D0000 00000000\n\
                 trap 80000004 80010060 000D0001 004D0000\n\
                 end 3\n";
    assert_eq!(pool::walk(&image), format!("{HEAD}{lines}"));
}

#[test]
fn the_pool_walk_of_short_forms() {
    let walk = |records: Vec<Record>| pool::walk(&build(&[Body { load: LOAD, records }]));
    let lines = "ins 80000000 80000002 000D0001 004D0000\n\
                 ins 80000002 80000002 000D0000 00000000\n\
                 trap 80000002 80010060 000D0001 004D0000\n\
                 end 3\n";
    assert_eq!(walk(vec![record(Call, 0, 0, 0, 2).short(), plain(Ret).short()]), format!("{HEAD}{lines}"));
    // into the second record
    let lines = "ins 80000000 80000004 000D0000 00000000\n\
                 trap 80000004 80010080 000D0001 004D0000\n\
                 end 2\n";
    assert_eq!(walk(vec![record(J, 0, 0, 0, 4).short(), plain(Nop)]), format!("{HEAD}{lines}"));
    assert_eq!(walk(vec![plain(Nop).short(), Record { op: 207, ..Record::NOP }]), "refused 3 1\n");
}

#[test]
fn other_pool_walks() {
    let walk = |records: Vec<Record>| pool::walk(&build(&[Body { load: LOAD, records }]));
    assert_eq!(pool::walk(&[0; 65_537]), "long\n");
    assert_eq!(pool::walk(&[0; 65_536]), "refused 2 0\n");
    assert_eq!(walk(vec![plain(Nop), Record { op: 79, ..Record::NOP }]), "refused 3 1\n");
    let endless = walk(vec![plain(J)]);
    assert_eq!(endless.lines().count(), 100_002);
    assert!(endless.ends_with("ins 80000000 80000000 000D0000 00000000\nend 100000\n"));
    let calls = walk(vec![plain(Svlcx), record(J, 0, 0, 0, 0xFFFF_FFFC)]);
    assert!(calls.ends_with("ins 80000004 80000000 00000000 000D003F\nstop 11\nend 128\n"), "{calls}");
}

/// An image from its text: hexadecimal digits, with comments after '#'.
fn read(text: &str) -> Vec<u8> {
    let code = text.lines().map(|line| line.split('#').next().unwrap());
    let digits: Vec<char> = code.flat_map(str::chars).filter(|c| !c.is_whitespace()).collect();
    digits.chunks(2).map(|pair| u8::from_str_radix(&String::from_iter(pair), 16).unwrap()).collect()
}

#[test]
fn the_second_model_prints_the_examples() {
    let folder = Path::new(env!("CARGO_MANIFEST_DIR")).join("../examples/pool");
    let (mut met, mut short) = (0, 0);
    for entry in fs::read_dir(folder).unwrap() {
        let path = entry.unwrap().path();
        let printed = path.with_extension("txt");
        if path.extension().is_some_and(|end| end == "hex") && printed.exists() {
            let mut image = read(&fs::read_to_string(&path).unwrap());
            if path.file_stem().unwrap() == "long" {
                image.resize(65_537, 0);
            }
            assert_eq!(pool::walk(&image), fs::read_to_string(printed).unwrap(), "{path:?}");
            met += 1;
            short += (checks::image(&image).is_ok()
                && bodies(&image).iter().any(|b| b.records.iter().any(|r| r.length() == 2)))
                as u32;
        }
    }
    assert!(met >= 18 && short >= 3, "{met} {short}");
}
