//! Programs that `python3 -m bpfhost build` writes: what is read, what is loaded, and what is refused.

mod common;

use bpfhost::{BuiltProgram, Context, Errno, Error, Fd, MapShape, MapType};
use common::host;

/// What `build` made of examples/built/filter.c.
const FILE: &str = include_str!("../../../examples/built/filter.json");

/// r0 = 1; exit, as a file with these maps.
fn file(maps: &str) -> String {
    let slots = r#"["b700000001000000","9500000000000000"]"#;
    format!(r#"{{"format":"bpfhost program","version":1,"name":"one","later":[{{}}],"slots":{slots},"maps":[{maps}]}}"#)
}

fn map(slots: &str, initial: &str) -> String {
    let sizes = r#""key_size":4,"value_size":8,"max_entries":2"#;
    format!(r#"{{"name":"m","type":"hash",{sizes},"slots":[{slots}],"initial":{initial}}}"#)
}

#[test]
fn a_filter_is_read_and_loaded() {
    let built = BuiltProgram::read(FILE).unwrap();
    assert_eq!(built.name(), "keep_odd");
    let names: Vec<_> = built.maps().iter().map(|map| map.name()).collect();
    assert_eq!(names, ["kinds", ".rodata"]);
    let shape = MapShape { map_type: MapType::Array, key_size: 4, value_size: 8, max_entries: 2 };
    assert_eq!(built.maps()[0].shape(), shape);

    let mut host = host(1);
    let mut tenant = host.tenant(0);
    let loaded = built.load(&mut tenant).unwrap();
    assert_eq!((loaded.prog, &loaded.maps[..]), (Fd(5), &[Fd(3), Fd(4)][..]));
    let mut run = |packet: &[u8]| tenant.prog_test_run(loaded.prog, &Context::default(), packet).unwrap();
    assert_eq!([run(b"a packet"), run(b"b packet"), run(b""), run(b"\x01")], [60, 0, 0, 60]);
    assert_eq!(tenant.map_lookup(loaded.maps[0], &[0; 4]).unwrap(), 2u64.to_le_bytes());
    assert_eq!(tenant.map_lookup(loaded.maps[0], &[1, 0, 0, 0]).unwrap(), 2u64.to_le_bytes());
}

#[test]
fn maps_are_named_and_have_their_first_values() {
    let text = file(&map("", "\"0102030405060708\""))
        .replace("\"b700000001000000\"", "\"1801000000000000\",\"0000000000000000\",\"b700000001000000\"");
    let built =
        BuiltProgram::read(&text.replace("18010000", "18110000").replace("\"slots\":[],", "\"slots\":[0],")).unwrap();
    let mut host = host(1);
    let mut tenant = host.tenant(0);
    let loaded = built.load(&mut tenant).unwrap();
    assert_eq!(tenant.map_lookup(loaded.maps[0], &[0; 4]).unwrap(), [1, 2, 3, 4, 5, 6, 7, 8]);
}

#[test]
fn what_is_refused_leaves_nothing_open() {
    let mut host = host(1);
    let mut tenant = host.tenant(0);
    let no_exit = file(&map("", "null")).replace(",\"9500000000000000\"", "");
    let refused = BuiltProgram::read(&no_exit).unwrap().load(&mut tenant);
    assert_eq!(refused, Err(Error::Refused { errno: Errno::EINVAL, slot: 0, reason: 3 }));
    let wrong_value = file(&[map("", "null"), map("", "\"01\"")].join(","));
    let refused = BuiltProgram::read(&wrong_value).unwrap().load(&mut tenant);
    assert_eq!(refused, Err(Error::Status(Errno::EINVAL)));
    assert_eq!(BuiltProgram::read(&file("")).unwrap().load(&mut tenant).unwrap().prog, Fd(3));
}

#[test]
fn what_is_no_built_program() {
    for (text, told) in [
        (String::new(), "there is no value at byte 0"),
        ("[]".to_string(), "format is asked of what is no object"),
        ("{}".to_string(), "it has no format"),
        (file("").replace("bpfhost program", "other"), "its format is another one than bpfhost program"),
        (file("").replace(":1,", ":2,"), "its version is 2, and 1 is known"),
        (file("").replace("95000000", "950000"), "95000000000000 is no slot"),
        (file("").replace("95000000", "9500000x"), "9500000x00000000 are no bytes in hexadecimal digits"),
        (file("").replace("\"one\"", "1"), "something is no string"),
        (file("").replace("\"slots\":[", "\"slots\":3,\"more\":["), "something is no list"),
        (file(&map("2", "null")), "a map is named at slot 2, and there are 2"),
        (file(&map("", "null")).replace("hash", "lru"), "a map has type lru"),
        (file(&map("", "\"012\"")), "012 are no bytes in hexadecimal digits"),
        (file(&map("", "null")).replace("\"key_size\":4", "\"key_size\":\"4\""), "something is no number"),
        (file(&map("", "null")).replace("\"key_size\"", "\"size\""), "it has no key_size"),
    ] {
        let error = BuiltProgram::read(&text).unwrap_err();
        assert_eq!(error.to_string(), format!("this is no built program: {told}"), "{text}");
    }
}
