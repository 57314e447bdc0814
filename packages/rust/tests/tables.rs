//! Tables of other files.
#![cfg(feature = "tables")]

use lbk::{Break, Breaker, Cause, Class, Fault, Files, Profile, Table};

const FILES: Files = Files {
    line_break: b"000A;LF\n000D;CR\n0020;SP\n0061..007A;AL\n4E00;ID\n",
    east_asian: b"",
    category: b"",
    emoji: b"",
};

fn refused(files: Files) -> Fault {
    Table::read(files).map(|_| ()).unwrap_err()
}

#[test]
fn the_table_decides() {
    let text = "b\nbab\n";
    let table = Table::read(Files { line_break: b"000A;AL\n0061;BK\n0062;AL\n", ..FILES }).unwrap();
    let breaker = Breaker::new().table(&table);
    assert_eq!(breaker.next_paragraph(text, 1), 4);
    assert_eq!((breaker.class_of('a'), Class::of('a')), (Class::BK, Class::AL));
    let paragraphs: Vec<_> = breaker.paragraphs(text).map(|one| one.text).collect();
    assert_eq!(paragraphs, ["b\nba", "b\n"]);
    let copy = table.clone();
    drop(table);
    assert_eq!(Breaker::new().table(&copy).breaks(text).count(), 2);
}

/// Whatever classes characters have, the breaks are those positions where a line breaks, and those of pieces.
#[test]
fn any_classes_will_do() {
    let text =
        "The quick (brown) fox jumps, 1,500.75 lazy; é ñ и так далее, 日本語。 🇫🇷👍🏽\n".repeat(4);
    let mut seed = 7_u64;
    let mut some = |count: usize| {
        seed = seed.wrapping_mul(6_364_136_223_846_793_005).wrapping_add(1_442_695_040_888_963_407);
        usize::try_from(seed >> 33).unwrap() % count
    };
    for round in 0..40 {
        let mut rows = String::new();
        let mut first = 0;
        while first < 0x500 {
            let last = first + some(40);
            rows += &format!("{first:04X}..{last:04X};{}\n", Class::ALL[some(Class::ALL.len())]);
            first = last + 1;
        }
        let table = Table::read(Files { line_break: rows.as_bytes(), ..FILES }).unwrap();
        let profile = [Profile::First, Profile::Second][round % 2];
        let breaker = Breaker::new().table(&table).profile(profile);
        let breaks: Vec<Break> = breaker.breaks(&text).collect();
        let kept = breaker
            .positions(&text)
            .filter_map(|one| one.kind.map(|kind| Break { at: one.at, kind, rule: one.rule }));
        assert!(kept.eq(breaks.iter().copied()), "{rows}");
        let mut stream = breaker.stream();
        let mut given = Vec::new();
        for piece in text.as_bytes().chunks(7) {
            given.extend(stream.feed(piece));
        }
        given.extend(stream.finish());
        assert!(
            given.iter().map(|one| one.at).eq(breaks.iter().map(|one| one.at as u64)),
            "{rows}"
        );
    }
}

#[test]
fn each_fault_is_told() {
    let long = [b'#'; 1025];
    let many = "0061..0062;AL\n".to_string() + &"# @missing: 0000..10FFFF; XX\n".repeat(65_536);
    let huge = vec![b'\n'; 8_388_609];
    let faults = [
        (&b"0061;AL\nno row\n"[..], 2, Cause::RowSyntax),
        (b"0041 ; XY\n", 1, Cause::UnknownValue),
        (b"0042..0041;AL\n", 1, Cause::Range),
        (b"0041..0043;AL\n\n0042;AL\n", 3, Cause::Overlap),
        (&long, 1, Cause::LineTooLong),
        (many.as_bytes(), 65_537, Cause::TooManyRows),
        (&huge, 0, Cause::FileTooLong),
    ];
    for (line_break, line, cause) in faults {
        let fault = refused(Files { line_break, ..FILES });
        assert_eq!((fault.file, fault.line, fault.cause), (Some("LineBreak.txt"), line, cause));
        assert!(!cause.to_string().is_empty());
    }
    let fault = refused(Files { category: b"\n\n0061;Xx\n", ..FILES });
    assert!(fault.to_string().starts_with("DerivedGeneralCategory.txt:3: "), "{fault}");
    assert_eq!(refused(Files { east_asian: b"x", ..FILES }).file, Some("EastAsianWidth.txt"));
    assert_eq!(refused(Files { emoji: b"x", ..FILES }).file, Some("emoji-data.txt"));
}
