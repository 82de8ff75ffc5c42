//! The reading of cases: both forms of floats, remarks, layout, what is refused, and the cases of findings/ and examples/.

use crate::read::{float_of, whole_of};
use crate::Case;
use std::path::{Path, PathBuf};

/// Document 01's case A, as docs/BOOTH.md has it.
const FLOOR: &str = "case floor
counts 3 16 32 250000                  # order, most taps, most planes, room for candidates
floats 0.1 50 20 48000 0x3f7f069e 0.25 0.05
                                       # edge fade, longest path, temperature, sample rate,
                                       # cosine of the merge angle, merge offset, buried distance
merge 1
curve inverse 1 1 1 10000              # reference, rolloff, least and greatest distance
materials 1
m 0.75 0.75 0.75 0.75 0.75 0.75 0.75 0.75  0 0 0 0 0 0 0 0     # absorption, then transmission
meshes 1
mesh 0 4 6                             # row of the materials, vertices, indices
t 1 0 0 0  0 1 0 0  0 0 1 0  0 0 0 1   # transform by columns
p -4 0 -4
p 4 0 -4
p 4 0 4
p -4 0 4
i 0 1 2
i 0 2 3
source 0 2 0
listener 3 2 0
separated 0
end
";

fn top() -> PathBuf {
    Path::new(env!("CARGO_MANIFEST_DIR")).join("../../..")
}

fn one(text: &[u8]) -> Case {
    let mut cases = Case::read_all(text).expect("a case");
    assert_eq!(cases.len(), 1);
    cases.remove(0)
}

/// The text with every float by its bits, which tells two cases apart.
fn bits(text: impl AsRef<[u8]>) -> String {
    one(text.as_ref()).to_text()
}

fn fault(text: impl AsRef<[u8]>) -> String {
    Case::read_all(text.as_ref()).map(|c| c[0].to_text()).expect_err("no case")
}

fn tokens(text: &str) -> Vec<&str> {
    text.lines().flat_map(|l| l.split('#').next().unwrap().split_whitespace()).collect()
}

// ── floats and whole numbers ──────────────────────────────────────────

#[test]
fn bits_are_0x_and_eight_lower_case_digits() {
    for (word, bits) in [("0x3f800000", 0x3f80_0000), ("0x12345678", 0x1234_5678), ("0x80000000", 0x8000_0000), ("0xff800001", 0xff80_0001), ("0xdeadbeef", 0xdead_beef)] {
        assert_eq!(float_of(word.as_bytes()).map(f32::to_bits), Some(bits), "{word}");
    }
    for word in ["3f800000", "10000000", "00000000", "0X3f800000", "0x3F800000", "0x3f80000", "0x3f8000000", "-0x3f800000", "0x3f80000g", "12345e10"] {
        assert!(float_of(word.as_bytes()).is_none(), "{word}");
    }
}

#[test]
fn decimals() {
    for (word, x) in [
        ("0", 0.0f32), ("-0", -0.0), ("-0.0", -0.0), ("1", 1.0), ("-4", -4.0), ("0.1", 0.1), ("0.05", 0.05), ("48000", 48000.0), ("007", 7.0), ("0.000001", 0.000001),
        ("9999999", 9999999.0), ("-1234567", -1234567.0), ("1.234567", 1.234567), ("-1234.56", -1234.56), ("123456.7", 123456.7), ("-0.75", -0.75), ("0.9961947", f32::from_bits(0x3f7f_069e)), ("10000.001", 10000.001), ("16777.215", 16777.215), ("0.000000001", 1e-9),
        ("00000000.5", 0.5), ("-0.00000012", -0.00000012),
    ] {
        assert_eq!(float_of(word.as_bytes()).map(f32::to_bits), Some(x.to_bits()), "{word}");
    }
    for word in ["", "-", ".", "1.", ".5", "-.5", "--1", "+1", "1e3", "1,5", "1.2.3", "1..2", "-12345678", "1.6777216", "0.0000000001", "nan", "inf", "1_000", "1-", "\u{663}"] {
        assert!(float_of(word.as_bytes()).is_none(), "{word}");
    }
}

#[test]
fn decimals_are_the_nearest_floats() {
    let mut tried = 0;
    for v in (0..10_000_000u32).step_by(61).chain(9_999_900..10_000_000).chain((10_000_000..1 << 24).step_by(61)) {
        for k in (v / 10_000_000) as usize..10 {
            let digits = format!("{v:0w$}", w = k + 1);
            let (a, b) = digits.split_at(digits.len() - k);
            let word = if k == 0 { a.to_string() } else { format!("{a}.{b}") };
            assert_eq!(float_of(word.as_bytes()).unwrap().to_bits(), word.parse::<f32>().unwrap().to_bits(), "{word}");
            tried += 1;
        }
    }
    assert!(tried > 1_000_000);
}

#[test]
fn whole_numbers() {
    for (word, n) in [("0", 0), ("00", 0), ("4096", 4096), ("4294967295", u32::MAX), ("00000000000000000004294967295", u32::MAX)] {
        assert_eq!(whole_of(word.as_bytes()), Some(n), "{word}");
    }
    for word in ["", "-1", "+1", "1.0", "4294967296", "99999999999999999999999", "a", "1 "] {
        assert_eq!(whole_of(word.as_bytes()), None, "{word}");
    }
}

// ── remarks and layout ────────────────────────────────────────────────

#[test]
fn decimals_and_bits_are_one_case() {
    let text = bits(FLOOR);
    assert_eq!(bits(&text), text);
    let recorded = std::fs::read(top().join("reference/findings/a_case_a.case")).unwrap();
    assert_eq!(bits(recorded).replace("case a_case_a", "case floor"), text);
}

#[test]
fn layout_has_no_meaning() {
    let (text, words) = (bits(FLOOR), tokens(FLOOR));
    for gap in [" ", "\n", "\t", "\r\n", "\r", " \t \n\n ", "# a remark\n", " # a ## remark, end 1 2 3\r\n", "#\n#\n", "#\rcase\n"] {
        assert_eq!(bits(words.join(gap)), text, "{gap:?}");
        assert_eq!(bits(format!("{gap}{}{gap}", words.join(gap))), text, "{gap:?}");
    }
    assert_eq!(bits(FLOOR.replace('\n', "\r\n")), text);
    assert_eq!(bits(FLOOR.trim_end()), text);
    assert_eq!(bits(format!("{FLOOR}# no line's end")), text);
    assert_eq!(bits(format!("{}#", FLOOR.trim_end())), text);
}

#[test]
fn a_remark_ends_a_token_and_hides_its_line() {
    let text = bits(FLOOR);
    assert_eq!(bits(FLOOR.replace("case floor", "case floor#1")), text);
    assert_eq!(bits(FLOOR.replace("merge 1", "merge 1#0")), text);
    assert_eq!(bits(FLOOR.replace("merge 1", "# merge 0\nmerge 1 # merge 0")), text);
    // a remark ends at the line feed, and at nothing else
    assert!(fault(FLOOR.replace("merge 1\n", "merge 1 # on\r")).starts_with("line 7: expected `curve`"));
}

#[test]
fn any_bytes_in_remarks_and_names() {
    let text = bits(FLOOR);
    let mut bytes = b"# caf\xe9 \0\xff\xfe\x0c\n".to_vec();
    bytes.extend(FLOOR.bytes());
    assert_eq!(bits(&bytes), text);
    // no white space: the form feed, the vertical tab, the no-break space
    for other in ["\u{c}", "\u{b}", "\u{a0}", "\0"] {
        assert_eq!(one(FLOOR.replace("case floor", &format!("case fl{other}oor")).as_bytes()).name, format!("fl{other}oor"));
        assert!(fault(FLOOR.replace("merge 1", &format!("merge{other}1"))).starts_with("line 6: expected `merge`"));
    }
    assert!(fault(format!("\u{feff}{FLOOR}")).starts_with("line 1: expected `case`"));
}

#[test]
fn curves_by_name() {
    let c = one(FLOOR.replace("curve inverse 1 1 1 10000", "curve linear 2 0.5 0.25 0x3f800000").as_bytes());
    let s = c.settings;
    assert_eq!((s.linear, s.reference, s.rolloff, s.min_distance, s.far_distance), (true, 2.0, 0.5, 0.25, 1.0));
    assert!(!one(FLOOR.as_bytes()).settings.linear);
    assert!(fault(FLOOR.replace("inverse", "exponential")).starts_with("line 7: expected `inverse` or `linear`"));
}

#[test]
fn probes_may_be_left_out() {
    let c = one(FLOOR.as_bytes());
    assert_eq!((c.settings.crossing_limit, c.settings.probe_radius.to_bits()), (8, 0x3d75_c28f));
    let d = one(FLOOR.replace("materials 1", "probes 32 0.5 # many sheets\nmaterials 1").as_bytes());
    assert_eq!((d.settings.crossing_limit, d.settings.probe_radius), (32, 0.5));
}

#[test]
fn air_may_be_left_out() {
    assert_eq!(one(FLOOR.as_bytes()).settings.air, [0; 8]);
    let d = one(FLOOR.replace("materials 1", "air 1 2 3 4 5 6 7 1000000 # treble\nmaterials 1").as_bytes());
    assert_eq!((d.settings.air, d.settings.crossing_limit), ([1, 2, 3, 4, 5, 6, 7, 1_000_000], 8));
}

/// The table that the program `air_table` prints, and document 02's halves.
#[test]
fn the_air_by_its_own_arithmetic() {
    let printed = std::fs::read_to_string(top().join("crates/air_table/stdout")).unwrap();
    let table: Vec<u64> = printed.lines().map(|l| l.parse().unwrap()).collect();
    assert_eq!(table, (0..400).map(crate::air::factor).collect::<Vec<_>>());
    assert_eq!((crate::air::factor(400), crate::air::factor(799), crate::air::factor(2889), crate::air::factor(2890)), (1_677_721, 168_740, 1, 0));
    assert_eq!([0.0625, f32::from_bits(0x4145_872b), 1000.0].map(crate::air::millimetres), [63, 12_345, 1_000_000]);
    assert_eq!((crate::air::steps(402_981, 12_345), crate::air::steps(402_981, 12_346), crate::air::steps(0, 1_000_000)), (99, 100, 0));
}

#[test]
fn every_part_reaches_its_place() {
    let c = one(b"case x counts 1 2 3 4 floats 5 6 7 8 9 10 11 merge 0 curve linear 12 13 14 15 probes 16 17 air 18 19 20 21 22 23 24 25 materials 2
        m 1 2 3 4 5 6 7 8 9 10 11 12 13 14 15 16 m 0 0 0 0 0 0 0 0 1 1 1 1 1 1 1 1
        meshes 2 mesh 1 2 5 t 1 2 3 4 5 6 7 8 9 10 11 12 13 14 15 16 p 1 2 3 p 4 5 6 i 7 8 9 i 10 11
        mesh 0 0 0 t 0 0 0 0 0 0 0 0 0 0 0 0 0 0 0 0 source 1 2 3 listener 4 5 6 separated 1 end");
    let s = &c.settings;
    assert_eq!((s.order, s.max_reflections, s.planes, s.room), (1, 2, 3, 4));
    assert_eq!([s.fade, s.max_distance, s.temperature, s.rate, s.merge_cos, s.merge_offset, s.buried], [5.0, 6.0, 7.0, 8.0, 9.0, 10.0, 11.0]);
    assert_eq!((s.merge_on, s.linear, s.reference, s.rolloff, s.min_distance, s.far_distance), (false, true, 12.0, 13.0, 14.0, 15.0));
    assert_eq!((s.crossing_limit, s.probe_radius, s.air), (16, 17.0, [18, 19, 20, 21, 22, 23, 24, 25]));
    assert_eq!(c.materials[0].absorption, [1.0, 2.0, 3.0, 4.0, 5.0, 6.0, 7.0, 8.0]);
    assert_eq!(c.materials[0].transmission, [9.0, 10.0, 11.0, 12.0, 13.0, 14.0, 15.0, 16.0]);
    assert_eq!((c.materials.len(), c.meshes.len()), (2, 2));
    let m = &c.meshes[0];
    assert_eq!((m.handle, &m.positions[..], &m.indices[..]), (1, &[[1.0, 2.0, 3.0], [4.0, 5.0, 6.0]][..], &[7, 8, 9, 10, 11][..]));
    assert_eq!((m.transform[0], m.transform[15]), (1.0, 16.0));
    assert_eq!((c.meshes[1].positions.len(), c.meshes[1].indices.len(), c.meshes[1].handle), (0, 0, 0));
    assert_eq!((c.source, c.listener, c.separated), ([1.0, 2.0, 3.0], [4.0, 5.0, 6.0], true));
}

/// At 20 degrees the quotient is 1, so that the speed is the f32 nearest 343.2; the others by exact arithmetic.
#[test]
fn speeds() {
    for (celsius, bits) in [(-20.0, 0x439f_76a9), (0.0, 0x43a5_a498), (20.0, 0x43ab_999a), (50.0, 0x43b4_2aaa)] {
        assert_eq!(crate::speed_of_sound(celsius).to_bits(), bits, "{celsius}");
    }
}

// ── what is refused ───────────────────────────────────────────────────

#[test]
fn faults_name_the_line() {
    for (old, new, says) in [
        ("case floor", "", "line 2: expected `case`"),
        ("counts 3", "counts -3", "line 2: expected a whole number"),
        ("counts 3", "counts 3.0", "line 2: expected a whole number"),
        ("floats 0.1", "floats .1", "line 3: '.1' is no number that this program reads: write a digit on each side"),
        ("0x3f7f069e", "3f7f069e", "line 3: '3f7f069e' is no number that this program reads: write 0x3f7f069e for a float's bits"),
        ("0x3f7f069e", "0x3f7f069", "line 3: '0x3f7f069' is no number that this program reads: bits are 0x and eight digits"),
        ("0x3f7f069e", "0.99619472", "line 3: '0.99619472' is no number that this program reads: write a decimal of at most seven"),
        ("20 48000", "20 48e3", "line 3: '48e3' is no number that this program reads: write it without an exponent"),
        ("20 48000", "+20 48000", "line 3: '+20' is no number that this program reads: write it without the plus"),
        ("1 10000", "1 10000000", "line 7: '10000000' is no number that this program reads: write 0x10000000"),
        ("merge 1", "merge 2", "line 6: expected 0 or 1, and found '2'"),
        ("materials 1", "probes\nmaterials 1", "line 9: expected a whole number"),
        ("materials 1", "probes 8\nmaterials 1", "line 9: 'materials' is no number"),
        ("materials 1", "air 1 2 3\nmaterials 1", "line 9: expected a whole number"),
        ("materials 1", "air 0 0 0 0 0 0 0 0.5\nmaterials 1", "line 8: expected a whole number"),
        ("materials 1", "air 0 0 0 0 0 0 0 0 probes 8 0.06\nmaterials 1", "line 8: expected `materials`"),
        ("materials 1", "probes 8 0.06 probes 8 0.06\nmaterials 1", "line 8: expected `materials`"),
        ("separated 0", "separated 2", "line 21: expected 0 or 1"),
        ("m 0.75", "m 0.75 0", "line 9: expected `meshes`"),
        ("p -4 0 -4", "p -4 0", "line 14: 'p' is no number"),
        ("i 0 2 3", "0 2 3", "line 18: expected `i`"),
        ("end\n", "end 1", "line 22: expected `case`"),
        ("end\n", "", "line 22: expected `end`"),
        ("meshes 1", "meshes 4294967295", "line 19: expected `mesh`"),
    ] {
        assert!(FLOOR.contains(old));
        let got = fault(FLOOR.replacen(old, new, 1));
        assert!(got.starts_with(says), "{new}: {got}");
    }
    assert_eq!(fault(""), "line 1: expected `case`, and the text ends");
    assert_eq!(fault("# nothing\n"), "line 2: expected `case`, and the text ends");
    // no token can be left out
    let words = tokens(FLOOR);
    for k in 0..words.len() {
        let mut without = words.clone();
        without.remove(k);
        fault(without.join(" "));
    }
}

#[test]
fn several_cases_in_one_text() {
    let cases = Case::read_all(format!("{FLOOR}{FLOOR}").as_bytes()).unwrap();
    assert_eq!(cases.iter().map(Case::to_text).collect::<Vec<_>>(), vec![bits(FLOOR); 2]);
}

// ── files ─────────────────────────────────────────────────────────────

fn cases_of(folder: &str) -> Vec<PathBuf> {
    let all = std::fs::read_dir(top().join(folder)).unwrap().map(|f| f.unwrap().path());
    all.filter(|p| p.extension().is_some_and(|e| e == "case")).collect()
}

#[test]
fn findings_are_read_to_their_bits() {
    let files = cases_of("reference/findings");
    assert_eq!(files.len(), 23);
    for file in files {
        let text = std::fs::read_to_string(&file).unwrap();
        assert_eq!(bits(&text), text, "{}", file.display());
        assert!(text.contains("\nprobes 8 0x3d75c28f\nair "), "{}", file.display());
    }
}

#[test]
fn examples_are_read() {
    let mut names: Vec<String> = cases_of("examples").iter().map(|p| one(&std::fs::read(p).unwrap()).name).collect();
    names.sort();
    assert_eq!(names, ["booth", "screen", "shoebox"]);
}

#[test]
fn the_example_booth_is_the_one_built_in() {
    let source = std::fs::read_to_string(top().join("crates/booth/src/scene_text.rt")).unwrap();
    let (_, rest) = source.split_once("b\"").unwrap();
    let (text, _) = rest.split_once("\",\n").unwrap();
    // they differ in their names
    let text = text.replacen("case built-in", "case booth", 1);
    assert_eq!(bits(text), bits(std::fs::read(top().join("examples/booth.case")).unwrap()));
}

/// The six single bounces of the shoebox as examples/README.md works them out, at 343.2 metres a second.
#[test]
fn the_shoebox_is_as_worked_out_by_hand() {
    let c = one(&std::fs::read(top().join("examples/shoebox.case")).unwrap());
    let taps = crate::run(&c, false).taps;
    assert_eq!(taps.len(), 6);
    for (tap, metres) in taps.iter().zip([3.3, 3.5, 4.5, 4.7, 9.3, 13.1]) {
        assert!((tap.delay_samples - 48_000.0 / 343.2 * metres).abs() < 0.001, "{}", tap.delay_samples);
        assert!(tap.gain.0.iter().all(|g| (g - 0.9 / metres).abs() < 0.000_001), "{:?}", tap.gain.0);
    }
}
