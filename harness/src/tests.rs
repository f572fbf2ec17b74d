//! What the slow engine, the generator and the shrinking are held to without any program.

use crate::cases::{make, Kind};
use crate::damage::{aimed, damaged};
use crate::generate::{accepted, of_family, small_size};
use crate::oracle::{expected, Program, PROGRAMS};
use crate::pieces;
use crate::plain;
use crate::reading;
use crate::rebuild::rebuild;
use crate::rng::Rng;
use crate::shrink::shrink;
use crate::slow::{answers, build, edge_of, source, third, used, verdict, Array, Mesh};
use crate::sphere::FAMILIES;
use crate::tally::Tally;
use crate::text::{read_array, read_mesh, write_array, write_mesh};

fn says(program: Program, input: &str) -> String {
    String::from_utf8(expected(program, input.as_bytes())).unwrap()
}

#[test]
fn pieces_meet_their_numbers() {
    for piece in pieces::all() {
        assert_eq!(verdict(&piece.mesh), piece.number, "{}", piece.name);
    }
}

#[test]
fn pieces_answer_as_they_must() {
    let four = build(&pieces::four());
    assert_eq!(reading::target(&four, 6), Ok((0, 2)));
    assert_eq!(reading::target(&four, 3), Ok((0, 0)));
    assert_eq!(reading::target(&four, 11), Ok((2, 1)));
    assert_eq!(reading::right_back(&four, 6), Ok(7));
    assert_eq!(reading::target(&build(&pieces::three()), 6), Ok((0, 1)));
    assert_eq!(reading::target(&build(&pieces::six()), 17), Ok((3, 2)));
}

#[test]
fn the_whole_example() {
    let (input, output) = pieces::EXAMPLE;
    assert_eq!(says(Program::Meshlines, input), output);
    assert_eq!(says(Program::Rebuildlines, output).lines().next(), Some("00004"));
    let lines = says(Program::Answers, output);
    assert_eq!(lines.lines().count(), 13 + 5);
    assert_eq!(lines.lines().next(), Some("06000F00EF00EF00EF00EF00EF00E"));
    assert_eq!(lines.lines().nth(6), Some("060060002000000200090003000B0007"));
    let vertices: Vec<&str> = lines.lines().skip(13).collect();
    assert_eq!(vertices, ["070000003", "070010003", "070020006", "070030009", "07004F00F"]);
}

#[test]
fn every_family_is_accepted_and_agrees_with_itself() {
    for family in 0..FAMILIES.len() {
        for k in 0..40 {
            let mut rng = Rng::new(family as u64, k);
            let n = small_size(&mut rng);
            let mesh = of_family(&mut rng, n, family);
            assert_eq!(verdict(&mesh), 0, "family {family}, {k}");
            let array = build(&mesh);
            assert_eq!(rebuild(n, &array.references).unwrap().wood, mesh.wood);
            for j in (0..3 * n).filter(|&j| used(j)) {
                let a = answers(&mesh, j);
                assert_eq!(reading::target(&array, j), Ok((a.target as usize, a.reads)));
                assert!(a.reads <= n - 2);
                assert_eq!(reading::left_back(&array, j), Ok(a.left_back));
                assert_eq!(reading::right_back(&array, j), Ok(a.right_back));
            }
            for u in 0..n {
                let e = edge_of(&mesh, u as u16);
                assert_eq!(reading::edge(&array, u), Ok(e));
                assert!(used(e) && (source(e) as usize == u || mesh.wood[e] as usize == u));
            }
        }
    }
}

/// Triangles whose edges run round as a ring: counterclockwise ones and clockwise ones.
fn rings(mesh: &Mesh) -> (usize, usize) {
    let sends = |u: u16, v: u16| u > 2 && mesh.wood[3 * u as usize..3 * u as usize + 3].contains(&v);
    let round = |&&[a, b, c]: &&[u16; 3]| sends(a, b) && sends(b, c) && sends(c, a);
    let back = |&&[a, b, c]: &&[u16; 3]| sends(b, a) && sends(c, b) && sends(a, c);
    (mesh.triangles.iter().filter(round).count(), mesh.triangles.iter().filter(back).count())
}

#[test]
fn woods_with_rings_both_ways() {
    let mut both = 0;
    for k in 0..200 {
        let mesh = of_family(&mut Rng::new(7, k), 40, 1);
        let (left, right) = rings(&mesh);
        both += (left > 0 && right > 0) as usize;
    }
    assert!(both > 20, "{both} of 200");
}

#[test]
fn hubs_need_the_most_reads() {
    let most = (0..40).any(|k| {
        let mesh = of_family(&mut Rng::new(8, k), 30, 4);
        reading::target(&build(&mesh), 6) == Ok((0, 28))
    });
    assert!(most);
}

#[test]
fn every_number_is_met() {
    for number in 1..=13 {
        let met = (0..5).all(|k| verdict(&aimed(&mut Rng::new(9, k), number)) == number);
        assert!(met, "{number}");
    }
    let mut tally = Tally::default();
    for kind in [Kind::Accepted, Kind::Damaged, Kind::HouseText, Kind::Torn, Kind::ArrayText] {
        for index in 0..200 {
            make(1, kind, index).iter().for_each(|case| tally.count(kind, case));
        }
    }
    for program in PROGRAMS {
        assert_eq!(tally.missing(program), [], "{}", program.name());
    }
}

#[test]
fn house_text_forms() {
    for (text, number) in [
        ("", "14"),
        ("\n", "14"),
        ("00003", "14"),
        ("00003\n", "02"),
        ("00002\n", "01"),
        ("00401\n", "01"),
        ("00003\r\n", "14"),
        ("0000a\n", "14"),
        ("0003\n", "14"),
        ("000003\n", "14"),
        ("10003\n", "14"),
        ("00003\n\n", "14"),
        ("00003\n00003\n", "14"),
        ("00003\n02000001002\n01000001002\n", "14"),
        ("00003\n0100000100\n", "14"),
        ("00003\n01000001002\n01000002001\n02000001002\n", "02"),
        ("00003\n01000001002\n01000002FFF\n", "03"),
        ("00004\n01000002001\n01000001003\n01001002003\n01002000003\n02000001FFF\n", "09"),
    ] {
        assert_eq!(says(Program::Meshlines, text), format!("0F{number}\n"), "{text:?}");
    }
    let long = "00003\n".to_string() + &"01000001002\n".repeat(3_065);
    assert_eq!((long.len(), says(Program::Meshlines, &long)), (36_786, "0F02\n".into()));
    assert_eq!(says(Program::Meshlines, &(long.clone() + "\n")), "0F13\n");
    assert_eq!(says(Program::Meshlines, &"x".repeat(36_787)), "0F13\n");
}

#[test]
fn array_text_forms() {
    let whole = String::from_utf8(write_array(&build(&pieces::three()))).unwrap();
    assert_eq!(whole, "00003\n030030060060\n030060030033\n030070030033\n");
    for (text, number) in [
        ("00002\n".to_string(), "01"),
        ("00401\nwhatever follows".to_string(), "01"),
        ("00401".to_string(), "14"),
        ("00003\n".to_string(), "14"),
        (whole.trim_end().to_string(), "14"),
        (whole.to_string() + "\n", "14"),
        (whole.replace("03006003", "03007003"), "14"),
        (whole.replace("030070030033\n", ""), "14"),
        (whole.replace("60\n", "6G\n"), "14"),
        (whole.replace("60\n", "6f\n"), "14"),
    ] {
        for program in [Program::Answers, Program::Rebuildlines] {
            assert_eq!(says(program, &text), format!("0F{number}\n"), "{text:?}");
        }
    }
    let other = read_array(whole.replace("030070030033", "03007FFFFFEF").as_bytes()).unwrap();
    assert_eq!((&other.references[14..16], other.service[7]), (&[65_535, 4_094][..], 15));
}

#[test]
fn torn_readings() {
    let mut array = build(&pieces::four());
    array.service[3] = 2;
    assert_eq!(reading::right_back(&array, 3), Err(16));
    array.service[3] = 4;
    assert_eq!(reading::left_back(&array, 3), Ok(7));
    assert_eq!(reading::right_back(&array, 3), Err(16));
    array.references[2 * 6] = 6;
    assert_eq!(reading::target(&array, 6), Err(16));
    assert_eq!(reading::left_front(&array, 6), Ok(6));
    assert_eq!(reading::left_front(&array, 8), Err(14));
    assert_eq!(reading::left_front(&array, 12), Err(14));
}

#[test]
fn edge_reads_no_table() {
    let empty = |n| Array { n, references: Vec::new(), service: Vec::new() };
    for (n, u, answer) in [
        (2, 0, Err(1)),
        (1_025, 0, Err(1)),
        (2, 9, Err(1)),
        (3, 0, Ok(3)),
        (3, 1, Ok(3)),
        (3, 2, Ok(6)),
        (3, 3, Err(15)),
        (1_024, 1_023, Ok(3_069)),
        (1_024, 1_024, Err(15)),
        (1_024, 65_535, Err(15)),
    ] {
        assert_eq!(reading::edge(&empty(n), u), answer, "n {n}, vertex {u}");
    }
}

#[test]
fn the_ring_apart_has_an_array_and_no_rebuild() {
    let ring = build(&pieces::ring_apart());
    assert_eq!(rebuild(10, &ring.references), Err(18));
    assert_eq!(rebuild(10, &ring.references[1..]), Err(2));
    assert_eq!(rebuild(1_025, &[]), Err(1));
}

#[test]
fn the_baseline_is_right() {
    for k in 0..150 {
        let mut rng = Rng::new(14, k);
        let n = small_size(&mut rng);
        let mesh = if k % 3 == 0 { accepted(&mut rng, n) } else { damaged(&mut rng, k as usize) };
        let right = if verdict(&mesh) == 0 { Ok(build(&mesh)) } else { Err(verdict(&mesh)) };
        assert_eq!(plain::build(&mesh), right);
    }
}

#[test]
fn texts_come_back() {
    for k in 0..50 {
        let mut rng = Rng::new(10, k);
        let n = small_size(&mut rng);
        let mesh = accepted(&mut rng, n);
        assert_eq!(read_mesh(&write_mesh(&mesh)), Ok(mesh.clone()));
        let array = build(&mesh);
        assert_eq!(read_array(&write_array(&array)), Ok(array));
    }
}

#[test]
fn a_difference_is_cut_down() {
    // Stands for an engine that is wrong where a triangle's edges run round as a ring: eight or fewer vertices show it.
    let wrong = |text: &[u8]| read_mesh(text).is_ok_and(|mesh| verdict(&mesh) == 0 && rings(&mesh) != (0, 0));
    let mesh = (0..).map(|k| of_family(&mut Rng::new(11, k), 50, 1)).find(|mesh| rings(mesh) != (0, 0)).unwrap();
    let small = shrink(Program::Meshlines, &write_mesh(&mesh), &mut |text| wrong(text));
    assert!(read_mesh(&small).unwrap().n <= 8, "{}", String::from_utf8_lossy(&small));
    // And one that is wrong with a carriage return.
    let text = b"00003\n01000001002\r\n01000002001\n";
    assert_eq!(shrink(Program::Meshlines, text, &mut |text| text.contains(&b'\r')), b"\r");
}

#[test]
fn a_torn_array_is_cut_down() {
    let mesh = accepted(&mut Rng::new(12, 0), 20);
    let mut array = build(&mesh);
    array.references[2 * 9] = 65_535;
    let wrong = |text: &[u8]| read_array(text).is_ok_and(|array| reading::left_front(&array, 9) == Err(16));
    let small = shrink(Program::Answers, &write_array(&array), &mut |text| wrong(text));
    assert_eq!(read_array(&small).unwrap().n, 4);
}

#[test]
fn damaged_meshes_are_the_same_for_the_same_seed() {
    let once = damaged(&mut Rng::new(13, 5), 3);
    assert_eq!(once, damaged(&mut Rng::new(13, 5), 3));
    assert!(third(&pieces::four(), 0, 2) == Some(1));
}
