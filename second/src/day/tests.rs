use super::*;
use crate::answer::*;
use crate::hex;

/// What a stamp can be refused for, and then what a book can refuse it for.
const REASONS: [u32; 8] = [
    WRONG_LENGTH,
    NO_SUCH_BATCH,
    WRONG_BUCKET,
    INDEX_PAST_SLOTS,
    NOT_THE_OWNER,
    TOO_FAR,
    VERY_RECORD_HELD,
    HIGHER_RANK_HELD,
];

fn kept(path: &str) -> Vec<u8> {
    let path = format!("{}/../crates/day/{path}", env!("CARGO_MANIFEST_DIR"));
    std::fs::read(&path).unwrap_or_else(|error| panic!("{path}: {error}"))
}

/// The words of each line whose first word is the given one.
fn lines<'a>(scene: &'a str, first: &str) -> Vec<Vec<&'a str>> {
    let words = scene.lines().map(|line| line.split_whitespace().collect::<Vec<_>>());
    words.filter(|words| words.first().is_some_and(|word| *word == first)).collect()
}

fn refused(noon: &Noon) -> usize {
    noon.answers[10..].iter().sum()
}

/// The words that a machine's book, and then its draw, should have in the report.
fn told(day: &Day, name: &str, heard: &[u16]) -> (Vec<String>, Vec<String>) {
    let noon = day.noon(heard);
    let missed = (0..day.offers.len()).filter(|place| !heard.contains(&(*place as u16))).count();
    let (kept, dropped) = (noon.answers[DONE as usize], noon.answers[DROPPED as usize]);
    let numbers = [heard.len(), missed, kept, dropped, refused(&noon), noon.records, usize::from(noon.depth)];
    let named = ["machine".to_string(), name.to_string()];
    let book =
        named.iter().cloned().chain(numbers.map(|number| number.to_string())).chain([hex::write(&noon.digest[..8])]);
    (book.collect(), named.iter().cloned().chain([hex::write(&noon.hash)]).collect())
}

/// Holds a scene's books and draws to the second program's.
fn hold(day: &Day, scene: &str, heard: [&Vec<u16>; 4]) {
    let expected: Vec<_> = ["A", "B", "C", "D"].iter().zip(heard).map(|(name, heard)| told(day, name, heard)).collect();
    let found = lines(scene, "machine");
    assert_eq!(found.len(), 8);
    for (place, (book, draw)) in expected.iter().enumerate() {
        assert_eq!(found[place], *book);
        assert_eq!(found[4 + place][..3], *draw);
        let marked = draw[2] != expected[0].1[2];
        assert_eq!(found[4 + place][3..].join(" "), if marked { "not machine A's" } else { "" });
    }
    assert_eq!(lines(scene, "anchor"), [["anchor", &hex::write(&day.anchor)]]);
}

#[test]
fn the_files_are_those_in_the_tree() {
    for (name, bytes) in Day::made().files() {
        assert!(bytes == kept(&format!("data/{name}")), "{name}: run `cargo run --release --bin write_day` in second/");
    }
}

#[test]
fn the_proved_program_tells_the_same_day() {
    let day = Day::made();
    let told = String::from_utf8(kept("stdout")).unwrap();
    assert!(told.contains(&format!("This morning {} offers", day.offers.len())));
    assert!(told.contains(&format!("room for {CAPACITY} records")));
    let (one, two) = told.split_once("SCENE TWO").unwrap();
    let [a, b, c, d] = &day.heard;
    hold(&day, one, [a, b, c, d]);
    hold(&day, two, [a, b, c, &day.heard_less]);
    let noons = day.heard.each_ref().map(|heard| day.noon(heard));
    for reason in REASONS {
        let counts = noons.each_ref().map(|noon| noon.answers[reason as usize].to_string());
        let line = &lines(one, &reason.to_string())[0];
        assert_eq!(line[line.len() - 4..], counts);
    }
    assert!(one.trim_end().ends_with("THE FOUR MACHINES AGREE: all four drew one hash."));
    assert!(two.contains("Machine D missed 3 offers: its book and its hash are not machine A's."));
    assert!(two.ends_with("THE FOUR MACHINES DO NOT AGREE.\n"));
}

#[test]
fn the_day_has_all_that_it_is_to_show() {
    let day = Day::made();
    let noons = day.heard.each_ref().map(|heard| day.noon(heard));
    for noon in &noons {
        assert!(REASONS.iter().all(|reason| noon.answers[*reason as usize] > 0));
        assert_eq!((noon.records, noon.depth, noon.digest, noon.hash), (22, 2, noons[0].digest, noons[0].hash));
    }
    assert!(noons.iter().any(|noon| noon.answers[DROPPED as usize] > 0));
    assert!(noons[1..].iter().all(|noon| noon.answers != noons[0].answers));
    let lengths = day.chunks.iter().map(|chunk| chunk.data.len());
    assert!(lengths.clone().any(|length| length == 0) && lengths.clone().any(|length| length == 4_096));
    let two_at_once = |one: &Offer| {
        let other = |two: &&Offer| one.stamp[..48] == two.stamp[..48] && one.address != two.address;
        day.offers.iter().any(|two| other(&two))
    };
    assert!(day.offers.iter().filter(|offer| two_at_once(offer)).count() >= 4);
}
