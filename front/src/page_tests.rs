//! The page's words, by jobs made for them. tests/programs/page.py parses whole pages and compares them with the sheet.
use super::job_text::read;
use super::page::{write, Drawings, Source, Totals};
use super::stored::told;
use std::io;

/// A batch from text.
fn batch(text: &str) -> Vec<u8> {
    read(text.as_bytes()).unwrap_or_else(|faults| panic!("{faults:?}")).jobs.iter().flat_map(|job| job.block()).collect()
}

fn page(bytes: &[u8], drawings: usize) -> (String, Totals) {
    page_of(&Source { name: "a batch", bytes, ..Source::default() }, Drawings::Most(drawings))
}

fn page_of(source: &Source, drawings: Drawings) -> (String, Totals) {
    let mut out = Vec::new();
    let totals = write(&told(source.bytes), source, drawings, &mut out).unwrap();
    (String::from_utf8(out).unwrap(), totals)
}

fn card(text: &str) -> String {
    let (page, _) = page(&batch(&format!("job: 1\n{text}")), 1);
    page[page.find("<section").unwrap()..].to_string()
}

const S: &str = "<p class=\"said\">The search says S: separated along one axis, where it stood and at the end; it does not look in between.</p>";
const WALL: &str = "b: 0 -20  4 -20  4 20  0 20\nb from: 6 0\n";

/// What a card opens with.
fn opens(card: &str) -> &str {
    let from = card.find("<p class=\"proved\">").unwrap() + 18;
    &card[from..from + card[from..].find("</p>").unwrap()]
}

/// Why the search and what is proved disagree.
fn why(card: &str) -> Vec<&str> {
    card.split("<p class=\"why\">").skip(1).map(|rest| &rest[..rest.find("</p>").unwrap()]).collect()
}

/// A turn is cleared by what is proved, and by nothing else.
#[test]
fn an_s_is_worth_what_is_proved() {
    let swing = card(&format!("a plate: 5 5\n{WALL}a turned: 0 90\n"));
    assert_eq!(opens(&swing), "not clear: further apart than 0.005 up to 0.1872 of the move, within 0.005 by 0.1873");
    assert!(swing.contains(S) && swing.contains("class=\"card touch warned\"") && swing.contains("a missed\""), "{swing}");
    let turn = "Why S, and yet not clear: a turn, by 90.0°, that the search does not look into: it looks along one axis at a time, and at the ends of an \
                interval.";
    assert_eq!(why(&swing), [turn]);
    // a wall that the corners pass by 0.002, less than the distance to keep
    let near = card("a plate: 5 5\nb: 0 -20  4 -20  4 20  0 20\nb from: 7.0731 0\na turned: 0 90\n");
    assert!(opens(&near).starts_with("not clear: further apart than 0.005 up to 0.4") && why(&near) == [turn], "{near}");
    let clear = card(&format!("a plate: 4 4\n{WALL}a turned: 0 90\n"));
    assert_eq!(opens(&clear), "proved clear over the whole move: the outlines stay at least 0.343 apart");
    assert!(clear.contains(S) && clear.contains("class=\"card clear\"") && why(&clear).is_empty(), "{clear}");
    // the bodies overlap by half a slop at the end of a straight way
    let radii = card("a: 0 0\nb: 10 0\na to: 7.0025 0\nradius a: 1\nradius b: 2\n");
    assert!(radii.contains(S) && opens(&radii).starts_with("not clear: further apart than 3 (the radii together) up to 0.99"), "{radii}");
    assert_eq!(why(&radii), ["Why S, and yet not clear: with radii S lets the bodies overlap by up to three quarters of the slop."]);
}

#[test]
fn every_letter_is_said_plainly() {
    let hit = card("a plate: 1 1\nb plate: 1 1\na to: 8 0\nb from: 6 0\n");
    assert!(hit.contains("<p class=\"said\">The search says H: hit at 0.4994 of the move, at x 5.00 y "), "{hit}");
    assert!(hit.contains("<tr><th>hit at</th><td>0.4994 of the move</td></tr>") && why(&hit).is_empty(), "{hit}");
    let overlap = card("a plate: 1 1\nb plate: 1 1\na to: 8 0\n");
    assert!(overlap.contains("The search says O: touching or overlapping where it stood.") && why(&overlap).is_empty(), "{overlap}");
    assert_eq!(opens(&overlap), "not clear: within 0.005 at the start already");
    // a half turn cannot be typed: 179.9999999 degrees is one in 32 bits
    let gave_up = card(&format!("a plate: 5 5\n{WALL}a turned: 0 179.9999999\n"));
    assert!(gave_up.contains("The search says F, no verdict: it gave up where it stood, at "), "{gave_up}");
    assert!(gave_up.contains("<tr><th>search stood at</th><td>"), "{gave_up}");
    assert_eq!(why(&gave_up).last(), Some(&"A makes a half turn, which has no direction and no pose halfway: cut it into steps."));
    let turning = card(&format!("a plate: 5 5\n{WALL}a turned: 10 20\n"));
    assert!(turning.contains("<tr><th>angle there</th><td>A 13.0°</td></tr>"), "{turning}");
    let refused = card("a plate: 1 1\nb plate: 1 1\nslop: 0\nmeant: refused by 8\n");
    assert!(opens(&refused).starts_with("Refused by 8: ") && refused.contains("At fault: the slop is 0, and has to be above 0."));
}

/// The corner is deep in the wall long before the fraction that the search tells.
#[test]
fn a_hit_that_comes_late_is_told() {
    let bytes = batch("job: 8\na plate: 5 2.08\nb: 0 -20  4 -20  4 20  0 20\nb from: 5.41 0\na turned: 0 160.3\na to: 2.27 -2.42\n");
    let (page, totals) = page(&bytes, 1);
    assert_eq!(totals.pairs, [[0, 0, 0], [0, 1, 0], [0; 3], [0; 3]]);
    assert!(opens(&page).starts_with("not clear: further apart than 0.005 up to 0.1"), "{page}");
    assert!(why(&page)[0].starts_with("Why the hit is told later than the contact: a turn, by 160.3°, that the search does not look into"), "{page}");
    let radii = card("a: 0 0\nb: 10 0\na to: 9 0\nradius a: 1\nradius b: 2\n");
    assert!(why(&radii)[0].starts_with("Why the hit is told later than the contact: with radii the search tells a hit only where"), "{radii}");
    // a step into the wall: told where they are within the slop, but for less than a quarter of it
    let step = card(&format!("a plate: 5 5\n{WALL}a turned: 10 20\n"));
    assert_eq!(why(&step), ["Why the hit is told later than the contact: the search tells a hit up to a quarter of the slop behind the target."]);
}

/// A point that passes another at a slop and an eighth: the search tells a hit, and the distance is kept.
#[test]
fn a_clear_move_that_the_search_calls_a_hit() {
    let (page, totals) = page(&batch("job: 8\na: 0 0\nb: 5 0.0056\na to: 10 0\n"), 1);
    assert_eq!(totals.pairs, [[0; 3], [1, 0, 0], [0; 3], [0; 3]], "{page}");
    assert_eq!(why(&page), ["Why H, and yet clear: the search tells a hit up to a quarter of the slop before the target."]);
    assert!(page.contains("<b>1 proved clear, although the search says H, O or F: the card says why:</b> <a href=\"#block1\">8</a>"), "{page}");
    // a side so tiny that the search takes it for touching
    let (tiny, totals) = self::page(&batch("job: 8\na bar: 0 0  0.002 0\nb: 0.001 0.01\n"), 1);
    assert_eq!(totals.pairs, [[0; 3], [0; 3], [1, 0, 0], [0; 3]], "{tiny}");
    assert!(why(&tiny)[0].starts_with("Why O, and yet clear: where sides are tiny"), "{tiny}");
    assert!(why(&tiny)[1].starts_with("The sampled curve says otherwise, and is wrong"), "{tiny}");
}

#[test]
fn every_refusal_names_its_field() {
    let whole = batch("job: 1\na: 0 0\nb: 1 1\n");
    let spoilt = |place: usize, word: u32| {
        let mut words: Vec<u32> = whole.chunks(4).map(|w| u32::from_le_bytes([w[0], w[1], w[2], w[3]])).collect();
        words[place] = word;
        words[127] = 0;
        words[127] = !words.iter().fold(0u32, |sum, word| sum.wrapping_add(*word));
        page(&words.iter().flat_map(|word| word.to_le_bytes()).collect::<Vec<u8>>(), 1).0
    };
    let nan = 0x7fc0_0000;
    for (place, word, said) in [
        (26, nan, "Refused by 3: a corner is not a number, or lies too far out.</p>\n<p class=\"fault\">At fault: outline A, corner 0: x is NaN"),
        (59, 0x4980_0001, "At fault: outline B, corner 0: y is 1048576.1, above 1048576 in size"),
        (3, 0xbf80_0000, "Refused by 4: a radius is not a number, below 0, or too large.</p>\n<p class=\"fault\">At fault: the radius of B is -1, below 0"),
        (12, 0, "Refused by 5: a rotation is no cosine and sine.</p>\n<p class=\"fault\">At fault: the first rotation of A is no cosine and sine: c 0, s 0"),
        (20, 0x7f80_0000, "At fault: the last centre of B: x is inf, and has to be a number"),
        (4, 0x4000_0000, "Refused by 7: the max fraction is not in 0 to 1.</p>\n<p class=\"fault\">At fault: the max fraction is 2"),
        (5, nan, "Refused by 8: the slop is not a number, not above 0, or too large.</p>\n<p class=\"fault\">At fault: the slop is NaN"),
        (0, 0, "Refused by 11: a field of the block is not what it may be.</p>\n<p class=\"fault\">At fault: the job's number is 0"),
        (1, 0x0111, "At fault: outline A has 17 points, and may have 1 to 16"),
        (100, 0x0300, "At fault: byte 401 is 3, and has to be 0"),
    ] {
        let page = spoilt(place, word);
        assert!(page.contains(said), "word {place}: {said}\n{}", &page[page.find("<section").unwrap()..]);
    }
    let mut damaged = whole.clone();
    damaged[0] ^= 2;
    assert!(page(&damaged, 1)
        .0
        .contains("Refused by 10: the block's check is wrong.</p>\n<p class=\"fault\">At fault: the check is wrong: the words add up to"));
    assert!(page(&whole[..100], 1).0.contains("At fault: only 100 of a block's 512 bytes are there"));
}

#[test]
fn drawings_stop_where_asked_and_words_do_not() {
    let bytes = batch("job: 1\na: 0 0\nb: 1 1\n").repeat(7);
    let (some, totals) = page(&bytes, 3);
    assert_eq!((totals.blocks, totals.known()), (7, [7, 0, 0]));
    assert_eq!(some.matches("class=\"paper\"").count(), 3);
    assert_eq!(some.matches(S).count(), 7);
    assert!(some.contains("Drawings: 3 of 7 worked blocks"));
    assert!(!page(&bytes, 7).0.contains("Drawings: 7 of"));
    let (none, totals) = page(&[], 3);
    assert!(none.contains("<li>none</li>") && totals == Totals::default());
}

#[test]
fn a_failed_write_is_handed_on() {
    struct Full(usize);
    impl io::Write for Full {
        fn write(&mut self, bytes: &[u8]) -> io::Result<usize> {
            self.0 = self.0.checked_sub(bytes.len()).ok_or_else(|| io::Error::new(io::ErrorKind::Other, "full"))?;
            Ok(bytes.len())
        }
        fn flush(&mut self) -> io::Result<()> {
            Ok(())
        }
    }
    let bytes = batch("job: 1\na: 0 0\nb: 1 1\n");
    let source = Source { name: "x", bytes: &bytes, ..Source::default() };
    for room in [0, 10_000, 15_000] {
        assert!(write(&told(&bytes), &source, Drawings::Most(1), &mut Full(room)).is_err(), "{room}");
    }
    assert!(write(&told(&bytes), &source, Drawings::Most(1), &mut Full(1_000_000)).is_ok());
}

/// What a name holds is text, and never a tag.
#[test]
fn a_name_is_escaped() {
    let names = vec!["<i>cart</i>".to_string()];
    let bytes = batch("job: 1\na: 0 0\nb: 1 1\n");
    let (page, _) = page_of(&Source { name: "<b>&\"x", bytes: &bytes, unit: "<mm>", names }, Drawings::Usual);
    assert!(page.contains("<title>Travel sheet: &lt;b&gt;&amp;&quot;x</title>"));
    assert!(page.contains("<span class=\"name\">&lt;i&gt;cart&lt;/i&gt;</span>") && page.contains("<tr><th>unit</th><td>&lt;mm&gt;</td></tr>"));
    // in the margin of each printed sheet, where a quote or a bracket could end the style
    assert!(page.contains("content: \"\\3c b\\3e \\26 \\22 x, 1 block\""), "{}", &page[..page.find("</style>").unwrap()]);
}

/// Drawings go to S that are not clear, then to what needs a look, then to the rest; the first get theirs whatever the usual number is.
#[test]
fn drawings_go_first_to_what_needs_a_look() {
    let still = "a: 0 0\nb: 1 1\n";
    let swing = format!("a plate: 5 5\n{WALL}a turned: 0 90\n");
    let hit = "a plate: 1 1\nb plate: 1 1\na to: 8 0\nb from: 6 0\n";
    let bytes = batch(&format!("job: 1\n{still}\njob: 2\n{hit}\njob: 3\n{still}\njob: 4\n{swing}\njob: 5\n{still}"));
    let drawn = |most: usize| {
        let (page, _) = page(&bytes, most);
        let cards: Vec<bool> = page.split("<section").skip(1).map(|card| card.contains("class=\"paper\"")).collect();
        (1..=5).filter(|i| cards[i - 1]).collect::<Vec<usize>>()
    };
    assert_eq!([drawn(0), drawn(1), drawn(2), drawn(3)], [vec![], vec![4], vec![2, 4], vec![1, 2, 4]]);
    let many = batch(&format!("job: 1\n{still}\njob: 2\n{swing}")).repeat(600);
    let (page, totals) = page_of(&Source { name: "x", bytes: &many, ..Source::default() }, Drawings::Usual);
    assert_eq!((totals.blocks, totals.missed(), page.matches("class=\"paper\"").count()), (1200, 600, 600));
    assert_eq!(page.split("<section class=\"card touch warned\"").skip(1).filter(|card| !card.contains("class=\"paper\"")).count(), 0);
}

/// Totals and what needs a look go by what is proved.
#[test]
fn totals_go_by_what_is_proved() {
    let turning = format!("a plate: 4 4\n{WALL}a turned: 0 90\n");
    let bytes = batch(&format!("job: 1\na: 0 0\nb: 1 1\n\njob: 2\n{turning}\njob: 3\na plate: 5 5\n{WALL}a turned: 0 90\n"));
    let (page, totals) = page(&bytes, 3);
    assert_eq!((totals.known(), totals.missed()), ([2, 1, 0], 1));
    assert_eq!(totals.said(), ["3 blocks: 2 proved clear, 1 not clear, 0 not settled, 0 refused", "1 not clear although the search says S: look at them"]);
    let shown = "<tr id=\"totals\"><td>3</td><td class=\"clear\">2</td><td class=\"touch\">1</td><td class=\"open\">0</td><td>0</td></tr>";
    assert!(page.contains(shown) && page.contains("<tr id=\"letterS\"><th>S</th><td>2</td><td>1</td><td>0</td></tr>"), "{page}");
    assert!(page.contains("<b>1 not clear, although the search says S:</b> <a href=\"#block3\">3</a></li>\n</ul>"), "{page}");
    let row = "<td><b>TOUCH</b></td><td class=\"words known\">contact by 0.1873</td><td>S</td><td>0</td></tr>";
    assert!(page.contains(row), "{page}");
    // the band of each: a run and its letter
    let band = "<path class=\"band clear\" d=\"M44.00 128H390.00V140.00H44.00Z\"/><text class=\"in clear\" x=\"217.00\" y=\"137.50\">C</text>";
    assert!(page.contains(band), "{page}");
    assert_eq!([page.matches("class=\"band clear\"").count(), page.matches("class=\"band touch\"").count()], [4, 1]);
    let words = page.to_lowercase();
    for untrue in ["clear by the search", "is clear", "safe"] {
        assert!(!words.contains(untrue), "{untrue}");
    }
}

#[test]
fn a_hit_says_its_way_and_its_gap_and_what_to_pad() {
    let hit = card("a plate: 1 1\nb plate: 1 1\na to: 8 0\nb from: 6 0\nradius a: 0.5\n");
    assert!(hit.contains("<tr><th>way travelled</th><td>A 3.51 of 8.00</td></tr>"), "{hit}");
    assert!(hit.contains("<tr><th>before the hit</th><td>least sampled gap 0."), "{hit}");
    assert!(hit.contains("<tr><th>clearance there</th><td>-0.5000 (the gap less the radii)</td></tr>"), "{hit}");
    let both = "To pad: corners 0 and 2 of A and corners 1 and 3 of B, which come toward each other, as the last search found them.";
    assert!(hit.contains(&format!("<p class=\"pad\">{both}</p>")), "{hit}");
    let guide = card("a: -6 -4  6 -4  6 4  -6 4\nb: 0 0  3 0  3 3  0 3\na turned: 0 90\nb from: 5 5\n");
    assert!(guide.contains("To pad: corner 2 of A, coming toward a side of B, as the last search found them."), "{guide}");
    let half = card("a plate: 1 1\nb plate: 1 1\na to: 8 0\nb from: 6 0\nfraction: 0.75\n");
    assert!(half.contains("<td>A 4.00 of 6.00</td>"), "{half}");
}

/// Two plates of some 10,000 that turn, with a slop of 0.005: the search gives up at 0.59, and they overlap from 0.34 on.
const GIVEN_UP: [(usize, &str); 5] = [
    (2, "00000000 00000000 3F800000 3BA3D70A"),
    (6, "00000000 00000000 46B21E42 C5C26D4A C6B19A0E 46773D2A 3E43A468 3F7B48C2 3EB1685C 3F70240F"),
    (16, "00000000 00000000 4624A348 C6BF8F51 C6E4A546 46CF1C6C BF7F7BC6 BD8207B0 3F60878F 3EF5F275"),
    (26, "44DA0425 45E5FB51 C4DA0425 45E5FB51 44DA0425 C5E5FB51 C4DA0425 C5E5FB51"),
    (58, "44EEFF8F 460CF2AD C4EEFF8F 460CF2AD 44EEFF8F C60CF2AD C4EEFF8F C60CF2AD"),
];

#[test]
fn where_nothing_is_settled_samples_are_told() {
    let mut words = [0u32; 128];
    words[..2].copy_from_slice(&[7, 0x0404]);
    for (from, said) in GIVEN_UP {
        words[from..].iter_mut().zip(said.split(' ')).for_each(|(place, word)| *place = u32::from_str_radix(word, 16).unwrap());
    }
    words[127] = !words.iter().fold(0u32, |sum, word| sum.wrapping_add(*word));
    let bytes: Vec<u8> = words.iter().flat_map(|word| word.to_le_bytes()).collect();
    let (page, totals) = page(&bytes, 1);
    assert_eq!(totals.pairs[3], [0, 0, 1], "{page}");
    assert_eq!(opens(&page), "not settled after 0.3386: further apart than 0.005 up to there, and the proof comes no further");
    assert_eq!(
        why(&page),
        [
            "Neither clears it: what the search says is not proved. Cut the move into steps, or leave more room.",
            "Sampled, not proved: at 0.3398 of the move the outlines touch or overlap."
        ]
    );
    assert!(page.contains("class=\"card open\"") && page.contains("<td>F, gave up at 0.5868</td>"));
    assert!(page.contains("The search says F, no verdict: it gave up where it stood, at 0.5868 of the move.") && page.contains("a missed\""), "{page}");
    assert!(page.contains("<li class=\"amber\"><b>1 not settled: treat as not clear:</b>") && page.contains("class=\"band open\""), "{page}");
}

#[test]
fn the_table_says_why_a_block_is_refused_and_jobs_of_one_number_are_told_apart() {
    let bytes = batch("job: 7\na: 0 0\nb: 1 1\nslop: 0\nmeant: refused by 8\n\njob: 7\na: 0 0\nb: 1 1\nmeant: number again, refused by 8\nslop: 0\n");
    let (page, _) = page(&bytes, 1);
    assert!(page.contains("<td class=\"words known\">refused by 8: the slop is 0, and has to be above 0</td>"), "{page}");
    assert!(page.contains("<a href=\"#block1\">7 (block 1)</a> <a href=\"#block2\">7 (block 2)</a>"), "{page}");
}
