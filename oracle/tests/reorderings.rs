//! docs/DEFINITIONS.md, "When effects may be reordered", run: the laws of W-201 on every channel and weight of the Rust's own
//! blend, read off lines that it draws; wrong rules, which the laws must tell from it; and for the reorderings that aren't safe
//! how often they change a channel, and the smallest numbers that show it.

mod picture;
use picture::{Picture, put};

const WHITE: u32 = 31;
const BLACK: u32 = 0;

/// What a rule makes of two channels by two weights.
type Rule<'a> = &'a dyn Fn(u32, u32, u32, u32) -> u32;

fn fade(rule: Rule, evy: u32, channel: u32, toward: u32) -> u32 {
    rule(channel, toward, 16 - evy, evy)
}

/// The greys 0 to 31 as mode 3 shows them in columns 0 to 31, over a grey backdrop, with an effect on them.
fn greys(backdrop: u32, bldcnt: u16, bldalpha: u32, bldy: u32) -> Vec<u32> {
    let grey = |channel: u32| (channel * 0x421) as u16;
    let mut picture = Picture::new(0x0403);
    (0..32).for_each(|channel| put(&mut picture.vram, 2 * channel as usize, grey(channel)));
    put(&mut picture.palette, 0, grey(backdrop));
    picture.set(0x50, bldcnt).set(0x52, bldalpha as u16).set(0x54, bldy as u16);
    let line = picture.draw(0).expect("an accepted draw");
    line[..32].iter().map(|pixel| channel_of(*pixel)).collect()
}

/// The channel of a grey pixel.
fn channel_of(pixel: u32) -> u32 {
    let channel = pixel >> 19;
    assert_eq!(pixel, channel * 0x080808, "one rule for the three channels");
    channel
}

/// The Rust's blend of every two channels by every two weights.
fn the_rusts_blend() -> Vec<u32> {
    let drawn = |at: u32| greys(at >> 10, 0x2044, (at >> 5 & 31) | (at & 31) << 8, 0);
    (0..1 << 15).flat_map(drawn).collect()
}

fn place(a: u32, b: u32, wa: u32, wb: u32) -> usize {
    (b << 15 | wa << 10 | wb << 5 | a) as usize
}

/// Every choice of numbers below the bounds.
fn every<const N: usize>(bounds: [u32; N]) -> impl Iterator<Item = [u32; N]> {
    (0..bounds.iter().product()).map(move |mut rest: u32| {
        bounds.map(|bound| {
            let number = rest % bound;
            rest /= bound;
            number
        })
    })
}

/// The four laws, in the order of document 02.
const LAWS: [fn(Rule) -> bool; 4] = [
    |rule| every([32; 4]).all(|[a, b, wa, wb]| rule(b, a, wb, wa) == rule(a, b, wa, wb)),
    |rule| every([32; 2]).all(|[a, b]| rule(a, b, 16, 0) == a),
    |rule| every([32]).all(|[a]| fade(rule, 16, a, WHITE) == WHITE && fade(rule, 16, a, BLACK) == BLACK),
    |rule| {
        every([32, 16]).all(|[a, evy]| {
            fade(rule, evy, a, WHITE) <= fade(rule, evy + 1, a, WHITE)
                && fade(rule, evy + 1, a, BLACK) <= fade(rule, evy, a, BLACK)
        })
    },
];

/// The numbers of the laws that a rule breaks.
fn broken(rule: Rule) -> Vec<usize> {
    (1..=4).filter(|law| !LAWS[law - 1](rule)).collect()
}

#[test]
fn the_laws_hold_of_the_rust() {
    let table = the_rusts_blend();
    let rule = |a, b, wa, wb| table[place(a, b, wa, wb)];
    assert_eq!(broken(&rule), []);
    for evy in 0..=16 {
        for (bldcnt, toward) in [(0x0084, WHITE), (0x00c4, BLACK)] {
            let faded: Vec<u32> = (0..32).map(|channel| fade(&rule, evy, channel, toward)).collect();
            assert_eq!(greys(0, bldcnt, 0, evy), faded, "evy {evy} toward {toward}");
        }
    }
    assert!(every([32; 4]).all(|[a, b, wa, wb]| rule(a, b, wa, wb) == blend(a, b, wa, wb)), "as document 01 says");
}

/// Document 01's rule.
fn blend(a: u32, b: u32, wa: u32, wb: u32) -> u32 {
    31.min((a * wa + b * wb) / 16)
}

#[test]
fn wrong_rules_break_the_laws_named() {
    let cases: [(&str, Rule, &[usize]); 9] = [
        ("the second weight is what is left of 16", &|a, b, wa, _| blend(a, b, wa, 16u32.saturating_sub(wa)), &[1]),
        ("divided by 15", &|a, b, wa, wb| 31.min((a * wa + b * wb) / 15), &[2]),
        ("the second weight counts to 15", &|a, b, wa, wb| blend(a, b, wa, wb.min(15)), &[1, 3, 4]),
        ("each product rounded down", &|a, b, wa, wb| 31.min(a * wa / 16 + b * wb / 16), &[4]),
        ("weights of four bits", &|a, b, wa, wb| blend(a, b, wa % 16, wb % 16), &[2, 3, 4]),
        ("weights exchanged", &|a, b, wa, wb| blend(a, b, wb, wa), &[2, 3, 4]),
        ("a channel blended with itself", &|a, _, wa, wb| blend(a, a, wa, wb), &[1, 3]),
        // These two are wrong and break no law: the laws alone don't fix the rule, the definition does.
        ("rounded up", &|a, b, wa, wb| 31.min((a * wa + b * wb).div_ceil(16)), &[]),
        ("not capped", &|a, b, wa, wb| (a * wa + b * wb) / 16, &[]),
    ];
    for (wrong, rule, laws) in cases {
        assert_eq!(broken(rule), laws, "{wrong}");
        assert!(every([32; 4]).any(|[a, b, wa, wb]| rule(a, b, wa, wb) != blend(a, b, wa, wb)), "{wrong}");
    }
}

/// A reordering's numbers: how often the two orders differ, among how many, and the smallest numbers (by their sum) at which
/// they do, with what each order gives.
fn differing<const N: usize>(bounds: [u32; N], orders: impl Fn([u32; N]) -> [u32; 2]) -> (String, [u32; N], [u32; 2]) {
    let found: Vec<[u32; N]> = every(bounds).filter(|numbers| orders(*numbers)[0] != orders(*numbers)[1]).collect();
    let all: u32 = bounds.iter().product();
    let least =
        *found.iter().min_by_key(|numbers| (numbers.iter().sum::<u32>(), **numbers)).expect("a case that differs");
    (format!("{} of {}", thousands(found.len()), thousands(all as usize)), least, orders(least))
}

fn thousands(number: usize) -> String {
    if number < 1000 { number.to_string() } else { format!("{},{:03}", number / 1000, number % 1000) }
}

#[test]
fn reorderings_that_are_not_safe() {
    let white = |evy, channel| fade(&blend, evy, channel, WHITE);
    let black = |evy, channel| fade(&blend, evy, channel, BLACK);
    let fades = [32, 17, 17];
    let layers = differing([32, 32, 17], |[a, b, w]| [blend(a, b, w, 16 - w), blend(b, a, w, 16 - w)]);
    let whites = differing(fades, |[a, e, f]| [white(f, white(e, a)), white(e, white(f, a))]);
    let blacks = differing(fades, |[a, e, f]| [black(f, black(e, a)), black(e, black(f, a))]);
    let both = differing(fades, |[a, e, f]| [black(f, white(e, a)), white(e, black(f, a))]);
    let blended = differing([32, 32, 17, 17], |[a, b, evy, w]| {
        [blend(white(evy, a), white(evy, b), w, 16 - w), white(evy, blend(a, b, w, 16 - w))]
    });
    // How far apart two channels are with the next evy, and that held to what they are with this one.
    let apart = differing([32, 32, 16], |[a, b, evy]| {
        let distance = |evy| white(evy, a).abs_diff(white(evy, b));
        [distance(evy + 1), distance(evy + 1).min(distance(evy))]
    });
    assert_eq!(layers, ("14,564 of 17,408".into(), [0, 1, 0], [1, 0]));
    assert_eq!(whites, ("1,074 of 9,248".into(), [2, 2, 3], [9, 10]));
    assert_eq!(blacks, ("1,316 of 9,248".into(), [3, 1, 6], [1, 0]));
    assert_eq!(both, ("7,857 of 9,248".into(), [0, 1, 1], [0, 1]));
    assert_eq!(blended, ("57,828 of 295,936".into(), [0, 2, 6, 1], [11, 12]));
    assert_eq!(apart, ("384 of 16,384".into(), [2, 3, 5], [1, 0]));
    for figure in [layers.0, whites.0, blacks.0, both.0, blended.0, apart.0] {
        assert!(section().contains(&figure), "the section says {figure}");
    }
}

/// The section of docs/DEFINITIONS.md that this file runs.
fn section() -> &'static str {
    let page = include_str!("../../docs/DEFINITIONS.md");
    let rest = page.split_once("\n## When effects may be reordered\n").expect("the section").1;
    rest.split_once("\n## ").map_or(rest, |(section, _)| section)
}

#[test]
fn the_section_names_laws_and_rows_that_are_there() {
    let laws = include_str!("../../crates/thm_blend/specs/BlendLaws.antt");
    let rows = include_str!("../../crates/thm_worked/specs/Worked.antt");
    let names: Vec<&str> = section().split('`').skip(1).step_by(2).filter(|name| name.contains('-')).collect();
    for name in &names {
        assert!([laws, rows].iter().any(|text| text.contains(&format!("  pub {name} : "))), "{name} is not there");
    }
    let declared = laws.lines().filter_map(|line| line.strip_prefix("  pub ")?.split_once(" : "));
    for (law, _) in declared.filter(|(law, _)| law.contains("-colour")) {
        assert!(names.contains(&law), "{law} is not named");
    }
}
