//! What the benchmark writes: the picture is well-formed and inside its frame, the tables on pages and on settings have
//! the numbers that were measured, and dates are right.

use bench::machine::day;
use bench::measure::Times;
use bench::plot::{svg, Line, Plot};
use bench::programs::Program;
use bench::{lanes, pages, settings, table};
use lyra2_memory::Granted;
use lyra2_reference::{Mixer, Settings};

fn plot(names: &[&str]) -> Plot {
    let line = |(place, name): (usize, &&str)| Line {
        name: name.to_string(),
        points: (0..8)
            .map(|n| {
                (
                    0.1 * 2.7f64.powi(n),
                    (place + 1) as f64 * 3.1f64.powi(n - 4),
                )
            })
            .collect(),
    };
    Plot {
        title: "a < b & \"c\" > d".to_string(),
        x_label: "x & y".to_string(),
        y_label: "<y>".to_string(),
        lines: names.iter().enumerate().map(line).collect(),
    }
}

/// The name and the attributes of a tag, each attribute with its quoted value.
fn parse_tag(tag: &str) -> (&str, Vec<(&str, &str)>) {
    let (name, mut rest) = tag.split_once(' ').unwrap_or((tag, ""));
    let mut attributes = Vec::new();
    while !rest.trim().is_empty() {
        let (key, after) = rest
            .trim_start()
            .split_once("=\"")
            .expect("a value in quotes");
        let (value, after) = after.split_once('"').expect("the closing quote");
        assert!(
            !key.is_empty() && key.chars().all(|c| c.is_alphanumeric() || c == '-'),
            "{key}"
        );
        assert!(
            attributes.iter().all(|&(other, _)| other != key),
            "{key} stands twice"
        );
        attributes.push((key, value));
        rest = after;
    }
    (name, attributes)
}

/// Text and attribute values may hold a mark of XML only in its escaped form.
fn assert_escaped(text: &str) {
    assert!(!text.contains(['<', '>']), "{text}");
    for after in text.split('&').skip(1) {
        assert!(
            ["amp;", "lt;", "gt;"]
                .iter()
                .any(|mark| after.starts_with(mark)),
            "{text}"
        );
    }
}

/// Reads a picture as XML without declarations; returns every tag with its attributes.
fn parse(picture: &str) -> Vec<(&str, Vec<(&str, &str)>)> {
    let (mut open, mut tags) = (Vec::new(), Vec::new());
    let mut rest = picture.trim_end();
    while !rest.is_empty() {
        let (text, after) = rest.split_once('<').expect("the picture ends with a tag");
        assert_escaped(text);
        let (tag, after) = after.split_once('>').expect("the tag is closed");
        rest = after;
        if let Some(name) = tag.strip_prefix('/') {
            assert_eq!(open.pop(), Some(name), "closed in another order");
            assert!(
                !open.is_empty() || rest.is_empty(),
                "something follows the root"
            );
            continue;
        }
        let (name, attributes) = parse_tag(tag.trim_end_matches('/'));
        attributes
            .iter()
            .for_each(|(_, value)| assert_escaped(value));
        if !tag.ends_with('/') {
            open.push(name);
        }
        tags.push((name, attributes));
    }
    assert!(open.is_empty(), "left open: {open:?}");
    tags
}

#[test]
fn the_picture_is_well_formed() {
    let picture = svg(&plot(&[
        "one",
        "two & three",
        "<four>",
        "five",
        "six",
        "seven",
    ]));
    let tags = parse(&picture);
    assert_eq!(tags[0].0, "svg");
    assert!(tags[0].1.contains(&("xmlns", "http://www.w3.org/2000/svg")));
    let lines = tags.iter().filter(|(name, _)| *name == "polyline").count();
    assert_eq!(lines, 6);
    for words in [
        "a &lt; b &amp; \"c\" &gt; d",
        "two &amp; three",
        "&lt;four&gt;",
        "x &amp; y",
    ] {
        assert!(picture.contains(words), "{words}");
    }
}

#[test]
fn the_lines_rise_inside_the_frame() {
    let picture = svg(&plot(&["one", "two"]));
    for (name, attributes) in parse(&picture) {
        let Some((_, points)) = attributes
            .iter()
            .find(|(key, _)| name == "polyline" && *key == "points")
        else {
            continue;
        };
        let places: Vec<(f64, f64)> = points
            .split(' ')
            .map(|point| {
                let (x, y) = point.split_once(',').expect("two numbers");
                (x.parse().expect("a number"), y.parse().expect("a number"))
            })
            .collect();
        assert_eq!(places.len(), 8);
        assert!(places
            .iter()
            .all(|(x, y)| (80.0..=830.0).contains(x) && (56.0..=530.0).contains(y)));
        assert!(places
            .windows(2)
            .all(|pair| pair[0].0 < pair[1].0 && pair[0].1 > pair[1].1));
    }
}

#[test]
fn the_ticks_are_one_two_and_five() {
    let points = vec![(0.09, 0.03), (96.0, 130.0)];
    let line = Line {
        name: "line".to_string(),
        points,
    };
    let picture = svg(&Plot {
        lines: vec![line],
        ..plot(&[])
    });
    for tick in [
        "0.05", "0.1", "0.2", "0.5", "1", "2", "5", "10", "20", "50", "100", "0.02", "200",
    ] {
        assert!(picture.contains(&format!(">{tick}</text>")), "{tick}");
    }
    for tick in [">0.01<", ">500<"] {
        assert!(!picture.contains(tick), "{tick}");
    }
}

#[test]
fn days_are_dates() {
    let known = [
        (0, "1970-01-01"),
        (58, "1970-02-28"),
        (59, "1970-03-01"),
        (11_322, "2000-12-31"),
        (19_782, "2024-02-29"),
        (20_772, "2026-11-15"),
        (47_541, "2100-03-01"),
    ];
    for (days, date) in known {
        assert_eq!(day(days), date);
    }
}

fn program(name: &'static str, lyra2: bool) -> Program {
    Program {
        name,
        lyra2,
        lanes: None,
        keeps_matrix: false,
        drawn: false,
        derive: Box::new(|_, _| ()),
    }
}

/// A thousand reduced calls, so that a microsecond in all is a nanosecond a call.
#[test]
fn a_line_has_both_kinds_of_pages_and_their_ratio() {
    let inputs = table::inputs(50, 10);
    let programs = [&program("first", true), &program("other function", false)];
    let seconds = [
        [3e-5, 2e-5, 4e-5],
        [2.0, 1.0, 5.0],
        [1.5e-5, 1e-5, 9e-5],
        [3.0, 1.25, 4.0],
    ];
    let times = seconds.map(|seconds| Times::new(seconds.to_vec()));
    let due = "\
| program, ns a reduced call | ordinary pages | large pages | large to ordinary |
| ---                        |           ---: |        ---: |              ---: |
| first                      |    20.0 / 30.0 | 10.0 / 15.0 |       0.50 / 0.50 |
| other function             |              – |           – |       1.25 / 1.50 |
";
    assert_eq!(pages::derivations(&inputs, &programs, &times), due);
    let title = "\n**0.0457763671875 MiB:** T 1, R 50, C 10, 3 turns\n";
    assert_eq!(table::title(&inputs, &times[0]), title);
    let inputs = table::inputs_with(settings::multiplying(Settings::USUAL), (50, 10));
    let title = "\n**0.0457763671875 MiB, BlaMka:** T 1, R 50, C 10, 3 turns\n";
    assert_eq!(table::title(&inputs, &times[0]), title);
}

#[test]
fn the_settings_have_a_line_each() {
    let given = [(1, 2, Mixer::Plain), (12, 11, Mixer::BlaMka)].map(|(rho, omega, mixer)| {
        let settings = Settings { rho, omega, mixer };
        table::inputs_with(settings, (50, 10))
    });
    let programs = [&program("library", true), &program("other", true)];
    let times = [
        [vec![3e-5, 2e-5, 4e-5], vec![4e-5, 2e-5, 5e-5]],
        [vec![2.5e-4], vec![2e-4]],
    ];
    let times = times.map(|both| both.map(Times::new).to_vec());
    let due = "\
| rounds, rotation, mixer; ns a reduced call | this library, plain | Rust for speed | to Rust for speed |
| ---                                        |                ---: |           ---: |              ---: |
| 1, 2, plain                                |         20.0 / 30.0 |    20.0 / 40.0 |       1.00 / 0.75 |
| 12, 11, BlaMka                             |       250.0 / 250.0 |  200.0 / 200.0 |       1.25 / 1.25 |
";
    assert_eq!(settings::markdown(&given, programs, &times), due);
}

#[test]
fn each_number_of_lanes_has_a_line_beside_the_single_sponge() {
    let inputs = table::inputs(50, 10);
    let two = Program {
        lanes: Some(2),
        ..program("two lanes", true)
    };
    let programs = [&program("this library, plain", true), &two];
    let times = [vec![3e-5, 2e-5, 4e-5], vec![3e-5, 2.5e-5, 6e-5]].map(Times::new);
    let due = "\
| this library      | ns a reduced call | to the single sponge |
| ---               |              ---: |                 ---: |
| the single sponge |       20.0 / 30.0 |          1.00 / 1.00 |
| two lanes         |       25.0 / 30.0 |          1.25 / 1.00 |
";
    assert_eq!(lanes::markdown(&inputs, &programs, &times), due);
}

#[test]
fn a_caller_who_derives_once_has_a_line_for_each_matrix() {
    let shapes = [table::inputs(1024, 64), table::inputs(16_384, 256)];
    let times = [
        [vec![0.004, 0.005, 0.006], vec![0.002, 0.003, 0.003]],
        [vec![0.5], vec![0.625]],
    ];
    let times = times.map(|both| both.map(Times::new).to_vec());
    let due = "\
| matrix, ms              |           Vec |        Memory | Memory to Vec |
| ---                     |          ---: |          ---: |          ---: |
| 6 MiB: R 1024, C 64     |     4.0 / 5.0 |     2.0 / 3.0 |   0.50 / 0.60 |
| 384 MiB: R 16384, C 256 | 500.0 / 500.0 | 625.0 / 625.0 |   1.25 / 1.25 |
";
    assert_eq!(pages::callers(&shapes, &times), due);
}

#[test]
fn the_systems_setting_and_what_it_granted_are_words() {
    assert_eq!(pages::chosen("always [madvise] never\n"), "madvise");
    assert_eq!(pages::chosen("[always] madvise never\n"), "always");
    assert_eq!(pages::chosen(""), "unknown");
    let granted = Granted {
        large_pages: true,
        kept_from_dumps: true,
        locked: false,
    };
    let due = "large pages yes, kept from core dumps yes, locked no";
    assert_eq!(pages::words(granted), due);
}
