//! The machine and the compilers that a measurement holds for.

use std::fs::read_to_string;
use std::time::{SystemTime, UNIX_EPOCH};

/// A line of Markdown on each: the day, the processor, its caches and the compilers.
pub fn description() -> String {
    let cores = std::thread::available_parallelism().map_or(0, |cores| cores.get());
    let lines = [
        format!("measured on {}, UTC", day(today())),
        format!("processor: {}, {cores} cores", processor()),
        format!("caches: {}", caches()),
        format!("Rust: {}, opt-level 3", env!("RUST_COMPILER")),
        format!("C: {}, -O3 and -O3 -mavx2", env!("C_COMPILER")),
    ];
    lines.map(|line| format!("- {line}\n")).concat()
}

fn processor() -> String {
    let text = read_to_string("/proc/cpuinfo").unwrap_or_default();
    let model = text
        .lines()
        .find_map(|line| line.strip_prefix("model name"));
    let model = model.map_or("unknown", |rest| rest.trim_start_matches([' ', '\t', ':']));
    model.to_string()
}

/// The caches of the first processor, from the level next to it on.
fn caches() -> String {
    let field = |index: usize, name: &str| {
        let path = format!("/sys/devices/system/cpu/cpu0/cache/index{index}/{name}");
        Some(read_to_string(path).ok()?.trim().to_string())
    };
    let cache = |index| {
        let kind = field(index, "type")?;
        let text = format!("L{} {}", field(index, "level")?, field(index, "size")?);
        (kind != "Instruction").then_some(text)
    };
    let found: Vec<String> = (0..5).filter_map(cache).collect();
    if found.is_empty() {
        return "unknown".to_string();
    }
    found.join(", ")
}

/// Days since the first of 1970.
fn today() -> u64 {
    let since = SystemTime::now().duration_since(UNIX_EPOCH);
    since.map_or(0, |since| since.as_secs() / 86_400)
}

/// The date of a day that is so many days after the first of 1970.
pub fn day(mut days: u64) -> String {
    let by = |year: u64, number| year.is_multiple_of(number);
    let leap = |year| by(year, 4) && (!by(year, 100) || by(year, 400));
    let mut year = 1970;
    while days >= 365 + u64::from(leap(year)) {
        days -= 365 + u64::from(leap(year));
        year += 1;
    }
    let february = 28 + u64::from(leap(year));
    let mut month = 1;
    for length in [31, february, 31, 30, 31, 30, 31, 31, 30, 31, 30] {
        if days < length {
            break;
        }
        days -= length;
        month += 1;
    }
    format!("{year}-{month:02}-{:02}", days + 1)
}
