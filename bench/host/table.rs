//! The table of several runs: of each line the median of the library's times, of the plain ones, and of their ratios.
use crate::clock::median;
use std::fs;

/// One measurement: what was timed, and the nanoseconds of both.
struct Line {
    what: String,
    ours: f64,
    plain: f64,
}

fn line(text: &str) -> Line {
    let fields: Vec<&str> = text.split('\t').collect();
    let number = |i: usize| fields[i].parse().expect("a number");
    Line {
        what: fields[0].to_string(),
        ours: number(1),
        plain: number(2),
    }
}

fn lines(file: &str) -> Vec<Line> {
    let text = fs::read_to_string(file).expect("the run's file");
    text.lines()
        .filter(|l| l.contains('\t'))
        .map(line)
        .collect()
}

/// Prints a line, and answers the library's time.
fn print(what: &str, lines: &[&Line]) -> f64 {
    let ours = median(lines.iter().map(|l| l.ours).collect());
    let plain = median(lines.iter().map(|l| l.plain).collect());
    let mut ratios: Vec<f64> = lines.iter().map(|l| l.ours / l.plain).collect();
    ratios.sort_by(f64::total_cmp);
    let ratio = median(ratios.clone());
    println!(
        "{what:<66} {ours:>9.0} {plain:>9.0} {ratio:>6.2}   {:.2} to {:.2}",
        ratios[0],
        ratios[ratios.len() - 1]
    );
    ours
}

/// Prints the table of the runs whose lines the files hold.
pub fn table(files: &[String]) {
    let runs: Vec<Vec<Line>> = files.iter().map(|f| lines(f)).collect();
    println!(
        "{:<66} {:>9} {:>9} {:>6}   over {} links",
        "nanoseconds",
        "library",
        "plain",
        "ratio",
        runs.len()
    );
    let (mut fresh, mut grown) = (0.0, Vec::new());
    for (i, first) in runs[0].iter().enumerate() {
        let each: Vec<&Line> = runs.iter().map(|run| &run[i]).collect();
        let ours = print(&first.what, &each);
        if first
            .what
            .starts_with("fresh check of 32 sheets that call one another")
        {
            fresh = ours;
            grown.clear();
        } else if first
            .what
            .starts_with("check after one sheet was put again")
        {
            println!(
                "    a fresh check of all takes {:.1} times that",
                fresh / ours
            );
        } else if let Some(count) = first
            .what
            .strip_prefix("fresh check of sheets that call themselves: ")
        {
            let count: f64 = count
                .split(',')
                .next()
                .and_then(|n| n.parse().ok())
                .expect("a count");
            grown.push(format!("{:.0}", ours / count));
            if count == 32.0 {
                println!(
                    "    nanoseconds a sheet, from 1 to 32 sheets: {}",
                    grown.join(" ")
                );
            }
        }
    }
}
