//! Median times of interleaved runs.

use std::io;
use std::time::Instant;

pub const RUNS: usize = 15;

pub type Run<'a> = Box<dyn Fn() -> io::Result<()> + 'a>;
pub type Task<'a> = (&'a str, Run<'a>);

/// Prints a group of rows: each task's milliseconds, and their ratio to the first one's.
pub fn table(tasks: &[Task]) -> io::Result<()> {
    let medians = medians(tasks)?;
    for (task, median) in tasks.iter().zip(&medians) {
        println!("| {} | {median:.2} | {:.2} |", task.0, median / medians[0]);
    }
    Ok(())
}

/// The median time of each task, in milliseconds.
pub fn medians(tasks: &[Task]) -> io::Result<Vec<f64>> {
    let mut times = vec![Vec::new(); tasks.len()];
    for _ in 0..RUNS {
        for (task, times) in tasks.iter().zip(&mut times) {
            let start = Instant::now();
            (task.1)()?;
            times.push(start.elapsed().as_secs_f64() * 1e3);
        }
    }
    Ok(times.into_iter().map(median).collect())
}

/// The nanoseconds of one of so many calls.
pub fn each(milliseconds: f64, calls: usize) -> f64 {
    milliseconds * 1e6 / calls as f64
}

fn median(mut times: Vec<f64>) -> f64 {
    times.sort_by(f64::total_cmp);
    times[times.len() / 2]
}
