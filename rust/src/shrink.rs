//! A shorter list of lines that still fails.
use std::time::{Duration, Instant};

/// Drops lines, first many at a time and then one by one, as long as what is left still fails and there is time.
pub fn shrink(lines: &[String], time: Duration, mut fails: impl FnMut(&[String]) -> bool) -> Vec<String> {
    let start = Instant::now();
    let mut best = lines.to_vec();
    let mut chunk = best.len().div_ceil(2).max(1);
    loop {
        let before = best.len();
        let mut at = 0;
        while at < best.len() && start.elapsed() < time {
            let shorter: Vec<String> = [&best[..at], &best[(at + chunk).min(best.len())..]].concat();
            if fails(&shorter) {
                best = shorter;
            } else {
                at += chunk;
            }
        }
        let done = chunk == 1 && best.len() == before;
        if done || start.elapsed() >= time || best.is_empty() {
            return best;
        }
        chunk = (chunk / 2).max(1);
    }
}

#[cfg(test)]
mod tests {
    use super::*;

    #[test]
    fn only_what_is_needed_stays() {
        let lines: Vec<String> = (0..100).map(|i| i.to_string()).collect();
        let short = shrink(&lines, Duration::from_secs(5), |left| left.contains(&"17".to_string()) && left.contains(&"60".to_string()));
        assert_eq!(short, ["17", "60"]);
    }
}
