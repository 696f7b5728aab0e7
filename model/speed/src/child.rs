//! Other programs: how long they take, what they write, how much memory they hold.

use std::fs;
use std::io::{Read, Write};
use std::process::{Command, Stdio};
use std::time::{Duration, Instant};

/// Runs a program on an input, its output dropped; how long it took from start to end.
pub fn time(command: &mut Command, input: &[u8]) -> Result<Duration, String> {
    let told = |error: std::io::Error| error.to_string();
    let begun = Instant::now();
    let mut child = command
        .stdin(Stdio::piped())
        .stdout(Stdio::null())
        .spawn()
        .map_err(told)?;
    let mut pipe = child.stdin.take().ok_or("no pipe")?;
    pipe.write_all(input).map_err(told)?;
    drop(pipe);
    let ended = child.wait().map_err(told)?;
    let spent = begun.elapsed();
    ended.success().then_some(spent).ok_or(ended.to_string())
}

/// Runs a program on an input; its output, and the most kilobytes that it held in memory.
pub fn watch(command: &mut Command, input: &[u8]) -> Result<(Vec<u8>, u64), String> {
    let told = |error: std::io::Error| error.to_string();
    let mut child = command
        .stdin(Stdio::piped())
        .stdout(Stdio::piped())
        .spawn()
        .map_err(told)?;
    let mut pipe = child.stdin.take().ok_or("no pipe")?;
    pipe.write_all(input).map_err(told)?;
    drop(pipe);
    let mut from = child.stdout.take().ok_or("no pipe")?;
    let mut output = Vec::new();
    let mut part = vec![0; 32_768];
    let mut most = 0;
    // The program waits while its output is not taken, so its memory can be looked at.
    loop {
        most = most.max(held(child.id()));
        match from.read(&mut part).map_err(told)? {
            0 => break,
            count => output.extend_from_slice(&part[..count]),
        }
    }
    child.wait().map_err(told)?;
    Ok((output, most))
}

/// The most kilobytes that a running process held so far; 0 where that can't be read.
fn held(process: u32) -> u64 {
    let status = fs::read_to_string(format!("/proc/{process}/status")).unwrap_or_default();
    let line = status.lines().find_map(|line| line.strip_prefix("VmHWM:"));
    line.and_then(|rest| rest.split_whitespace().next()?.parse().ok())
        .unwrap_or(0)
}
