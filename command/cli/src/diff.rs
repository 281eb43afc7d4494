//! A diff by lines, in the form that `patch` takes.

use std::fmt::Write;

/// Lines around a change.
const AROUND: usize = 3;

/// More differences than this are shown as one: a search for the least would take long.
const MOST: usize = 1500;

#[derive(Clone, Copy, PartialEq, Eq)]
enum Step {
    Keep,
    Drop,
    Add,
}

fn lines(text: &[u8]) -> Vec<&[u8]> {
    text.split_inclusive(|b| *b == b'\n').collect()
}

/// The steps from one list of lines to the other: common ends first, then Myers' search for the fewest changes.
fn steps(a: &[&[u8]], b: &[&[u8]]) -> Vec<Step> {
    let front = a.iter().zip(b).take_while(|(x, y)| x == y).count();
    let (a, b) = (&a[front..], &b[front..]);
    let back = a.iter().rev().zip(b.iter().rev()).take_while(|(x, y)| x == y).count();
    let (a, b) = (&a[..a.len() - back], &b[..b.len() - back]);
    let mut out = vec![Step::Keep; front];
    out.extend(middle(a, b));
    out.extend(std::iter::repeat_n(Step::Keep, back));
    out
}

fn middle(a: &[&[u8]], b: &[&[u8]]) -> Vec<Step> {
    let (n, m) = (a.len() as isize, b.len() as isize);
    let most = (a.len() + b.len()).min(MOST);
    // best[k + d + 1]: how far in a the best way with d changes on the diagonal k leads
    let mut best: Vec<isize> = vec![0; 2 * most + 3];
    let middle = most as isize + 1;
    let mut kept: Vec<Vec<isize>> = Vec::new();
    for d in 0..=most as isize {
        kept.push(best[(middle - d - 1) as usize..=(middle + d + 1) as usize].to_vec());
        for k in (-d..=d).step_by(2) {
            let at = |i: isize| best[(middle + i) as usize];
            let mut x = if k == -d || (k != d && at(k - 1) < at(k + 1)) { at(k + 1) } else { at(k - 1) + 1 };
            while x < n && x - k < m && a[x as usize] == b[(x - k) as usize] {
                x += 1;
            }
            best[(middle + k) as usize] = x;
            if x >= n && x - k >= m {
                return back_from(n, m, &kept);
            }
        }
    }
    let mut all = vec![Step::Drop; a.len()];
    all.extend(vec![Step::Add; b.len()]);
    all
}

/// The way back through what each number of changes reached.
fn back_from(n: isize, m: isize, kept: &[Vec<isize>]) -> Vec<Step> {
    let (mut x, mut y) = (n, m);
    let mut out = Vec::new();
    for d in (0..kept.len() as isize).rev() {
        let at = |i: isize| kept[d as usize][(i + d + 1) as usize];
        let k = x - y;
        let down = k == -d || (k != d && at(k - 1) < at(k + 1));
        let from = if down { k + 1 } else { k - 1 };
        let (px, py) = if d == 0 { (0, 0) } else { (at(from), at(from) - from) };
        while x > px && y > py {
            out.push(Step::Keep);
            (x, y) = (x - 1, y - 1);
        }
        if d > 0 {
            out.push(if down { Step::Add } else { Step::Drop });
            (x, y) = (px, py);
        }
    }
    out.reverse();
    out
}

/// Where changes that lie close together start and end among the steps, with lines around them.
fn hunks(steps: &[Step]) -> Vec<(usize, usize)> {
    let mut found: Vec<(usize, usize)> = Vec::new();
    for (i, _) in steps.iter().enumerate().filter(|(_, s)| **s != Step::Keep) {
        let (start, end) = (i.saturating_sub(AROUND), (i + 1 + AROUND).min(steps.len()));
        match found.last_mut() {
            Some(last) if start <= last.1 => last.1 = end,
            _ => found.push((start, end)),
        }
    }
    found
}

/// A range of a hunk's head: an empty one names the line before it.
fn range(before: usize, count: usize) -> String {
    match count {
        0 => format!("{before},0"),
        1 => format!("{}", before + 1),
        _ => format!("{},{count}", before + 1),
    }
}

/// The diff of two texts; empty if they are equal.
pub fn unified(name: &str, old: &[u8], new: &[u8]) -> Vec<u8> {
    let (a, b) = (lines(old), lines(new));
    let steps = steps(&a, &b);
    let found = hunks(&steps);
    let mut out = Vec::new();
    if found.is_empty() {
        return out;
    }
    out.extend(format!("--- {name}\n+++ {name}\n").as_bytes());
    let (mut i, mut x, mut y) = (0, 0, 0);
    for (start, end) in found {
        (x, y) = (x + start - i, y + start - i);
        let part = &steps[start..end];
        let olds = part.iter().filter(|s| **s != Step::Add).count();
        let news = part.iter().filter(|s| **s != Step::Drop).count();
        let mut head = String::new();
        let _ = writeln!(head, "@@ -{} +{} @@", range(x, olds), range(y, news));
        out.extend(head.as_bytes());
        for step in part {
            let (mark, line) = match step {
                Step::Keep => (b' ', a[x]),
                Step::Drop => (b'-', a[x]),
                Step::Add => (b'+', b[y]),
            };
            x += usize::from(*step != Step::Add);
            y += usize::from(*step != Step::Drop);
            out.push(mark);
            out.extend(line);
            if !line.ends_with(b"\n") {
                out.extend(b"\n\\ No newline at end of file\n");
            }
        }
        i = end;
    }
    out
}

#[cfg(test)]
mod tests {
    use super::*;

    /// Applies the steps.
    fn applied(a: &[u8], b: &[u8]) -> (Vec<u8>, Vec<u8>, usize) {
        let (la, lb) = (lines(a), lines(b));
        let (mut x, mut y, mut changes) = (0, 0, 0);
        let (mut old, mut new) = (Vec::new(), Vec::new());
        for step in steps(&la, &lb) {
            if step == Step::Keep {
                assert_eq!(la[x], lb[y]);
            }
            if step != Step::Add {
                old.extend(la[x]);
                x += 1;
            }
            if step != Step::Drop {
                new.extend(lb[y]);
                y += 1;
            }
            changes += usize::from(step != Step::Keep);
        }
        (old, new, changes)
    }

    #[test]
    fn every_pair_of_short_texts() {
        let mut texts = vec![String::new()];
        for length in 1..=5u32 {
            for n in 0..3u32.pow(length) {
                texts.push((0..length).map(|i| ["a\n", "b\n", "c\n"][(n / 3u32.pow(i) % 3) as usize]).collect());
            }
        }
        for a in &texts {
            for b in &texts {
                let (old, new, changes) = applied(a.as_bytes(), b.as_bytes());
                assert_eq!((old, new), (a.clone().into_bytes(), b.clone().into_bytes()));
                assert_eq!(unified("x", a.as_bytes(), b.as_bytes()).is_empty(), changes == 0);
                assert_eq!(a == b, changes == 0);
            }
        }
    }

    #[test]
    fn few_changes_are_found() {
        assert_eq!(applied(b"a\nb\nc\nd\n", b"a\nc\nd\ne\n").2, 2);
    }

    #[test]
    fn very_different_texts() {
        let a: String = (0..5000).map(|i| format!("a{i}\n")).collect();
        let b: String = (0..5000).map(|i| format!("b{i}\n")).collect();
        assert_eq!(applied(a.as_bytes(), b.as_bytes()).1, b.into_bytes());
    }

    #[test]
    fn the_form() {
        assert_eq!(
            String::from_utf8(unified("f", b"a\nb", b"a\nc\n")).unwrap(),
            "--- f\n+++ f\n@@ -1,2 +1,2 @@\n a\n-b\n\\ No newline at end of file\n+c\n"
        );
        assert_eq!(String::from_utf8(unified("f", b"", b"a\n")).unwrap(), "--- f\n+++ f\n@@ -0,0 +1 @@\n+a\n");
    }
}
