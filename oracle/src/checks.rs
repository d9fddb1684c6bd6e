//! The self-checks: checks.txt, and those that are too long to write out.
use crate::paper::{BENCH, FULL};
use crate::session::program;
use crate::world::{short, World};

/// `== name` begins a check with a new world; `> command`; `= the Rust's answer`; `~ the paper's answer` where it is
/// another (or the Rust panics). Without `~` both must be the same, or the paper has no such question.
const TEXT: &str = include_str!("checks.txt");

fn script(text: &str) -> (u32, u32) {
    let (mut good, mut bad) = (0, 0);
    for part in text.split("\n== ").skip(1) {
        let name = part.lines().next().unwrap();
        let mut w = World::new(FULL, true);
        let mut ok = true;
        let lines: Vec<&str> = part.lines().skip(1).filter(|l| !l.trim().is_empty()).collect();
        let mut i = 0;
        while i < lines.len() {
            let c = lines[i].strip_prefix("> ").unwrap_or_else(|| panic!("{name}: {}", lines[i]));
            let a = w.run(c).unwrap_or_else(|e| panic!("{name}: {c}: {e}"));
            let (rust, paper) = (short(&a.rust), a.paper.map(|p| short(&p)));
            i += 1;
            let mut want = None;
            if i < lines.len() && lines[i].starts_with("= ") {
                want = Some(lines[i][2..].to_string());
                i += 1;
            }
            let mut other = None;
            if i < lines.len() && lines[i].starts_with("~ ") {
                other = Some(lines[i][2..].to_string());
                i += 1;
            }
            let want = want.unwrap_or_else(|| "0".into());
            let other = other.unwrap_or_else(|| want.clone());
            if rust != want || paper.as_ref().is_some_and(|p| *p != other) {
                ok = false;
                println!("FAILED {name}: {c}: Rust {rust}, paper {paper:?}, wanted {want} / {other}");
            }
        }
        if ok {
            good += 1;
        } else {
            bad += 1;
        }
    }
    (good, bad)
}

fn tabs(s: &str) -> Vec<u8> {
    let mut out = String::new();
    for line in s.lines() {
        let mut l = line.replace(' ', "\t");
        if line == "change list 1" {
            l = "change list\t1".into();
        }
        let mut full = String::new();
        let mut cs = l.chars().peekable();
        while let Some(c) = cs.next() {
            match (c, cs.peek()) {
                ('H', Some(d)) => {
                    full += &d.to_string().repeat(64);
                    cs.next();
                }
                _ => full.push(c),
            }
        }
        out += &full;
        out.push('\n');
    }
    out.into_bytes()
}

pub fn run() -> i32 {
    let (mut good, mut bad) = script(TEXT);
    let mut check = |name: &str, ok: bool| {
        if ok {
            good += 1;
        } else {
            bad += 1;
            println!("FAILED {name}");
        }
    };
    let example = tabs(
        "change list 1\nactors 2\nadd H1 0 1 3 3 -\nadd H2 1 1 5 2 H1\nadd H3 0 2 5 2 H1\nheads\nclock H2\nmissing H2\nowner 0 4\nadd H2 1 9 9 9 H4\nadd H5 0 3 6 1 H4",
    );
    let want = tabs("add 0\nadd 0\nadd 0\nheads H2,H3\nclock 1,1\nmissing H3\nowner H3\nadd 3\nadd 4 H4");
    let o = program(&example, BENCH);
    check("the worked example", o.number == 0 && o.answer == want && o.notes.is_empty());

    let say = |input: &[u8]| {
        let o = program(input, BENCH);
        (o.number, short(&String::from_utf8(o.answer).unwrap()))
    };
    check("no input", say(b"") == (0, "bad\t1\n".into()));
    check("header only", say(b"change list\t1\n") == (0, "bad\t2\n".into()));
    check("header not ended", say(b"change list\t1") == (0, "bad\t1\n".into()));
    check("no lines", say(b"change list\t1\nactors\t16\n") == (0, String::new()));
    check("17 actors", say(b"change list\t1\nactors\t17\n") == (0, "bad\t2\n".into()));
    check("leading zero", say(b"change list\t1\nactors\t02\n") == (0, "bad\t2\n".into()));
    check("empty graph", say(b"change list\t1\nactors\t2\nheads\nclock\t-\nmissing\t-\nowner\t0\t1\n").1 == "heads\t-\nclock\t0,0\nmissing\t-\nowner\t14\n");
    check("unended line", say(b"change list\t1\nactors\t2\nheads\nheads").1 == "heads\t-\nbad\t4\n");
    check("carriage return", say(b"change list\t1\nactors\t2\nheads\r\n").1 == "bad\t3\n");
    check("largest number", say(b"change list\t1\nactors\t2\nowner\t18446744073709551615\t18446744073709551615\n").1 == "owner\t14\n");
    check("above the largest", say(b"change list\t1\nactors\t2\nowner\t0\t18446744073709551616\n").1 == "bad\t3\n");
    check("input too long", program(&vec![b'\n'; 65_537], BENCH).number == 15);
    let mut long = b"change list\t1\nactors\t2\n".to_vec();
    long.extend(b"heads\n".repeat(10_000));
    check("answer too long", { let o = program(&long, BENCH); o.number == 15 && o.answer.is_empty() });

    // room and limits in the paper's full profile
    let mut w = World::new(FULL, true);
    w.run("new 64").unwrap();
    let mut ok = true;
    for i in 0..4096u64 {
        let dep = if i == 0 { "-".to_string() } else { format!("#{}", i - 1) };
        let a = w.run(&format!("add #{i} {} {} {} 1 {dep}", i % 64, i / 64 + 1, i + 1)).unwrap();
        ok &= a.rust == "0" && !a.parts();
    }
    check("4,096 changes", ok);
    let a = w.run("add #4096 0 65 5000 1 #4095").unwrap();
    check("4,097th: 9 in the paper, taken by the Rust", a.rust == "0" && a.paper.unwrap() == "9");
    check("clock of 4,096", !w.run("seqclock #4095").unwrap().parts());
    check("cached clocks of 4,096", !w.run("cache").unwrap().parts());
    w.run("forget").unwrap();
    check("clock without cache", !w.run("seqclock #4095").unwrap().parts());
    check("reload of 4,096", w.run("reload").unwrap().rust == "columns yes cache no");

    // a chain of 48, its cached clocks thrown away before node 47: 33 nodes are visited, node 14 is left over
    let mut w = World::new(FULL, true);
    w.run("new 2").unwrap();
    for i in 0..48u64 {
        if i == 47 {
            w.run("forget").unwrap();
        }
        let dep = if i == 0 { "-".to_string() } else { format!("#{}", i - 1) };
        w.run(&format!("add #{i} 1 {} {} 1 {dep}", i + 1, i + 1)).unwrap();
    }
    w.run("insactor 1").unwrap();
    let a = w.run("cache").unwrap();
    check("node left over is cached", a.rust == "14:0,0,15;47:0,0,48" && !a.parts());

    println!("{good} passed, {bad} failed");
    (bad > 0) as i32
}
