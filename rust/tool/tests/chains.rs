//! The stored answers for the made set, tables in both forms, and explanations that explain.

mod common;

use common::{root, table, Bench, MADE};

/// A stored question for a chain, its words for the program, and the answer.
struct Stored {
    asked: String,
    place: String,
    number: i32,
    chain: String,
}

/// The stored questions, with the images that they ask of packed.
fn stored(bench: &Bench) -> Vec<Stored> {
    bench.pack("yesterday");
    bench.pack("today");
    let rows = std::fs::read_to_string(root().join(MADE).join("chains.tsv")).unwrap();
    let row = |row: &str| {
        let row: Vec<&str> = row.split('\t').collect();
        let (image, moment, place) = (row[0], row[1], row[2].to_string());
        Stored {
            asked: format!("{image}.image --table {image}.table --at {moment} --signer {place}"),
            place,
            number: row[3].parse().unwrap(),
            chain: row[6].to_string(),
        }
    };
    rows.lines().skip(1).map(row).collect()
}

#[test]
fn the_stored_answers() {
    let bench = Bench::new("stored");
    for Stored { asked, place, number, chain } in stored(&bench) {
        let line = format!("chain {asked}");
        let run = bench.status(&line, number);
        match number {
            0 => assert!(run.out.contains(&format!("chain {}\n", chain.replace(',', " > "))), "{line}\n{}", run.out),
            _ => explained(&run.out, &place),
        }
        // Each search, and both, say the same.
        assert_eq!(bench.status(&format!("{line} --engine queue"), number).out, run.out);
        assert_eq!(bench.status(&format!("{line} --engine rounds"), number).out, run.out);
        assert_eq!(bench.status(&format!("{line} --engine both"), number).out, run.out + "Both searches say so.\n");
    }
}

#[test]
fn engines() {
    let bench = Bench::new("engines");
    bench.pack("today");
    let line = "chain today.image --table today.table --at 20261115120000 --signer all";
    for engine in ["queue", "rounds", "both"] {
        let run = bench.status(&format!("{line} --engine {engine} --json"), 7);
        assert!(run.out.contains(&format!("\"engine\": \"{engine}\"")), "{}", run.out);
    }
    assert!(!bench.status(&format!("{line} --json"), 7).out.contains("engine"));
    for wrong in ["--engine Queue", "--engine", "--engine both --engine both", "--engine ''"] {
        bench.status(&format!("{line} {wrong}"), 64);
    }
    // A refused question is refused by each.
    for engine in ["queue", "rounds", "both"] {
        for (image, at, status) in [("today.image", "20261115240000", 1), ("today.table", "20261115120000", 5)] {
            bench.status(&format!("chain {image} --table today.table --at {at} --signer 5 --engine {engine}"), status);
        }
    }
}

#[test]
fn both_forms_of_a_table() {
    let bench = Bench::new("forms");
    bench.pack("today");
    let digits = table("today");
    let octets: Vec<u8> = digits.bytes().filter(u8::is_ascii_digit).map(|digit| digit - b'0').collect();
    bench.write("octets.table", &octets);
    bench.write("spaced.table", format!("\n{}\n\n", digits.replace('\n', "\r\n")).as_bytes());
    let ask = |name: &str| bench.line(&format!("chain today.image --table {name} --at 20261115120000 --signer all"));
    let wanted = ask("today.table");
    assert_eq!(wanted.status, Some(7));
    assert_eq!(ask("octets.table").out, wanted.out);
    assert_eq!(ask("spaced.table").out, wanted.out);
    bench.write("two.table", digits.replacen('1', "2", 1).as_bytes());
    assert_eq!(ask("two.table").status, Some(1));
}

/// The answer to each signer is accepted as a proposal, and where there is none nothing is.
#[test]
fn the_stored_answers_proposed() {
    let bench = Bench::new("proposed");
    for Stored { asked, place, number, chain } in stored(&bench) {
        let chain = if number == 0 { chain } else { format!("0,{place}") };
        let line = format!("propose {asked} --chain {chain}");
        let run = bench.status(&line, number);
        let told = format!("chain {}\n", chain.replace(',', " > "));
        assert!(run.out.contains(&told), "{line}\n{}", run.out);
        assert!(
            number != 7 || run.out.contains("  The first thing that fails is "),
            "{line} is not explained:\n{}",
            run.out
        );
    }
}

/// Where there is no chain, a condition fails at the signer, or no anchor leads to it by steps at which nothing fails.
fn explained(out: &str, place: &str) {
    if !out.contains("nothing fails at the signer itself") {
        return;
    }
    let good: Vec<Vec<&str>> = out
        .lines()
        .filter_map(|line| line.strip_suffix(": nothing fails here"))
        .map(|line| line.split_whitespace().collect())
        .collect();
    let mut reached = vec![place];
    let mut next = 0;
    while let Some(to) = reached.get(next).copied() {
        next += 1;
        for step in good.iter().filter(|step| step[3] == to) {
            assert_ne!(step[1], "anchor", "an anchor leads to {place}:\n{out}");
            if !reached.contains(&step[0]) {
                reached.push(step[0]);
            }
        }
    }
}

#[test]
fn random_worlds_are_explained() {
    let bench = Bench::new("worlds");
    let mut source = make::questions::Source::new(77);
    let mut none = 0;
    let mut chains = 0;
    while none + chains < 120 {
        let make::questions::Question::Chain { image, table, moment, target } = source.next() else { continue };
        let told = vrbolist::chain(&image, &table, moment, target);
        bench.write("x.image", &image);
        bench.write("x.table", &table);
        let line = format!("chain x.image --table x.table --at {moment} --signer {target}");
        match told {
            Ok(places) => {
                bench.status(&format!("{line} --engine both"), 0);
                let shown: Vec<String> = places.iter().map(u8::to_string).collect();
                let run = bench.status(&line, 0);
                assert!(run.out.contains(&format!("chain {}\n", shown.join(" > "))), "{}", run.out);
                chains += 1;
            }
            Err(refusal) => {
                let run = bench.status(&line, refusal.number as i32);
                if refusal.number == 7 {
                    explained(&run.out, &target.to_string());
                    none += 1;
                }
            }
        }
    }
    assert!(none > 20 && chains > 20, "{none} without and {chains} with a chain");
}
