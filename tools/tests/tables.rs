//! The tables in the repository's folder `tables`: the files that their texts stand for, and their listings.

use std::collections::BTreeSet;
use std::fs;
use std::path::PathBuf;
use tools::comparison::listings::agrees;
use tools::comparison::searching::{PROGRAMS_BUFFER, Search, search_all, search_pruned};
use tools::conflict::conflict_code;
use tools::examples::searching::LISTING;
use tools::examples::{paper, processor, task};
use tools::file::{File, encode};
use tools::generate::crowded::small_table;
use tools::judge::Placed;
use tools::listing::{listing, of_answer, parse};
use tools::model::{Table, Task};
use tools::program::root;
use tools::random::Random;
use tools::reader::read;
use tools::schedule::{late, members};
use tools::search::pruned::Pruned;
use tools::search::{Truth, places};
use tools::text::sheet;
use tools::tool;

fn folder() -> PathBuf {
    root().join("tables")
}

fn content(name: &str) -> String {
    fs::read_to_string(folder().join(name)).unwrap_or_else(|error| panic!("{name}: {error}"))
}

/// The table file of this name, or that of the text.
fn file(name: &str) -> Vec<u8> {
    fs::read(folder().join(format!("{name}.tbl"))).unwrap_or_else(|_| {
        let (file, _) = sheet::encode(&content(&format!("{name}.txt")))
            .unwrap_or_else(|mistakes| panic!("{name}: {mistakes:?}"));
        file
    })
}

fn table(name: &str) -> Table {
    read(&file(name)).unwrap_or_else(|refusal| panic!("{name}: {refusal:?}"))
}

/// The names of the files with one of these endings.
fn names(endings: &[&str]) -> BTreeSet<String> {
    let entries = fs::read_dir(folder()).expect("the tables").map(|entry| entry.expect("a file").path());
    let ours = entries
        .filter(|path| path.extension().is_some_and(|found| endings.iter().any(|ending| found == *ending)));
    ours.filter_map(|path| Some(path.file_stem()?.to_str()?.to_string())).collect()
}

#[test]
fn each_table_has_its_listing() {
    assert_eq!(names(&["txt", "tbl"]), names(&["listing"]));
    assert!(names(&["listing"]).len() >= 6);
}

/// 01 "The program", byte for byte.
#[test]
fn the_programs_example() {
    let records: [&[u8]; 6] = [
        b"NT\x05\0\0\0",
        b"PR\x64\0\0\0\xE8\x03",
        b"PR\x64\0\0\0\xE8\x03",
        b"TK\x01\0\0\0\x04\0\0\0\x04\0\0\0\x0A\0\0\0\x1E\0\x03\0",
        b"TK\x02\0\0\0\x06\0\0\0\x06\0\0\0\x0A\0\0\0\x14\0\x03\0",
        b"TK\x03\0\0\0\x0C\0\0\0\x09\0\0\0\x0A\0\0\0\x0A\0\x03\0",
    ];
    assert_eq!(file("example"), records.concat());
    assert_eq!(content("example.listing"), LISTING);
    assert_eq!(listing(&file("example"), &search_pruned).to_string(), LISTING);
}

#[test]
fn the_papers_example() {
    assert_eq!(file("paper"), encode(&paper::table()));
}

/// The stored listings hold for every search: for the independent one, but for the lamps, whose list is too
/// long for it, and for the tool's.
#[test]
fn the_stored_listings() {
    for name in names(&["listing"]) {
        let (file, stored) = (file(&name), content(&format!("{name}.listing")));
        let searches: [(&str, Search); 2] = [("independent", &search_pruned), ("tool's", &tool::search)];
        for (whose, search) in searches.into_iter().skip(usize::from(name == "lamps")) {
            let printed = listing(&file, search).to_string();
            assert!(agrees(&stored, &printed), "{name}, {whose} search: {printed}");
        }
    }
}

/// Every minimal conflict that an answer to this table may list.
fn possible_conflicts(truth: &dyn Truth) -> Vec<u32> {
    let tasks = &truth.table().tasks;
    let is_late: Vec<bool> = (0..1 << tasks.len()).map(|set| late(tasks, set)).collect();
    let without = |set: u32, task: usize| is_late[(set & !(1 << task)) as usize];
    let is_minimal = |&set: &u32| is_late[set as usize] && members(set).all(|task| !without(set, task));
    (0..1 << tasks.len()).filter(is_minimal).filter(|&set| truth.is_held(set)).collect()
}

/// What is stored of a listing that ends in `complete` holds for every right answer: as there are fewer
/// possible conflicts than places, no list is full, so none is cut. Where the conflicts are stored, each of
/// them is needed: some earlier placement that keeps the rules holds it alone.
#[test]
fn what_is_stored_is_determined() {
    for name in names(&["listing"]) {
        let stored = content(&format!("{name}.listing"));
        if !stored.ends_with("complete\n") {
            continue;
        }
        let table = table(&name);
        let truth = Pruned::of(&table);
        let possible = possible_conflicts(&truth);
        assert!(possible.len() < places(&table, PROGRAMS_BUFFER), "{name}: {}", possible.len());
        let others = |own: u32| possible.iter().copied().filter(|&other| other != own).collect::<Vec<_>>();
        let all_needed = possible.iter().all(|&own| truth.uncovered(&others(own)).is_some());
        assert_eq!(all_needed, !stored.contains("...\n"), "{name}");
    }
}

/// Every placement that keeps the rules has two sets, and both are minimal conflicts. So a listed conflict on
/// one processor is one of the two, and a complete list needs one of each pair: more than there are places.
#[test]
fn the_list_of_the_lamps_is_cut() {
    let (file, table) = (file("lamps"), table("lamps"));
    let mut pairs = BTreeSet::new();
    for set in 0..1u32 << 16 {
        let placement: Vec<u8> = (0..16).map(|task| (set >> task & 1) as u8).collect();
        let placed = Placed { table: &table, placement: &placement };
        if placed.keeps_rules() {
            let [one, other] = [0, 1].map(|processor| placed.on(processor));
            assert_eq!([one, other].map(|set| conflict_code(&file, set)), [2, 2]);
            pairs.insert((one.min(other), one.max(other)));
        }
    }
    assert_eq!(pairs.len(), 6435);
    assert_eq!(places(&table, PROGRAMS_BUFFER), 2727);
    assert!(Pruned::of(&table).first().is_none());
    assert_eq!(content("lamps.listing"), "none\n...\ncut\n");
}

/// Two tasks of priority 9. The second is refused, behind 6 bytes of NT, 8 of PR and 22 of the first TK.
#[test]
fn the_refused_table() {
    let task = |period| Task { memory: 10, residence: 1, ..task(1, period, period, 9) };
    let records = File::new().network(0).processor(processor(100, 1000)).task(task(10)).task(task(20));
    assert_eq!(file("refused"), records.bytes);
    assert_eq!(content("refused.listing"), "refused 7 36\n");
}

/// Taken apart and printed again, a listing is the same; one that is changed is none or another.
#[test]
fn listings_are_taken_apart() {
    let mut random = Random::new(24);
    for _ in 0..500 {
        let table = small_table(&mut random);
        let mut answer = vec![0; 13 + random.below(40)];
        let count = search_all(&encode(&table), &mut answer).expect("an answer");
        let listing = of_answer(&table, &answer[..count]);
        let printed = listing.to_string();
        assert_eq!(parse(&printed), Some(listing));
        let cut_off = random.below(printed.len());
        assert_eq!(parse(&printed[..cut_off]), None, "{printed}");
        let mut changed = printed.clone().into_bytes();
        changed[cut_off] ^= 1;
        let changed = String::from_utf8(changed).expect("ASCII");
        assert_ne!(parse(&changed), parse(&printed));
    }
}

/// A found placement has no margin below 0 and none beyond, but a listing may.
#[test]
fn listings_with_every_sort_of_margin() {
    let text = |margin: &str| LISTING.replace("margin 6", &format!("margin {margin}"));
    for margin in ["0", "6", "-1", "-999999", "999999", "beyond"] {
        let listing = parse(&text(margin)).unwrap_or_else(|| panic!("{margin}"));
        assert_eq!(listing.to_string(), text(margin));
    }
    for margin in ["", "-", "-0", "+6", "06", "6 ", "Beyond", "beyond 6", "- 1", "2147483648"] {
        assert_eq!(parse(&text(margin)), None, "{margin}");
    }
    assert_eq!(parse(&LISTING.replace(" margin 6", "")), None);
}

#[test]
fn the_comparison_of_listings_notices_differences() {
    let stored = "found\nload 0 5\nconflict 0 1\nconflict 1 2\ncomplete\n";
    assert!(agrees(stored, "found\nload 0 5\nconflict 1 2\nconflict 0 1\ncomplete\n"));
    assert!(!agrees(stored, "found\nload 0 5\nconflict 0 1\ncomplete\n"));
    assert!(!agrees(stored, "found\nload 0 5\nconflict 0 1\nconflict 1 2\ncut\n"));
    assert!(!agrees(stored, "found\nload 0 6\nconflict 0 1\nconflict 1 2\ncomplete\n"));
    let free = "none\n...\ncut\n";
    assert!(agrees(free, "none\nconflict 0 1\ncut\n") && agrees(free, "none\ncut\n"));
    assert!(!agrees(free, "none\nconflict 0 1\ncomplete\n") && !agrees(free, "found\nconflict 0 1\ncut\n"));
}
