//! Fleets and faults, by the library that is linked.
use photofleet::{Error, Fleet, plain};

const FIRST: &str = "device cam all\nnew cam 7 5 2024-05-01 sun,beach\nlist cam\n";
const FIRST_TEXT: &str = "1 made cam:1 store\n2 list cam store 1 out 0\n  store 7 cam:1 rating 5 day 2024-05-01 words beach,sun\n";

#[test]
fn a_whole_script() {
    assert_eq!(plain(FIRST).unwrap(), FIRST_TEXT);
    assert_eq!(plain("").unwrap(), "");
}

#[test]
fn line_by_line() {
    let mut fleet = Fleet::open("device cam all\n").unwrap();
    let said: String = FIRST.lines().skip(1).map(|line| fleet.give(line).unwrap()).collect();
    assert_eq!(said, FIRST_TEXT);
    assert_eq!(fleet.ask("list cam").unwrap(), fleet.give("list cam").unwrap());
    assert_eq!(fleet.give("# a remark").unwrap(), "");
}

#[test]
fn faults_have_number_line_and_text() {
    let mut fleet = Fleet::open("device a all").unwrap();
    fleet.give("list a").unwrap();
    let Err(Error::Script(fault)) = fleet.give("list b") else { panic!() };
    assert_eq!((fault.number, fault.line, fault.name()), (8, Some(3), "UnknownDevice"));
    assert_eq!(Error::Script(fault).to_string(), "script fault: line 3: F8 UnknownDevice");
    assert_eq!(fleet.give("list a").unwrap(), "2 list a store 0 out 0\n");
    let Err(Error::Script(fault)) = plain(&"#".repeat(9_000_000)) else { panic!() };
    assert_eq!((fault.number, fault.line), (2, None));
    assert!(matches!(Fleet::open("list a"), Err(Error::Script(_))));
}

#[test]
fn texts_that_need_more_room() {
    let mut lines = String::from("device a all\n");
    for picture in 1..=300 {
        lines += &format!("new a {picture} 5 2024-05-01 {}\n", "x".repeat(60));
    }
    let mut fleet = Fleet::open(&lines).unwrap();
    let text = fleet.give("list a").unwrap();
    assert!(text.len() > 4096);
    assert_eq!(text.lines().count(), 301);
}

#[test]
fn four_threads_with_a_fleet_each() {
    let threads = [0, 1, 2, 3].map(|rating| {
        std::thread::spawn(move || {
            for _ in 0..5 {
                let mut fleet = Fleet::open("device a all\ndevice b all").unwrap();
                for number in 1..=10 {
                    let made = fleet.give(&format!("new a {number} {rating} 2024-05-01 -")).unwrap();
                    assert_eq!(made, format!("{number} made a:{number} store\n"));
                }
                assert_eq!(fleet.give("pull b a").unwrap(), "11 pulled taken 10 handed 0 notices 0 dropped 0 learned yes\n");
            }
        })
    });
    for thread in threads {
        thread.join().unwrap();
    }
}

#[test]
fn a_fleet_moves_between_threads() {
    let mut fleet = Fleet::open("device a all").unwrap();
    for number in 1..=4 {
        fleet = std::thread::spawn(move || {
            let made = fleet.give(&format!("new a {number} 5 2024-05-01 -")).unwrap();
            assert_eq!(made, format!("{number} made a:{number} store\n"));
            fleet
        })
        .join()
        .unwrap();
    }
    std::thread::spawn(move || drop(fleet)).join().unwrap();
}
