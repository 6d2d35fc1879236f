//! Whole inputs with their answers, worked out by hand, for each method.

use crate::session::{answer_as_they_come, answer_lines};
use crate::settle::Method;
use std::io::BufReader;

fn answers(input: &[u8], method: Method) -> String {
    let mut out = Vec::new();
    answer_lines(input, method, &mut out).expect("a list takes all that is written");
    String::from_utf8(out).expect("answers are text")
}

/// In both texts ` / ` separates the lines.
#[track_caller]
fn check(input: &str, expected: &str) {
    let input = input.replace(" / ", "\n");
    let expected = expected.replace(" / ", "\n") + "\n";
    for method in [Method::Turns, Method::Crew(1), Method::Crew(3), Method::Search] {
        assert_eq!(answers(input.as_bytes(), method), expected, "{method:?}");
    }
    for room in [1, 7, 1 << 16] {
        let (mut out, mut come) = (Vec::new(), BufReader::with_capacity(room, input.as_bytes()));
        answer_as_they_come(&mut come, Method::Turns, &mut out).expect("a list takes all");
        assert_eq!(String::from_utf8(out).expect("answers are text"), expected, "{room} bytes a read");
    }
}

fn chain(from: u32, to: u32) -> String {
    let links: Vec<String> = (from..to).map(|i| format!("[{i},{}]", i + 1)).collect();
    links.join(",")
}

#[test]
fn a_chain_that_points_away_is_turned_around() {
    check(
        r#"["net",4,0,[[0,1],[1,2],[2,3]]] / ["links"] / ["counts"] / ["hops"] / ["walk",3]"#,
        "turned 6 cut 0 / links 1>0 2>1 3>2 / counts 0 1 2 3 / hops here 0 1 2 / walk 3 2 1 0",
    );
}

#[test]
fn a_chain_that_points_home_stays() {
    check(
        r#"["net",4,0,[[1,0],[2,1],[3,2]]] / ["links"]"#,
        "turned 0 cut 0 / links 1>0 2>1 3>2",
    );
}

#[test]
fn a_lone_destination_is_its_own_route() {
    check(
        r#"["net",1,0,[]] / ["walk",0] / ["links"] / ["counts"]"#,
        "turned 0 cut 0 / walk 0 / links / counts 0",
    );
}

#[test]
fn a_part_without_the_destination_turns_until_the_cap() {
    check(
        r#"["net",4,0,[[1,0],[2,3]]] / ["links"] / ["counts"] / ["hops"]"#,
        "turned 8 cut 2 / links 1>0 2>3 / counts 0 0 4 4 / hops here 0 cut cut",
    );
}

#[test]
fn a_node_with_no_link_is_cut_off() {
    check(
        r#"["net",3,0,[[1,0]]] / ["walk",2] / ["hops"]"#,
        "turned 0 cut 1 / walk 2 cut / hops here 0 cut",
    );
}

#[test]
fn of_two_ways_home_the_least_neighbour_is_taken() {
    check(
        r#"["net",4,0,[[0,1],[0,2],[1,3],[2,3]]] / ["counts"] / ["links"] / ["walk",3]"#,
        "turned 4 cut 0 / counts 0 1 1 2 / links 1>0 2>0 3>1 3>2 / walk 3 1 0",
    );
}

#[test]
fn only_nodes_without_a_way_home_turn() {
    check(
        r#"["net",4,0,[[0,1],[2,1],[2,3],[3,0]]] / ["counts"] / ["links"] / ["walk",2] / ["walk",1]"#,
        "turned 1 cut 0 / counts 0 1 0 0 / links 1>0 1>2 2>3 3>0 / walk 2 3 0 / walk 1 0",
    );
}

#[test]
fn a_cut_and_an_added_link_each_begin_a_round() {
    check(
        r#"["net",4,0,[[1,0],[2,1],[3,2]]] / ["cut",1,0] / ["links"] / ["walk",3] / ["add",3,0] / ["counts"] / ["links"] / ["walk",1] / ["cut",2,3] / ["counts"] / ["links"] / ["hops"]"#,
        "turned 0 cut 0 / turned 12 cut 3 / links 2>1 3>2 / walk 3 cut / turned 3 cut 0 / counts 0 2 1 0 / links 1>2 2>3 3>0 / walk 1 2 3 0 / turned 8 cut 2 / counts 0 4 4 0 / links 1>2 3>0 / hops here cut cut 0",
    );
}

#[test]
fn refused_changes_change_nothing() {
    check(
        r#"["net",3,0,[[1,0],[2,1]]] / ["add",0,2] / ["add",0,1] / ["cut",0,2] / ["links"]"#,
        "turned 0 cut 0 / refused 7 / refused 6 / refused 8 / links 1>0 2>1",
    );
}

#[test]
fn a_join_points_the_way_that_closes_no_walk() {
    check(
        r#"["join",0,2] / ["net",3,0,[[1,0],[2,1]]] / ["join",0,2] / ["links"] / ["join",2,0] / ["join",2,2] / ["join",0,3]"#,
        "refused 3 / turned 0 cut 0 / turned 0 cut 0 / links 1>0 2>0 2>1 / refused 6 / refused 5 / refused 4",
    );
    check(
        r#"["net",3,0,[[1,0]]] / ["join",1,2] / ["links"]"#,
        "turned 0 cut 1 / turned 1 cut 0 / links 1>0 2>1",
    );
    check(
        r#"["net",4,3,[[0,3],[1,0],[2,3]]] / ["batch",[["cut",0,3],["join",3,1]]] / ["links"] / ["batch",[["join",0,3]]] / ["links"]"#,
        "turned 0 cut 0 / turned 3 cut 0 / links 0>1 1>3 2>3 / turned 0 cut 0 / links 0>1 0>3 1>3 2>3",
    );
}

#[test]
fn a_batch_is_one_round_and_all_or_nothing() {
    check(
        r#"["net",4,0,[[1,0],[2,1],[3,2]]] / ["dest",3] / ["links"] / ["hops"] / ["walk",0] / ["batch",[["cut",1,2],["add",0,3]]] / ["counts"] / ["links"] / ["batch",[["cut",0,3],["add",3,0],["add",0,1]]] / ["links"]"#,
        "turned 0 cut 0 / turned 6 cut 0 / links 0>1 1>2 2>3 / hops 1 2 3 here / walk 0 1 2 3 / turned 1 cut 0 / counts 0 1 0 0 / links 0>3 1>0 2>3 / refused 6 / links 0>3 1>0 2>3",
    );
    check(
        r#"["net",4,3,[[0,3],[1,0],[2,3]]] / ["batch",[["add",3,1]]] / ["batch",[["cut",0,2]]] / ["batch",[["walk",1]]] / ["dest",4] / ["batch",[]]"#,
        "turned 0 cut 0 / refused 7 / refused 8 / refused 2 / refused 4 / turned 0 cut 0",
    );
    check(
        r#"["batch",[]] / ["net",4,0,[[1,0],[2,3]]] / ["batch",[]] / ["dest",3] / ["links"]"#,
        "refused 3 / turned 8 cut 2 / turned 8 cut 2 / turned 8 cut 2 / links 1>0 2>3",
    );
}

#[test]
fn a_batch_has_at_most_1024_edits() {
    for (count, answer) in [(1024, "turned 0 cut 0"), (1025, "refused 9")] {
        let edits: Vec<&str> = (0..count)
            .map(|i| if i % 2 == 0 { r#"["cut",1,0]"# } else { r#"["add",1,0]"# })
            .collect();
        check(
            &format!(r#"["net",4,0,[[1,0],[2,1],[3,2]]] / ["batch",[{}]]"#, edits.join(",")),
            &format!("turned 0 cut 0 / {answer}"),
        );
    }
}

#[test]
fn each_fault_of_a_network_has_its_number() {
    check(r#"["net",2,0,[[1,0],[0,1]]]"#, "refused 6");
    check(
        r#"["net",3,0,[[2,2]]] / ["net",1024,0,[[1024,0]]] / ["net",1025,0,[]] / ["net",0,0,[]] / ["net",2,2,[[1,0]]] / ["net",3,5,[[0,1],[1,2],[2,0]]] / ["net",4097,0,[]]"#,
        "refused 5 / refused 4 / turned 0 cut 1024 / refused 4 / refused 4 / refused 7 / refused 9",
    );
}

#[test]
fn an_added_link_has_its_faults_tested_in_order() {
    check(
        r#"["net",3,0,[[1,0],[2,1]]] / ["add",3,3] / ["add",1,1] / ["add",1,2] / ["add",2,0] / ["links"]"#,
        "turned 0 cut 0 / refused 4 / refused 5 / refused 6 / turned 0 cut 0 / links 1>0 2>0 2>1",
    );
    let links: Vec<String> = (0..4096)
        .flat_map(|u| (0..u).map(move |v| format!("[{u},{v}]")))
        .take(32769)
        .collect();
    check(
        &format!(
            r#"["net",4096,0,[{}]] / ["net",4096,0,[{}]] / ["join",300,0] / ["add",1,0] / ["add",5000,5000] / ["cut",5000,5000]"#,
            links.join(","),
            links[..32768].join(",")
        ),
        "refused 9 / turned 0 cut 3839 / refused 9 / refused 9 / refused 9 / refused 8",
    );
}

#[test]
fn lines_that_are_no_request_are_refused() {
    check(
        concat!(
            r#"["walk",9] / ["net",2,0,[[1,0] /  / ["net",2,0,[[1,0]]] / ["walk",2] / ["walk",-1] / "#,
            r#"["walk",1.0] / ["fly",1] / [] / ["walk",1]"#
        ),
        "refused 3 / refused 1 / turned 0 cut 0 / refused 4 / refused 2 / refused 2 / refused 2 / refused 2 / walk 1 0",
    );
}

#[test]
fn a_line_is_json_in_utf_8_and_nests_at_most_127_deep() {
    let nest = |depth| "[".repeat(depth) + &"]".repeat(depth);
    check(&nest(200), "refused 1");
    check(&nest(128), "refused 1");
    check(&nest(127), "refused 2");
    assert_eq!(answers(b"\xff", Method::Turns), "refused 1\n");
}

#[test]
fn blank_lines_get_no_answer() {
    for input in [b"".as_slice(), b"\n \t\r\n\n", b" "] {
        assert_eq!(answers(input, Method::Turns), "");
    }
}

#[test]
fn the_longest_chain_takes_the_most_turns() {
    for (nodes, turns) in [(1024, 523776), (4096, 8386560)] {
        let counts: Vec<String> = (0..nodes).map(|count: u32| count.to_string()).collect();
        check(
            &format!(r#"["net",{nodes},0,[{}]] / ["counts"]"#, chain(0, nodes - 1)),
            &format!("turned {turns} cut 0 / counts {}", counts.join(" ")),
        );
    }
}

#[test]
fn a_chain_beside_the_destination_turns_until_the_cap() {
    for (nodes, turns) in [(1024, 1047552), (4096, 16773120)] {
        check(
            &format!(r#"["net",{nodes},0,[{}]]"#, chain(1, nodes - 1)),
            &format!("turned {turns} cut {}", nodes - 1),
        );
    }
}

#[test]
fn a_way_round_is_taken_where_it_needs_fewer_turns() {
    check(
        r#"["net",5,0,[[0,1],[1,2],[0,3],[2,3],[3,4]]] / ["counts"] / ["links"] / ["walk",2] / ["walk",4]"#,
        "turned 5 cut 0 / counts 0 1 1 1 2 / links 1>0 1>2 2>3 3>0 4>3 / walk 2 3 0 / walk 4 3 0",
    );
}
