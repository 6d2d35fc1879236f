//! The session, as safe Rust sees it.

mod order;

use order::push_order;
use revroute::{Hop, NoMemory, Report, Session, TableFault, TakeFault, version};
use std::error::Error;
use std::path::Path;
use std::{fs, mem, thread};

const CHAIN: &str = r#"["net",4,0,[[0,1],[1,2],[2,3]]]"#;
const CHAIN_LINKS: &str = "links 1>0 2>1 3>2";

/// An example of the repository: its lines, and their answers.
struct Example {
    name: String,
    lines: Vec<u8>,
    answers: Vec<u8>,
}

fn examples() -> Result<Vec<Example>, Box<dyn Error>> {
    let mut found = Vec::new();
    for entry in fs::read_dir(Path::new(env!("CARGO_MANIFEST_DIR")).join("../../examples"))? {
        let path = entry?.path();
        if path.extension().is_some_and(|it| it == "jsonl") {
            found.push(Example {
                name: path.display().to_string(),
                lines: fs::read(&path)?,
                answers: fs::read(path.with_extension("answers"))?,
            });
        }
    }
    assert!(!found.is_empty());
    Ok(found)
}

/// The answers of a new session to all lines.
fn answers(lines: &[u8]) -> Result<Vec<u8>, NoMemory> {
    let (mut session, mut all) = (Session::new(), Vec::new());
    for line in lines.split(|&byte| byte == b'\n') {
        if let Some(text) = session.answer(line)? {
            all.extend_from_slice(text.as_bytes());
            all.push(b'\n');
        }
    }
    Ok(all)
}

#[test]
fn each_example_has_its_answers() -> Result<(), Box<dyn Error>> {
    for it in examples()? {
        assert_eq!(answers(&it.lines)?, it.answers, "{}", it.name);
    }
    Ok(())
}

#[test]
fn threads_with_a_session_each_answer_alike() -> Result<(), Box<dyn Error>> {
    let examples = examples()?;
    thread::scope(|scope| {
        for _ in 0..8 {
            scope.spawn(|| {
                for it in &examples {
                    assert_eq!(answers(&it.lines).as_ref(), Ok(&it.answers), "{}", it.name);
                }
            });
        }
    });
    Ok(())
}

#[test]
fn sessions_share_nothing() -> Result<(), NoMemory> {
    let (mut one, mut other) = (Session::new(), Session::default());
    one.answer(CHAIN)?;
    assert_eq!(other.answer(r#"["links"]"#)?, Some("refused 3"));
    other.answer(r#"["net",2,0,[[0,1]]]"#)?;
    assert_eq!(one.answer(r#"["links"]"#)?, Some(CHAIN_LINKS));
    mem::swap(&mut one, &mut other);
    drop(one);
    assert_eq!(other.answer(r#"["links"]"#)?, Some(CHAIN_LINKS));
    Ok(())
}

#[test]
fn a_session_goes_from_thread_to_thread() -> Result<(), NoMemory> {
    let mut session = Session::new();
    session.answer(CHAIN)?;
    for _ in 0..4 {
        session = thread::spawn(move || {
            assert_eq!(session.answer(r#"["links"]"#), Ok(Some(CHAIN_LINKS)));
            session
        })
        .join()
        .expect("the thread answers");
    }
    Ok(())
}

#[test]
fn the_buffer_grows_with_the_answer() -> Result<(), NoMemory> {
    let links: Vec<String> = (1..1024).map(|x| format!("[{x},{}]", x - 1)).collect();
    let mut session = Session::new();
    session.answer(format!(r#"["net",1024,0,[{}]]"#, links.join(",")))?;
    let wanted: String = (1..1024).map(|x| format!(" {x}>{}", x - 1)).collect();
    assert_eq!(
        session.answer(r#"["links"]"#)?,
        Some(format!("links{wanted}").as_str())
    );
    let wanted: String = (0..1024).rev().map(|x| format!(" {x}")).collect();
    assert_eq!(
        session.answer(r#"["walk",1023]"#)?,
        Some(format!("walk{wanted}").as_str())
    );
    Ok(())
}

/// The answers to lines that arrive in pieces of this length.
fn answers_to_pieces(lines: &[u8], length: usize) -> Result<Vec<u8>, TakeFault> {
    let (mut session, mut all) = (Session::new(), Vec::new());
    let mut put = |text: &str| all.extend_from_slice(format!("{text}\n").as_bytes());
    for mut piece in lines.chunks(length) {
        while !piece.is_empty() {
            if let Some(text) = session.take(&mut piece)? {
                put(text);
            }
        }
    }
    if let Some(text) = session.finish()? {
        put(text);
    }
    Ok(all)
}

#[test]
fn pieces_of_any_length_have_the_answers_of_their_lines() -> Result<(), Box<dyn Error>> {
    for it in examples()? {
        for length in [1, 2, 3, 7, 64, it.lines.len()] {
            assert_eq!(
                answers_to_pieces(&it.lines, length)?,
                it.answers,
                "{}",
                it.name
            );
        }
    }
    Ok(())
}

#[test]
fn a_line_that_is_too_long_is_not_taken() -> Result<(), TakeFault> {
    let long = vec![b' '; 16_777_216];
    let (mut session, mut piece) = (Session::new(), &long[..]);
    assert_eq!(session.take(&mut piece)?, None);
    assert!(piece.is_empty());
    piece = b" ";
    assert_eq!(session.take(&mut piece), Err(TakeFault::TooLong));
    assert_eq!(piece, b" ");
    piece = b"\n[\"links\"]\n";
    assert_eq!(session.take(&mut piece)?, None);
    assert_eq!(session.take(&mut piece)?, Some("refused 3"));
    Ok(())
}

/// The numbers after the first word of an answer.
fn numbers(answer: Option<&str>) -> Vec<u64> {
    let words = answer.expect("a question has an answer").split(' ').skip(1);
    words.map(|it| it.parse().expect("a number")).collect()
}

/// The hops in the answer to a line.
fn hops(answer: Option<&str>) -> Vec<Hop> {
    let words = answer.expect("a question has an answer").split(' ').skip(1);
    let hop = |word: &str| match word {
        "here" => Hop::Here,
        "cut" => Hop::CutOff,
        node => Hop::To(node.parse().expect("a node")),
    };
    words.map(hop).collect()
}

/// Checks that the route of each node is the one that lines give.
fn tells_routes(session: &mut Session, nodes: u32) -> Result<(), NoMemory> {
    for x in 0..nodes {
        let told = match session.walk(x)? {
            Some(route) => route.iter().map(|it| format!(" {it}")).collect(),
            None => format!(" {x} cut"),
        };
        let line = format!("[\"walk\",{x}]");
        assert_eq!(session.answer(line)?, Some(&*format!("walk{told}")));
        tells_nearest(session, x)?;
        let ways = session.ways(x)?.unwrap_or_default();
        assert_eq!(session.all_ways()?[x as usize], ways);
    }
    let mut ways = session.all_ways()?;
    assert_eq!(session.shrink(&ways), Ok(Vec::new()));
    assert_eq!(session.grow(&ways), Ok(Vec::new()));
    // A node that is its own way loses it, and nothing more. A list that is missing comes back.
    let last = ways.len() - 1;
    let own = [&ways[last][..], &[last as u32]].concat();
    let wanted = std::mem::replace(&mut ways[last], own);
    let shrinks = Ok(vec![(last as u32, wanted.clone())]);
    assert_eq!(session.shrink(&ways), shrinks);
    assert_eq!(session.grow(&ways), Ok(Vec::new()));
    ways[last].clear();
    assert_eq!(session.shrink(&ways), Ok(Vec::new()));
    let growths = if wanted.is_empty() {
        Ok(Vec::new())
    } else {
        shrinks
    };
    assert_eq!(session.grow(&ways), growths);
    assert_eq!(session.walk(nodes)?, None);
    assert_eq!(session.ways(nodes)?, None);
    assert_eq!(session.nearest(nodes)?, None);
    assert_eq!(session.distance(nodes), None);
    Ok(())
}

/// Checks that the nearest route of a node and its ways are those that lines give.
fn tells_nearest(session: &mut Session, x: u32) -> Result<(), NoMemory> {
    let route = session.nearest(x)?;
    let told = match &route {
        Some(route) => route.iter().map(|it| format!(" {it}")).collect(),
        None => format!(" {x} cut"),
    };
    let line = format!("[\"nearest\",{x}]");
    assert_eq!(session.answer(line)?, Some(&*format!("nearest{told}")));
    let distance = route.map(|it| it.len() as u32 - 1);
    assert_eq!(session.distance(x), distance);
    let ways = match session.ways(x)? {
        None => String::from("cut"),
        Some(ways) if ways.is_empty() => String::from("here"),
        Some(ways) => ways
            .iter()
            .map(u32::to_string)
            .collect::<Vec<_>>()
            .join(","),
    };
    let line = format!("[\"ways\",{x}]");
    assert_eq!(session.answer(line)?, Some(&*format!("ways {ways}")));
    Ok(())
}

/// Checks that the nodes whose hop has changed are listed in push order, and that a table with the hops from before
/// has the same pushes.
fn tells_changes(session: &mut Session, before: &[Hop], after: &[Hop]) -> Result<(), TableFault> {
    let rerouted = push_order(before, after);
    let hop = |x: u32| after.get(x as usize).copied().unwrap_or(Hop::CutOff);
    let changed: Vec<(u32, Hop)> = rerouted.iter().map(|&x| (x, hop(x))).collect();
    assert_eq!(session.changed()?, changed);
    if before.len() == after.len() {
        assert_eq!(session.pushes(before)?, changed);
    }
    Ok(())
}

#[test]
fn after_a_network_the_difference_is_told() -> Result<(), TableFault> {
    let (mut session, mut before) = (Session::new(), Vec::new());
    for line in [
        r#"["net",4,0,[[0,1],[1,2],[2,3]]]"#,
        r#"["net",7,0,[[1,0],[2,6],[3,1],[4,0],[5,4],[6,4]]]"#,
        r#"["net",3,2,[[0,1],[1,2]]]"#,
        r#"["net",3,0,[[0,1],[1,2]]]"#,
        r#"["net",3,0,[[0,1],[1,2]]]"#,
        r#"["net",6,5,[[4,5],[3,4],[2,3],[1,2],[0,1]]]"#,
        r#"["net",1,0,[]]"#,
        r#"["net",5,4,[]]"#,
    ] {
        session.answer(line)?;
        let after = session.hops()?;
        tells_changes(&mut session, &before, &after)?;
        for x in after.len()..before.len() {
            assert_eq!(session.next_hop(x as u32), None);
        }
        before = after;
    }
    Ok(())
}

#[test]
fn questions_tell_what_lines_tell() -> Result<(), Box<dyn Error>> {
    let mut accepted = 0;
    for it in examples()? {
        let mut session = Session::new();
        for line in it.lines.split(|&byte| byte == b'\n') {
            let before = session.hops()?;
            let Some(answer) = session.answer(line)?.map(String::from) else {
                continue;
            };
            if !answer.starts_with("turned ") {
                assert_eq!(session.hops()?, before, "{}", it.name);
                continue;
            }
            accepted += 1;
            let after = session.hops()?;
            assert_eq!(after, hops(session.answer(r#"["hops"]"#)?));
            assert_eq!(session.counts()?, numbers(session.answer(r#"["counts"]"#)?));
            tells_changes(&mut session, &before, &after)?;
            let one_by_one: Vec<Option<Hop>> = (0..=after.len() as u32)
                .map(|x| session.next_hop(x))
                .collect();
            assert_eq!(one_by_one.last(), Some(&None));
            assert_eq!(one_by_one.into_iter().flatten().collect::<Vec<_>>(), after);
            tells_routes(&mut session, after.len() as u32)?;
            let Report { turned, cut_off } = session.report().expect("there is a network");
            assert_eq!(answer, format!("turned {turned} cut {cut_off}"));
            let links = session.links()?;
            let told: String = links.iter().map(|(u, v)| format!(" {u}>{v}")).collect();
            assert_eq!(
                session.answer(r#"["links"]"#)?,
                Some(&*format!("links{told}"))
            );
            let dest = session.dest().expect("there is a network");
            assert_eq!(session.next_hop(dest), Some(Hop::Here));
            let size = session.size().expect("there is a network");
            assert_eq!(
                (size.nodes as usize, size.links),
                (after.len(), links.len())
            );
        }
    }
    assert!(accepted > 10, "{accepted}");
    Ok(())
}

#[test]
fn before_the_first_network_there_is_nothing_to_tell() -> Result<(), NoMemory> {
    let mut session = Session::new();
    assert_eq!(session.next_hop(0), None);
    assert_eq!(session.hops()?, []);
    assert_eq!(session.changed()?, []);
    assert_eq!(session.pushes(&[]), Ok(Vec::new()));
    assert_eq!(session.pushes(&[Hop::Here]), Err(TableFault::Length));
    let none: [Vec<u32>; 0] = [];
    assert_eq!(session.all_ways()?, none);
    assert_eq!(session.shrink(&none), Ok(Vec::new()));
    assert_eq!(session.grow(&none), Ok(Vec::new()));
    assert_eq!(session.shrink(&[[0]]), Err(TableFault::Length));
    assert_eq!(session.grow(&[[0]]), Err(TableFault::Length));
    assert_eq!(session.counts()?, []);
    assert_eq!(session.links()?, []);
    assert_eq!(session.walk(0)?, None);
    assert_eq!((session.ways(0)?, session.nearest(0)?), (None, None));
    assert_eq!(session.distance(0), None);
    assert_eq!((session.report(), session.size()), (None, None));
    assert_eq!(session.dest(), None);
    assert_eq!(Hop::To(7).node(), Some(7));
    assert_eq!(Hop::Here.node().or(Hop::CutOff.node()), None);
    Ok(())
}

#[test]
fn what_is_no_request_is_answered() -> Result<(), NoMemory> {
    let mut session = Session::new();
    for (line, answer) in [
        (&b""[..], None),
        (b" \t\r", None),
        (b"\n", None),
        (b"\r\n", None),
        (b"\n\n", Some("refused 1")),
        (b"[\"links\"]\r\n", Some("refused 3")),
        (b"\xff", Some("refused 1")),
        (b"\0", Some("refused 1")),
        (b"[]", Some("refused 2")),
        (b"[\"links\"]\r", Some("refused 3")),
    ] {
        assert_eq!(session.answer(line)?, answer, "{line:?}");
    }
    Ok(())
}

#[test]
fn the_crate_has_the_version_of_the_library() {
    assert_eq!(version(), env!("CARGO_PKG_VERSION"));
}

#[test]
#[allow(deprecated)]
fn former_names_do_what_the_new_ones_do() -> Result<(), NoMemory> {
    let mut session = Session::new();
    session.answer(r#"["net",4,0,[[1,0],[2,1],[2,0]]]"#)?;
    session.answer(r#"["cut",1,0]"#)?;
    assert_eq!(session.next_hops()?, session.hops()?);
    assert_eq!(session.rerouted()?, [1]);
    for node in 0..5 {
        assert_eq!(session.route(node)?, session.walk(node)?);
    }
    Ok(())
}
