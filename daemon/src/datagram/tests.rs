use super::*;
use std::collections::BTreeSet;

const HEAD_OF_ALL: Head = Head {
    from: 7,
    start: Start {
        session: 8,
        process: 10,
    },
    number: 9,
    hold: Duration::from_millis(4000),
};

const ONE: Start = Start {
    session: 2,
    process: 5,
};

/// A hello with routers that are heard, and with as many that are known.
fn said(heard: &[Start]) -> Hello {
    let peer = |start: &Start| Peer {
        router: 1,
        start: *start,
    };
    Hello {
        mac: Some([2, 0, 0, 0, 0, 7]),
        heard: heard.to_vec(),
        known: heard.iter().map(peer).collect(),
    }
}

fn key(number: u8, secret: &str) -> Key {
    Key {
        number,
        secret: secret.into(),
    }
}

fn address() -> Address {
    Address {
        to: Peer {
            router: 3,
            start: Start {
                session: 4,
                process: 5,
            },
        },
        arrived: Arrived {
            greatest: 70,
            before: 5,
        },
        waited: Duration::from_micros(1234),
        is_complete: true,
        wants_answer: false,
    }
}

fn prefix(text: &str) -> Prefix {
    text.parse().unwrap()
}

#[test]
fn a_hello_is_read_as_it_was_written() {
    let last = Start {
        session: u32::MAX,
        process: u32::MAX - 1,
    };
    for keys in [vec![], vec![key(1, "one"), key(2, "two")]] {
        let said = said(&[ONE, last]);
        let data = hello(HEAD_OF_ALL, &said, &keys);
        assert_eq!(read(&data, &keys), Some((HEAD_OF_ALL, Body::Hello(said))));
        assert_eq!(receiver(&data), None);
    }
}

#[test]
fn news_are_read_as_they_were_written() {
    let message = [0xa5; MESSAGE_LENGTH];
    let all = [
        "10.1.0.0/16",
        "0.0.0.0/0",
        "10.1.2.3/32",
        "2001:db8::/33",
        "fd00::1/128",
        "::/0",
    ];
    let says = [
        Says::Name,
        Says::Left,
        Says::Message(&message, true),
        Says::Message(&message, false),
    ];
    let keys = [key(5, "secret")];
    let mut news = News::new(HEAD_OF_ALL, address(), &keys);
    let records: Vec<Record<'_>> = all
        .iter()
        .flat_map(|it| {
            says.map(|says| Record {
                prefix: prefix(it),
                says,
            })
        })
        .collect();
    for it in &records {
        assert!(news.has_space());
        news.push(*it);
    }
    let data = news.sealed(false, &keys);
    let Some((head, Body::News(found, read))) = read(&data, &keys) else {
        panic!("not read")
    };
    assert_eq!(
        (head, found, receiver(&data)),
        (HEAD_OF_ALL, address(), Some(3))
    );
    assert_eq!(read, records);
}

#[test]
fn a_datagram_takes_no_more_than_it_may() {
    let message = [0; MESSAGE_LENGTH];
    let mut news = News::new(HEAD_OF_ALL, address(), &[]);
    while news.has_space() {
        let says = Says::Message(&message, true);
        news.push(Record {
            prefix: prefix("fd00::1/128"),
            says,
        });
    }
    assert!(news.sealed(false, &[key(1, "one")]).len() <= MOST_BYTES);
    let keys = [key(1, "one")];
    let most = hello(HEAD_OF_ALL, &said(&[ONE; 1000]), &keys);
    assert!(most.len() <= MOST_BYTES);
    let (_, Body::Hello(read)) = read(&most, &keys).unwrap() else {
        panic!("not a hello")
    };
    assert_eq!(read, said(&[ONE; MOST_HEARD]), "each list has its space");
}

/// A hello goes over each link each second. Beside the headers of Ethernet, IPv6 and UDP, which take 62 bytes, it has these.
#[test]
fn a_hello_with_one_neighbour_is_short() {
    let said = Hello {
        known: Vec::new(),
        ..said(&[ONE])
    };
    assert_eq!(hello(HEAD_OF_ALL, &said, &[]).len(), 40);
    assert_eq!(hello(HEAD_OF_ALL, &said, &[key(1, "one")]).len(), 56);
}

fn bytes(text: &str) -> Vec<u8> {
    let text: String = text.split_whitespace().collect();
    let pairs = (0..text.len()).step_by(2);
    pairs
        .map(|at| u8::from_str_radix(&text[at..at + 2], 16).unwrap())
        .collect()
}

/// The bytes are those that the top of datagram.rs describes. Python has made the seals.
#[test]
fn the_form_is_the_one_that_is_described() {
    let keys = [key(3, "0123456789abcdef")];
    let head = "03 0190 00000007 00000008 0000000a 0000000000000009";
    let of_hello = bytes(&format!(
        "5248 {head} 020000000007 01 00000002 00000005 00000001 00000002 00000005 39da8579bbba88d522cdbad710e3b7ab"
    ));
    assert_eq!(hello(HEAD_OF_ALL, &said(&[ONE]), &keys), of_hello);
    let of_news = bytes(&format!(
        "524e {head} 00000003 00000004 00000005 0000000000000046 0000000000000005 000004d2 03 00 18 0a0900 fcc4cc7cdf141e06a38dfae8412346f6"
    ));
    let mut news = News::new(HEAD_OF_ALL, address(), &keys);
    news.push(Record {
        prefix: prefix("10.9.0.0/24"),
        says: Says::Name,
    });
    assert_eq!(news.sealed(true, &keys), of_news);
}

/// What revrouted said before its form became shorter, sealed by the same key: a hello that lists one router, and news. Their
/// ends could be records of news, if their first letters were those of news.
#[test]
fn a_datagram_of_the_earlier_form_is_not_read() {
    let head = "0190 00000007 0000000000000008 000000000000000a 0000000000000009";
    let of_hello = "020000000007 0001 00000001 0000000000000002 0000000000000000";
    let of_news =
        "00000001 0000000000000002 0000000000000000 0000000000000000 0000000000000000 00000000";
    for (kind, flags, body) in [("01", "00", of_hello), ("02", "03", of_news)] {
        // The number of the key was in the byte 4. In the byte 2, where it is now, there was a letter.
        for (in_it, number) in [("00", None), ("03", Some(3)), ("03", Some(0x44))] {
            let data = bytes(&format!("525244 {kind} {in_it} {flags} {head} {body}"));
            let keys: Vec<Key> = number.map(|it| key(it, "one")).into_iter().collect();
            let data = sealed(data, &keys);
            assert_eq!((read(&data, &keys), receiver(&data)), (None, None));
        }
    }
}

#[test]
fn lists_that_are_cut_or_longer_than_the_hello_are_not_read() {
    let whole = hello(HEAD_OF_ALL, &said(&[ONE, ONE]), &[]);
    let (lists, peers) = (HELLO_HEAD, HELLO_HEAD + 2 * START);
    let ends = [lists, lists + START, peers, peers + PEER, peers + 2 * PEER];
    for end in 0..=whole.len() {
        // The heard ones are as many as the count says. The known ones end with the datagram.
        let is_read = end >= peers && ends.contains(&end);
        assert_eq!(read(&whole[..end], &[]).is_some(), is_read, "{end} bytes");
    }
    let mut other = whole.clone();
    for count in 0..=u8::MAX {
        other[HELLO_HEAD - 1] = count;
        let rest = (whole.len() - HELLO_HEAD).checked_sub(usize::from(count) * START);
        let is_read = rest.is_some_and(|it| it % PEER == 0);
        assert_eq!(read(&other, &[]).is_some(), is_read, "{count} of them");
    }
}

#[test]
fn only_what_has_a_right_seal_is_read() {
    let (one, two) = (key(1, "one"), key(2, "two"));
    let data = hello(HEAD_OF_ALL, &said(&[]), std::slice::from_ref(&one));
    let open = hello(HEAD_OF_ALL, &said(&[]), &[]);
    assert!(
        read(&data, &[two.clone(), one.clone()]).is_some(),
        "while keys are changed"
    );
    assert!(
        read(&data, std::slice::from_ref(&two)).is_none(),
        "a key that is not known"
    );
    assert!(read(&data, &[key(1, "other")]).is_none(), "another secret");
    assert!(
        read(&data, &[]).is_none(),
        "a sealed one at a router without keys"
    );
    assert!(
        read(&open, std::slice::from_ref(&one)).is_none(),
        "an open one at a router with keys"
    );
    for at in 0..data.len() {
        for bit in 0..8 {
            let mut other = data.clone();
            other[at] ^= 1 << bit;
            assert!(
                read(&other, std::slice::from_ref(&one)).is_none(),
                "byte {at}"
            );
        }
    }
}

#[test]
fn numbers_that_arrived_are_those_that_were_added() {
    let mut state = 1u64;
    for _ in 0..200 {
        let (mut arrived, mut all) = (Arrived::default(), BTreeSet::new());
        for _ in 0..100 {
            state = state
                .wrapping_mul(6364136223846793005)
                .wrapping_add(1442695040888963407);
            let number = 1 + (state >> 33) % 200;
            let greatest = all.last().copied().unwrap_or(0);
            assert_eq!(arrived.is_past(number), greatest > number + 64);
            if !arrived.is_past(number) {
                all.insert(number);
                arrived.add(number);
            }
            let greatest = all.last().copied().unwrap_or(0);
            for it in greatest.saturating_sub(64)..=greatest + 1 {
                assert_eq!(arrived.has(it), all.contains(&it), "{it} of {all:?}");
            }
        }
    }
    assert!(Arrived::default().is_past(0) && !Arrived::default().has(0));
}
