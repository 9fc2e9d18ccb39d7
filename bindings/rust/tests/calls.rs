//! Tests of the crate's calls over the repository's examples. `FMEM_REFUSALS` names a file of refusals, a line
//! `KIND TAB GIVEN TAB NUMBERS` each.

use fmem::{Error, Item, Kind, Place, Query, groups, items, measure, places, query, texts};
use std::fs;

fn example(name: &str) -> Vec<u8> {
    fs::read(format!(
        "{}/../../examples/{name}",
        env!("CARGO_MANIFEST_DIR")
    ))
    .expect("the example is there")
}

fn text(name: &str) -> String {
    String::from_utf8(example(name)).expect("the example is text")
}

#[test]
fn answers_as_the_program_prints() {
    let (layout, sales) = (text("sale_layout"), example("two_sales"));
    let asked = "count,sum(.price),list(.tags[]) where .kind>=2";
    assert_eq!(query(&layout, asked, &sales), Ok(text("sale_answer")));
    assert_eq!(places(&layout), Ok(text("sale_listing")));
    assert_eq!(measure(&layout), Ok((24, 8)));
    assert_eq!(query(&layout, "count", &[]), Ok("count 0\n".into()));
    let bytes: Vec<u8> = (0..131_072).map(|k| k as u8).collect();
    let listed = query(r#"{"type":"byte"}"#, "list(.)", &bytes).expect("bytes are listed");
    assert_eq!(listed.split(' ').count(), 131_073);
}

#[test]
fn reads_by_places() {
    let (layout, sales) = (text("sale_layout"), example("two_sales"));
    let tag = Place::of(&layout, ".tags[]").expect("a place");
    assert_eq!(
        (tag.kind(), tag.record_size(), tag.strides().len()),
        (Kind::Byte, 24, 1)
    );
    assert_eq!(
        (tag.at(&[3]), tag.at(&[4]), tag.at(&[])),
        (Some(19), None, None)
    );
    assert_eq!(tag.get(&sales[24..], &[3]), Some(-1));
    let price = Place::of(&layout, ".price").expect("a place");
    assert_eq!(price.get(&sales[24..], &[]), Some(-40));
    assert_eq!(price.get(&sales[24..30], &[]), None);
    let back = Place::of(&layout, ".tags[3:-2]").expect("a place");
    assert_eq!((back.at(&[0]), back.at(&[1])), (Some(19), Some(17)));
}

#[test]
fn finds_numbers_groups_and_texts() {
    let (layout, sales) = (text("sale_layout"), example("two_sales"));
    let asked = "count,sum(.price),min(.price),max(.price) where .kind=9";
    let none = [
        Item::Count(0),
        Item::Sum(0),
        Item::Least(None),
        Item::Greatest(None),
    ];
    assert_eq!(items(&layout, asked, &sales).expect("an answer"), none);
    let listed = [Item::Count(2), Item::List(vec![250, -40])];
    let found = items(&layout, "count,list(.price)", &sales);
    assert_eq!(found.expect("an answer"), listed);
    let most = [i64::MAX.to_le_bytes(), i64::MAX.to_le_bytes()].concat();
    let sum = Item::Sum(2 * i128::from(i64::MAX));
    assert_eq!(items(r#"{"type":"long"}"#, "sum(.)", &most), Ok(vec![sum]));
    let least = [i64::MIN.to_le_bytes(), i64::MIN.to_le_bytes()].concat();
    let sum = Item::Sum(2 * i128::from(i64::MIN));
    assert_eq!(items(r#"{"type":"long"}"#, "sum(.)", &least), Ok(vec![sum]));
    let often = vec![(-1, 1), (0, 2), (1, 1), (2, 1), (3, 1), (4, 1), (5, 1)];
    assert_eq!(groups(&layout, ".tags[]", &sales), Ok(often));
    assert_eq!(groups(&layout, ".tags[]", &[]), Ok(vec![]));
    let no_zero = Error::Refused {
        number: 61,
        arguments: [None, None],
    };
    let found = texts(&layout, ".tags", &sales);
    assert_eq!(found, Ok(vec![Err(no_zero), Ok("\u{5}".into())]));
    let boolean = Place::of(r#"{"type":"boolean"}"#, ".").expect("a place");
    assert_eq!(
        (boolean.get(&[2], &[]), boolean.get(&[0], &[])),
        (Some(1), Some(0))
    );
}

#[test]
fn finds_where_a_value_stands() {
    let (layout, sales) = (text("sale_layout"), example("two_sales"));
    let tag = Place::of(&layout, ".tags[]").expect("a place");
    assert_eq!(tag.find(&sales, 24, &[3]), Ok(43));
    let refused = |base, indices: &[u64]| tag.find(&sales, base, indices).expect_err("refused");
    for (base, indices, numbers) in [
        (24, &[4][..], "33 0"),
        (24, &[], "33 0"),
        (24, &[0, 0], "33 1"),
        (25, &[0], "3"),
        (u64::MAX, &[0], "3"),
    ] {
        assert_eq!(refused(base, indices).to_string(), numbers);
    }
}

/// A path is refused alike by each call that takes one, but that a text ends at a sequence, and none of its steps is open.
fn refuses_path(path: &str, numbers: &str) {
    let (layout, sales) = (text("sale_layout"), example("two_sales"));
    assert_eq!(
        Place::of(&layout, path).expect_err(path).to_string(),
        numbers
    );
    assert_eq!(
        groups(&layout, path, &sales).expect_err(path).to_string(),
        numbers
    );
    let of_texts = match numbers {
        "35" => return,
        "32 1" | "36 1" => "34 1",
        other => other,
    };
    assert_eq!(
        texts(&layout, path, &sales).expect_err(path).to_string(),
        of_texts
    );
}

#[test]
fn refuses_each_with_its_numbers() {
    let Ok(file) = std::env::var("FMEM_REFUSALS") else {
        return;
    };
    let (layout, sales) = (text("sale_layout"), example("two_sales"));
    let rows = fs::read_to_string(file).expect("the rows are there");
    let mut paths = 0;
    for row in rows.lines() {
        let [kind, given, numbers] = row.split('\t').collect::<Vec<_>>()[..] else {
            panic!("{row}")
        };
        let came = match kind {
            "layout" => places(given),
            "records" => query(given, "count", &[]),
            _ => query(&layout, given, &sales),
        };
        assert_eq!(came.expect_err(given).to_string(), numbers, "{given}");
        // The path of an item alone is refused as the query.
        if let Some(path) = given
            .strip_prefix("sum(")
            .and_then(|it| it.strip_suffix(')'))
        {
            refuses_path(path, numbers);
            paths += 1;
        }
    }
    assert!(paths >= 6);
    refuses_path("tags", "50 0");
    for rest in 1..24 {
        let refused = Error::Refused {
            number: 51,
            arguments: [Some(rest), None],
        };
        let ragged = &sales[..24 + rest as usize];
        assert_eq!(query(&layout, "count", ragged), Err(refused));
        assert_eq!(items(&layout, "count", ragged), Err(refused));
        assert_eq!(groups(&layout, ".id", ragged), Err(refused));
        assert_eq!(texts(&layout, ".tags", ragged), Err(refused));
    }
    let refused = Error::Refused {
        number: 10,
        arguments: [Some(0), None],
    };
    assert_eq!(
        query(r#"{"type":"byte"}"#, "count", &vec![0; 67_108_865]),
        Err(refused)
    );
}

#[test]
fn serves_eight_threads_by_one_place() {
    let (layout, sales) = (text("sale_layout"), example("two_sales"));
    let tag = Place::of(&layout, ".tags[]").expect("a place");
    std::thread::scope(|scope| {
        for _ in 0..8 {
            scope.spawn(|| {
                for _ in 0..100 {
                    assert_eq!(tag.get(&sales, &[2]), Some(3));
                    assert_eq!(tag.find(&sales, 24, &[2]), Ok(42));
                    assert_eq!(
                        query(&layout, "sum(.price)", &sales),
                        Ok("sum(.price) 210\n".into())
                    );
                }
            });
        }
    });
}

#[test]
fn keeps_a_query() {
    let (layout, sales) = (text("sale_layout"), example("two_sales"));
    let asked = "count,sum(.price),list(.tags[]) where .kind>=2";
    let mut kept = Query::of(&layout, asked).expect("a query");
    for _ in 0..1000 {
        assert_eq!(kept.ask(&sales), Ok(text("sale_answer")));
    }
    let refused = Error::Refused {
        number: 51,
        arguments: [Some(1), None],
    };
    assert_eq!(kept.ask(&sales[..25]), Err(refused));
    let moved = std::thread::spawn(move || kept.ask(&example("two_sales")));
    assert_eq!(moved.join().expect("it ended"), Ok(text("sale_answer")));
    let refused = Query::of(&layout, "sum(.nope)").err().expect("no member");
    assert_eq!(refused.to_string(), "31 0");
    let bytes: Vec<u8> = (0..131_072).map(|k| k as u8).collect();
    let mut all = Query::of(r#"{"type":"byte"}"#, "list(.)").expect("a query");
    assert_eq!(all.ask(&bytes).map(|it| it.split(' ').count()), Ok(131_073));
    for _ in 0..10_000 {
        drop(Query::of(&layout, "count").expect("a query"));
    }
}

#[test]
fn may_cross_threads() {
    fn crosses<T: Send + Sync>() {}
    crosses::<Place>();
    crosses::<Error>();
    crosses::<Item>();
    fn goes<T: Send>() {}
    goes::<Query>();
}
