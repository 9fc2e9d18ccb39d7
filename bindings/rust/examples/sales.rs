//! Answers a query over a file of records, counts how often each number comes, and reads a value of each record by a
//! place: `sales LAYOUT FILE`.

fn main() -> Result<(), Box<dyn std::error::Error>> {
    let [layout, file] = &std::env::args().skip(1).collect::<Vec<_>>()[..] else {
        return Err("usage: sales LAYOUT FILE".into());
    };
    let layout = std::fs::read_to_string(layout)?;
    let records = std::fs::read(file)?;
    print!("{}", fmem::query(&layout, "count,sum(.price)", &records)?);
    println!("{:?}", fmem::items(&layout, "list(.tags[])", &records)?);
    for (number, count) in fmem::groups(&layout, ".tags[]", &records)? {
        println!("{number} comes {count} times");
    }
    for text in fmem::texts(&layout, ".tags", &records)? {
        match text {
            Ok(text) => println!("text {text:?}"),
            Err(refused) => println!("no text: {refused}"),
        }
    }
    let price = fmem::Place::of(&layout, ".price")?;
    for record in records.chunks_exact(price.record_size() as usize) {
        println!("{:?}", price.get(record, &[]));
    }
    Ok(())
}
