//! A dictionary that is read in both directions, and counts how often a word was looked up. Its items are ready rows: two keys and a value.
use facetweave::{BiHashMap, Row2};
use std::collections::BTreeMap;

type Words = BiHashMap<Row2<String, String, u32>>;

/// Reads lines of the form `Hund = dog`.
fn read(text: &str) -> Result<Words, String> {
    let mut words = Words::new();
    for (line, number) in text.lines().zip(1..) {
        let (german, english) = line.split_once(" = ").ok_or_else(|| format!("line {number}: there is no ` = `"))?;
        let row = Row2::new(german.to_string(), english.to_string(), 0);
        words.try_insert(row).map_err(|e| format!("line {number}: {e}"))?;
    }
    Ok(words)
}

fn to_english<'a>(words: &'a mut Words, german: &str) -> Option<&'a str> {
    *words.data1_mut(german)? += 1;
    words.get1(german).map(|row| row.key2.as_str())
}

fn main() -> Result<(), Box<dyn std::error::Error>> {
    let mut words = read("Haus = house\nHund = dog\nBaum = tree")?;
    println!("{:?}", to_english(&mut words, "Hund"));
    println!("{:?}", to_english(&mut words, "Katze"));
    println!("{:?}", words.get2("tree").map(|row| &row.key1));
    println!("{}", read("Hund = dog\nHund = hound").unwrap_err());
    println!("{}", read("Hund = dog\nRüde = dog").unwrap_err());

    // A word that is put over others replaces each that has one of its keys.
    for row in words.insert_overwrite(Row2::new("Haus".to_string(), "dog".to_string(), 0))? {
        println!("gone: {} = {}, looked up {} times", row.key1, row.key2, row.value);
    }

    // From an iterator, and into a map of std.
    words.extend([("eins", "one"), ("zwei", "two")].map(|(german, english)| Row2::new(german.to_string(), english.to_string(), 0)));
    for times in &mut words {
        *times += 1;
    }
    let english: BTreeMap<&str, &str> = words.iter().map(|row| (row.key2.as_str(), row.key1.as_str())).collect();
    println!("{english:?}");
    println!("looked up {} times", words.iter().map(|row| row.value).sum::<u32>());
    Ok(())
}
