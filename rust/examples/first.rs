//! Devices, each found by its serial number and by its port.
use facetweave::{BiHashMap, Row2};

fn main() -> Result<(), Box<dyn std::error::Error>> {
    let mut devices = BiHashMap::new();
    devices.try_insert(Row2::new(1001, "usb0", "lamp"))?;
    if let Err(refused) = devices.try_insert(Row2::new(1002, "usb0", "fan")) {
        println!("{}: {refused}", refused.item.value); // fan: an item with an equal second key is there already
    }
    *devices.data2_mut("usb0").unwrap() = "desk lamp";
    println!("{}", devices.get1(1001).unwrap().value); // desk lamp
    Ok(())
}
