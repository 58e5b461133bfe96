//! A registry of devices, found by serial number and by port. It plugs them in, gives them jobs, moves them to other ports and takes out what was
//! lost. Errors of the map become errors of the registry, which own what they speak of.
use facetweave::bi_hash_map::{Cursor, NotReplaced};
use facetweave::{BiHashItem, BiHashItemMut, BiHashMap};
use std::fmt;

#[derive(Clone, Debug, PartialEq)]
enum State {
    Idle,
    Busy { job: u32 },
    Lost,
}

#[derive(Clone, Debug)]
struct Device {
    serial: u64,
    port: String,
    state: State,
}

impl BiHashItem for Device {
    type K1 = u64;
    type K2 = String;

    fn key1(&self) -> &u64 {
        &self.serial
    }

    fn key2(&self) -> &String {
        &self.port
    }
}

// The state may be written while the device is in the map; a key may not.
impl BiHashItemMut for Device {
    type Data = State;

    fn data_mut(&mut self) -> &mut State {
        &mut self.state
    }
}

#[derive(Debug)]
enum Refused {
    SerialTaken(u64),
    PortTaken(String),
    Unknown(u64),
    NoMemory,
}

impl fmt::Display for Refused {
    fn fmt(&self, f: &mut fmt::Formatter<'_>) -> fmt::Result {
        match self {
            Refused::SerialTaken(serial) => write!(f, "{serial} is plugged in already"),
            Refused::PortTaken(port) => write!(f, "{port} is in use"),
            Refused::Unknown(serial) => write!(f, "{serial} is not plugged in"),
            Refused::NoMemory => write!(f, "there is no memory"),
        }
    }
}

impl std::error::Error for Refused {}

#[derive(Default)]
struct Registry {
    devices: BiHashMap<Device>,
}

impl Registry {
    fn plug_in(&mut self, serial: u64, port: &str) -> Result<(), Refused> {
        let device = Device { serial, port: port.to_string(), state: State::Idle };
        self.devices.try_insert(device).map_err(|e| match e {
            _ if e.taken1 => Refused::SerialTaken(e.item.serial),
            _ if e.taken2 => Refused::PortTaken(e.item.port),
            _ => Refused::NoMemory,
        })
    }

    /// Gives a device a job, if it has none.
    fn start(&mut self, serial: u64, job: u32) -> Result<bool, Refused> {
        let state = self.devices.data1_mut(serial).ok_or(Refused::Unknown(serial))?;
        let is_idle = *state == State::Idle;
        if is_idle {
            *state = State::Busy { job };
        }
        Ok(is_idle)
    }

    /// Moves a device to another port. If that is in use, the device stays where it was.
    fn move_to(&mut self, serial: u64, port: &str) -> Result<(), Refused> {
        let device = self.devices.get1(serial).ok_or(Refused::Unknown(serial))?;
        let moved = Device { port: port.to_string(), ..device.clone() };
        match self.devices.rekey1(serial, moved) {
            Ok(_) => Ok(()),
            Err(NotReplaced::Duplicate(moved)) => Err(Refused::PortTaken(moved.port)),
            Err(NotReplaced::Absent(moved)) => Err(Refused::Unknown(moved.serial)),
        }
    }

    fn take_lost(&mut self) -> Vec<Device> {
        let mut cursor = Cursor::new();
        std::iter::from_fn(|| self.devices.extract_from(&mut cursor, |device| device.state == State::Lost)).collect()
    }
}

fn main() -> Result<(), Refused> {
    let mut registry = Registry::default();
    registry.plug_in(1001, "usb0")?;
    registry.plug_in(1002, "usb1")?;
    println!("{}", registry.plug_in(1001, "usb2").unwrap_err());
    println!("{}", registry.plug_in(1003, "usb1").unwrap_err());

    println!("1001 starts job 7: {}", registry.start(1001, 7)?);
    println!("1001 starts job 8: {}", registry.start(1001, 8)?);
    println!("{}", registry.start(1003, 8).unwrap_err());

    registry.move_to(1001, "usb9")?;
    println!("{}", registry.move_to(1001, "usb1").unwrap_err());
    println!("usb9 has {}", registry.devices.get2("usb9").unwrap().serial);

    *registry.devices.data2_mut("usb1").unwrap() = State::Lost;
    println!("lost: {:?}", registry.take_lost());
    println!("left: {:?}", registry.devices);
    Ok(())
}
