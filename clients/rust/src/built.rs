use crate::json::{self, Value};
use crate::{Error, Fd, MapShape, MapType, Tenant, Update};
use std::fmt;

/// The format of a file, and its version.
const FORMAT: &str = "bpfhost program";
const VERSION: u32 = 1;
/// The offset of a map's descriptor in a slot.
const DESCRIPTOR: std::ops::Range<usize> = 4..8;

/// A program with its maps, as `python3 -m bpfhost build` writes it. README.md of clients/python has the format.
#[derive(Debug, Clone, PartialEq, Eq)]
pub struct BuiltProgram {
    name: String,
    slots: Vec<[u8; 8]>,
    maps: Vec<BuiltMap>,
}

/// A map of a built program.
#[derive(Debug, Clone, PartialEq, Eq)]
pub struct BuiltMap {
    name: String,
    shape: MapShape,
    slots: Vec<usize>,
    initial: Option<Vec<u8>>,
}

/// A built program that a tenant has loaded.
#[derive(Debug, Clone, PartialEq, Eq)]
pub struct LoadedProgram {
    /// The program.
    pub prog: Fd,
    /// The maps, in the order of [`BuiltProgram::maps`].
    pub maps: Vec<Fd>,
}

/// Why a text is no built program.
#[derive(Debug, Clone, PartialEq, Eq)]
pub struct NotBuilt(String);

impl fmt::Display for NotBuilt {
    fn fmt(&self, f: &mut fmt::Formatter<'_>) -> fmt::Result {
        write!(f, "this is no built program: {}", self.0)
    }
}

impl std::error::Error for NotBuilt {}

fn wrong<T>(what: impl Into<String>) -> Result<T, NotBuilt> {
    Err(NotBuilt(what.into()))
}

impl BuiltProgram {
    /// Reads the text of a file.
    ///
    /// # Errors
    ///
    /// [`NotBuilt`] says what is wrong: the JSON, with the offset; another format or version, a key that is missing or has another
    /// type, or a slot of a map that the program does not have.
    pub fn read(text: &str) -> Result<BuiltProgram, NotBuilt> {
        let file = json::read(text).or_else(|fault| wrong(format!("{} at byte {}", fault.what, fault.at)))?;
        if field(&file, "format").and_then(string)? != FORMAT {
            return wrong(format!("its format is another one than {FORMAT}"));
        }
        let version = field(&file, "version").and_then(number)?;
        if version != VERSION {
            return wrong(format!("its version is {version}, and {VERSION} is known"));
        }
        let slots = list(field(&file, "slots")?)?.iter().map(slot).collect::<Result<Vec<_>, _>>()?;
        let maps =
            list(field(&file, "maps")?)?.iter().map(|each| map(each, slots.len())).collect::<Result<Vec<_>, _>>()?;
        Ok(BuiltProgram { name: string(field(&file, "name")?)?.to_string(), slots, maps })
    }

    /// The name of its function.
    pub fn name(&self) -> &str {
        &self.name
    }

    /// Its maps.
    pub fn maps(&self) -> &[BuiltMap] {
        &self.maps
    }

    /// Makes the maps for a tenant, with their first values, and loads the program. If that is refused, the maps are closed again.
    ///
    /// # Errors
    ///
    /// Those of [`Tenant::map_create`], [`Tenant::map_update`] and [`Tenant::prog_load`].
    pub fn load(&self, tenant: &mut Tenant<'_>) -> Result<LoadedProgram, Error> {
        let mut maps = Vec::new();
        let loaded = self.load_with(tenant, &mut maps);
        if loaded.is_err() {
            for map in maps.iter().rev() {
                tenant.close(*map)?;
            }
        }
        loaded.map(|prog| LoadedProgram { prog, maps })
    }

    fn load_with(&self, tenant: &mut Tenant<'_>, maps: &mut Vec<Fd>) -> Result<Fd, Error> {
        let mut slots = self.slots.clone();
        for each in &self.maps {
            let map = tenant.map_create(each.shape)?;
            maps.push(map);
            if let Some(value) = &each.initial {
                tenant.map_update(map, Update::Any, &vec![0; each.shape.key_size as usize], value)?;
            }
            for &slot in &each.slots {
                slots[slot][DESCRIPTOR].copy_from_slice(&map.0.to_le_bytes());
            }
        }
        tenant.prog_load(&slots)
    }
}

impl BuiltMap {
    /// The name of its variable, or of a section of variables.
    pub fn name(&self) -> &str {
        &self.name
    }

    /// What it is made of.
    pub fn shape(&self) -> MapShape {
        self.shape
    }
}

fn field<'a>(value: &'a Value, key: &str) -> Result<&'a Value, NotBuilt> {
    let Value::Object(members) = value else { return wrong(format!("{key} is asked of what is no object")) };
    match members.iter().find(|(name, _)| name == key) {
        Some((_, found)) => Ok(found),
        None => wrong(format!("it has no {key}")),
    }
}

fn string(value: &Value) -> Result<&str, NotBuilt> {
    if let Value::Text(text) = value { Ok(text) } else { wrong("something is no string") }
}

fn number(value: &Value) -> Result<u32, NotBuilt> {
    if let Value::Number(number) = value { Ok(*number) } else { wrong("something is no number") }
}

fn list(value: &Value) -> Result<&[Value], NotBuilt> {
    if let Value::List(elements) = value { Ok(elements) } else { wrong("something is no list") }
}

fn slot(value: &Value) -> Result<[u8; 8], NotBuilt> {
    let digits = string(value)?;
    bytes(digits)?.try_into().or_else(|_| wrong(format!("{digits} is no slot")))
}

fn bytes(digits: &str) -> Result<Vec<u8>, NotBuilt> {
    if digits.len() % 2 != 0 || !digits.bytes().all(|each| each.is_ascii_hexdigit()) {
        return wrong(format!("{digits} are no bytes in hexadecimal digits"));
    }
    let byte = |at| u8::from_str_radix(&digits[at..at + 2], 16).expect("they are hexadecimal digits");
    Ok((0..digits.len()).step_by(2).map(byte).collect())
}

fn map(value: &Value, slots: usize) -> Result<BuiltMap, NotBuilt> {
    let map_type = match field(value, "type").and_then(string)? {
        "hash" => MapType::Hash,
        "array" => MapType::Array,
        other => return wrong(format!("a map has type {other}")),
    };
    let size = |key| field(value, key).and_then(number);
    let shape = MapShape {
        map_type,
        key_size: size("key_size")?,
        value_size: size("value_size")?,
        max_entries: size("max_entries")?,
    };
    let initial = match field(value, "initial")? {
        Value::Null => None,
        given => Some(bytes(string(given)?)?),
    };
    let named = list(field(value, "slots")?)?.iter().map(|each| number(each).map(|slot| slot as usize));
    let named = named.collect::<Result<Vec<_>, _>>()?;
    if let Some(outside) = named.iter().find(|slot| **slot >= slots) {
        return wrong(format!("a map is named at slot {outside}, and there are {slots}"));
    }
    Ok(BuiltMap { name: string(field(value, "name")?)?.to_string(), shape, slots: named, initial })
}
