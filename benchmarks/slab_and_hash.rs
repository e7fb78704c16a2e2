// Slabs of objects, exports and proxies, each with a hash table of their names, in plain Rust: what benchmarks/tables measures
// np_objects' store and np_proxy's tables beside. The hash table is std's, with the hasher that it has by itself. The loops are
// those of np_table_speed.
use std::collections::HashMap;
use std::env;
use std::process::exit;

#[allow(dead_code)]
#[derive(Clone, Copy, PartialEq, Eq, Hash)]
enum Side {
    Page,
    Plug,
}

#[derive(Clone, Copy, PartialEq, Eq, Hash)]
struct Name {
    side: Side,
    instance: u8,
    serial: u32,
}

#[allow(dead_code)]
struct Object {
    class: u32,
    fields: Vec<(u32, u64)>,
    holds: u64,
    pinned: bool,
}

struct Store {
    slab: Vec<Option<Object>>,
    places: HashMap<Name, usize>,
}

impl Store {
    fn create(&mut self, name: Name) {
        self.places.insert(name, self.slab.len());
        self.slab.push(Some(Object { class: 0, fields: Vec::new(), holds: 0, pinned: false }));
    }

    fn class_of(&self, name: Name) -> Option<u32> {
        let place = *self.places.get(&name)?;
        self.slab[place].as_ref().map(|object| object.class)
    }

    fn hold(&mut self, name: Name) {
        let place = self.places[&name];
        let object = self.slab[place].as_mut().unwrap();
        object.holds = object.holds.checked_add(1).unwrap();
    }

    fn unhold(&mut self, name: Name) -> bool {
        let place = self.places[&name];
        let object = self.slab[place].as_mut().unwrap();
        object.holds = object.holds.checked_sub(1).unwrap();
        object.holds == 0 && !object.pinned
    }
}

struct Exports {
    slab: Vec<(Name, u64)>,
    places: HashMap<Name, usize>,
}

struct Release {
    instance: u8,
    serial: u32,
    times: u32,
}

enum Refused {
    Unknown,
    TooMany,
}

impl Exports {
    fn add(&mut self, name: Name) {
        self.places.insert(name, self.slab.len());
        self.slab.push((name, 0));
    }

    fn send(&mut self, name: Name) {
        let out = &mut self.slab[self.places[&name]].1;
        *out = out.checked_add(1).unwrap();
    }

    fn release(&mut self, release: &Release) -> Result<bool, Refused> {
        let name = Name { side: Side::Plug, instance: release.instance, serial: release.serial };
        let Some(place) = self.places.get(&name) else {
            return Err(Refused::Unknown);
        };
        let out = &mut self.slab[*place].1;
        if *out == 0 {
            return Err(Refused::Unknown);
        }
        if u64::from(release.times) > *out {
            return Err(Refused::TooMany);
        }
        *out -= u64::from(release.times);
        Ok(*out == 0)
    }
}

struct Import {
    received: u32,
    holders: u64,
}

struct Imports {
    slab: Vec<Option<Import>>,
    free: Vec<usize>,
    places: HashMap<Name, usize>,
    releases: HashMap<Name, u32>,
    purged: [bool; 256],
}

impl Imports {
    // Whether a further reference to the object can be counted.
    fn has_room(&self, name: &Name) -> bool {
        if self.purged[usize::from(name.instance)] {
            return true;
        }
        let received = self.places.get(name).map_or(0, |place| self.slab[*place].as_ref().unwrap().received);
        u64::from(received) + u64::from(self.releases.get(name).copied().unwrap_or(0)) < u64::from(u32::MAX)
    }

    // The names of a message: all are counted, or none.
    fn accept(&mut self, names: Vec<Name>) -> Result<(), Vec<Name>> {
        if !names.iter().all(|name| self.has_room(name)) {
            return Err(names);
        }
        for name in names {
            if self.purged[usize::from(name.instance)] {
                continue;
            }
            match self.places.get(&name) {
                Some(place) => {
                    let import = self.slab[*place].as_mut().unwrap();
                    import.received = import.received.checked_add(1).unwrap();
                    import.holders = import.holders.checked_add(1).unwrap();
                }
                None => {
                    let import = Some(Import { received: 1, holders: 1 });
                    let place = match self.free.pop() {
                        Some(place) => {
                            self.slab[place] = import;
                            place
                        }
                        None => {
                            self.slab.push(import);
                            self.slab.len() - 1
                        }
                    };
                    self.places.insert(name, place);
                }
            }
        }
        Ok(())
    }

    fn hold(&mut self, name: Name) {
        let import = self.slab[self.places[&name]].as_mut().unwrap();
        import.holders = import.holders.checked_add(1).unwrap();
    }

    fn unhold(&mut self, name: Name) {
        let place = self.places[&name];
        let import = self.slab[place].as_mut().unwrap();
        if import.holders > 1 {
            import.holders -= 1;
            return;
        }
        let received = import.received;
        self.slab[place] = None;
        self.free.push(place);
        self.places.remove(&name);
        *self.releases.entry(name).or_insert(0) += received;
    }
}

// What a value of a message is, as far as it matters here.
#[allow(dead_code)]
enum Value {
    Void,
    Object(Name),
}

fn names_of(values: &[Value]) -> Vec<Name> {
    let mut names = Vec::new();
    for value in values {
        if let Value::Object(name) = value {
            if name.side != Side::Plug {
                names.push(*name);
            }
        }
    }
    names
}

fn accept_one(imports: &mut Imports, name: Name) {
    let values = [Value::Object(name)];
    if imports.accept(names_of(&values)).is_err() {
        exit(3);
    }
}

fn names(side: Side) -> Vec<Name> {
    (0..1024u32).map(|number| Name { side, instance: (number % 4) as u8 + 1, serial: number + 1 }).collect()
}

fn send_each(times: u32) {
    let names = names(Side::Plug);
    let mut exports = Exports { slab: Vec::new(), places: HashMap::new() };
    for name in &names {
        exports.add(*name);
    }
    for _ in 0..times {
        for name in &names {
            exports.send(*name);
            let release = Release { instance: name.instance, serial: name.serial, times: 1 };
            if exports.release(&release).is_err() {
                exit(3);
            }
        }
    }
}

fn imports_of(names: &[Name]) -> Imports {
    let mut imports = Imports {
        slab: Vec::new(),
        free: Vec::new(),
        places: HashMap::new(),
        releases: HashMap::new(),
        purged: [false; 256],
    };
    for name in names {
        accept_one(&mut imports, *name);
    }
    imports
}

fn accept_each(times: u32) {
    let names = names(Side::Page);
    let mut imports = imports_of(&names);
    for _ in 0..times {
        for name in &names {
            accept_one(&mut imports, *name);
            imports.unhold(*name);
        }
    }
}

fn renew_each(times: u32) {
    let names = names(Side::Page);
    let mut imports = imports_of(&names);
    for _ in 0..times {
        for name in &names {
            imports.unhold(*name);
            imports.releases.clear();
            accept_one(&mut imports, *name);
        }
    }
}

fn hold_proxies(times: u32) {
    let names = names(Side::Page);
    let mut imports = imports_of(&names);
    for _ in 0..times {
        for name in &names {
            imports.hold(*name);
            imports.unhold(*name);
        }
    }
}

fn look_each(store: &Store, names: &[Name], times: u32) {
    for _ in 0..times {
        for name in names {
            if store.class_of(*name).is_none() {
                exit(3);
            }
        }
    }
}

fn hold_each(store: &mut Store, names: &[Name], times: u32) {
    for _ in 0..times {
        for name in names {
            store.hold(*name);
            store.unhold(*name);
        }
    }
}

fn run_store(what: &str, times: u32) {
    let names: Vec<Name> = (0..1024u32)
        .map(|number| Name { side: Side::Plug, instance: (number % 4) as u8 + 1, serial: number / 4 + 1 })
        .collect();
    let mut store = Store { slab: Vec::new(), places: HashMap::new() };
    for name in &names {
        store.create(*name);
    }
    match what {
        "look" => look_each(&store, &names, times),
        _ => hold_each(&mut store, &names, times),
    }
}

fn main() {
    let words: Vec<String> = env::args().collect();
    let times: u32 = words[2].parse().unwrap();
    match words[1].as_str() {
        "send" => send_each(times),
        "accept" => accept_each(times),
        "renew" => renew_each(times),
        "proxy" => hold_proxies(times),
        what => run_store(what, times),
    }
}
