//! A plain program that prints what `rcp` prints for `ideal`, `replay`, `events` and `summary`, for files without a fault and of
//! format 1. Nothing of it is proved. `bench/all` may time it beside the proved program: `rustc -O -o plain bench/plain.rs`.

use std::collections::HashMap;
use std::io::Write;

const MOST: usize = 9;

// --- the task file

#[derive(Clone)]
enum Value {
    Integer(i64),
    Text(String),
    List(Vec<Value>),
    Table(HashMap<String, Value>),
}

impl Value {
    fn integer(&self) -> i64 {
        if let Value::Integer(n) = self { *n } else { panic!("no integer") }
    }

    fn text(&self) -> &str {
        if let Value::Text(text) = self { text } else { panic!("no text") }
    }

    fn list(&self) -> &[Value] {
        if let Value::List(list) = self { list } else { panic!("no list") }
    }

    fn at(&self, key: &str) -> &Value {
        if let Value::Table(table) = self { &table[key] } else { panic!("no table") }
    }
}

struct Toml<'a> {
    bytes: &'a [u8],
    place: usize,
}

impl Toml<'_> {
    fn skip(&mut self) {
        while let Some(byte) = self.bytes.get(self.place) {
            match byte {
                b' ' | b'\t' | b'\r' | b'\n' => self.place += 1,
                b'#' => {
                    while self.bytes.get(self.place).is_some_and(|byte| *byte != b'\n') {
                        self.place += 1;
                    }
                }
                _ => return,
            }
        }
    }

    fn eat(&mut self, text: &str) -> bool {
        self.skip();
        let is_there = self.bytes[self.place..].starts_with(text.as_bytes());
        self.place += if is_there { text.len() } else { 0 };
        is_there
    }

    fn key(&mut self) -> String {
        self.skip();
        let begin = self.place;
        while self.bytes[self.place].is_ascii_alphanumeric() || self.bytes[self.place] == b'_' {
            self.place += 1;
        }
        String::from_utf8_lossy(&self.bytes[begin..self.place]).into_owned()
    }

    fn value(&mut self) -> Value {
        if self.eat("[") {
            let mut list = Vec::new();
            while !self.eat("]") {
                list.push(self.value());
                self.eat(",");
            }
            Value::List(list)
        } else if self.eat("{") {
            let mut table = HashMap::new();
            while !self.eat("}") {
                self.entry(&mut table);
                self.eat(",");
            }
            Value::Table(table)
        } else if self.eat("\"") {
            let begin = self.place;
            while self.bytes[self.place] != b'"' {
                self.place += 1;
            }
            self.place += 1;
            Value::Text(String::from_utf8_lossy(&self.bytes[begin..self.place - 1]).into_owned())
        } else {
            let sign = if self.eat("-") { -1 } else { 1 };
            Value::Integer(sign * self.key().parse::<i64>().unwrap())
        }
    }

    fn entry(&mut self, table: &mut HashMap<String, Value>) {
        let key = self.key();
        self.eat("=");
        let value = self.value();
        table.insert(key, value);
    }

    fn document(mut self) -> Value {
        let mut top = HashMap::new();
        let mut place: Option<(String, bool)> = None;
        loop {
            self.skip();
            if self.place == self.bytes.len() {
                return Value::Table(top);
            }
            if self.eat("[[") {
                let key = self.key();
                self.eat("]]");
                let list = top.entry(key.clone()).or_insert(Value::List(Vec::new()));
                if let Value::List(list) = list {
                    list.push(Value::Table(HashMap::new()));
                }
                place = Some((key, true));
            } else if self.eat("[") {
                let key = self.key();
                self.eat("]");
                top.insert(key.clone(), Value::Table(HashMap::new()));
                place = Some((key, false));
            } else {
                match &place {
                    None => self.entry(&mut top),
                    Some((key, _)) => match top.get_mut(key) {
                        Some(Value::List(list)) => match list.last_mut() {
                            Some(Value::Table(table)) => self.entry(table),
                            _ => panic!("no table"),
                        },
                        Some(Value::Table(table)) => self.entry(table),
                        _ => panic!("no table"),
                    },
                }
            }
        }
    }
}

// --- the task language

#[derive(Clone, Copy)]
enum Instruction {
    Number(i64),
    Sensor(usize),
    Cell(usize),
    Let(usize),
    Neg,
    Not,
    Abs,
    Add,
    Sub,
    Mul,
    Div,
    Rem,
    Eq,
    Ne,
    Lt,
    Le,
    Gt,
    Ge,
    And,
    Or,
    Min,
    Max,
    Clamp,
    If,
    Keep,
    Set(usize),
}
use Instruction::*;

#[derive(Default)]
struct Machine {
    stack: Vec<i64>,
    lets: Vec<i64>,
    sets: Vec<(usize, i64)>,
}

impl Machine {
    fn run(&mut self, code: &[Instruction], sensors: &[i64], cells: &[i64]) {
        self.lets.clear();
        self.sets.clear();
        for instruction in code {
            let value = match *instruction {
                Number(n) => n,
                Sensor(i) => sensors[i],
                Cell(i) => cells[i],
                Let(i) => self.lets[i],
                Keep => {
                    let value = self.stack.pop().unwrap();
                    self.lets.push(value);
                    continue;
                }
                Set(cell) => {
                    let value = self.stack.pop().unwrap();
                    self.sets.push((cell, value));
                    continue;
                }
                Neg => 0i64.saturating_sub(self.stack.pop().unwrap()),
                Not => i64::from(self.stack.pop().unwrap() == 0),
                Abs => self.stack.pop().unwrap().saturating_abs(),
                Clamp | If => {
                    let c = self.stack.pop().unwrap();
                    let b = self.stack.pop().unwrap();
                    let a = self.stack.pop().unwrap();
                    match instruction {
                        Clamp => b.max(c.min(a)),
                        _ if a != 0 => b,
                        _ => c,
                    }
                }
                two => {
                    let b = self.stack.pop().unwrap();
                    let a = self.stack.pop().unwrap();
                    combined(two, a, b)
                }
            };
            self.stack.push(value);
        }
    }
}

fn combined(two: Instruction, a: i64, b: i64) -> i64 {
    match two {
        Add => a.saturating_add(b),
        Sub => a.saturating_sub(b),
        Mul => a.saturating_mul(b),
        Div => if b == 0 { 0 } else { a.saturating_div(b) },
        Rem => if b == 0 { 0 } else { a.wrapping_rem(b) },
        Eq => i64::from(a == b),
        Ne => i64::from(a != b),
        Lt => i64::from(a < b),
        Le => i64::from(a <= b),
        Gt => i64::from(a > b),
        Ge => i64::from(a >= b),
        And => i64::from(a != 0 && b != 0),
        Or => i64::from(a != 0 || b != 0),
        Min => a.min(b),
        _ => a.max(b),
    }
}

struct Reader<'a> {
    tokens: Vec<&'a str>,
    place: usize,
    sensors: &'a [String],
    cells: &'a [String],
    lets: Vec<&'a str>,
    code: Vec<Instruction>,
}

impl<'a> Reader<'a> {
    fn new(text: &'a str, sensors: &'a [String], cells: &'a [String]) -> Reader<'a> {
        let bytes = text.as_bytes();
        let (mut tokens, mut i) = (Vec::new(), 0);
        while i < bytes.len() {
            let begin = i;
            i += 1;
            if bytes[begin].is_ascii_alphanumeric() {
                while i < bytes.len() && (bytes[i].is_ascii_alphanumeric() || bytes[i] == b'_') {
                    i += 1;
                }
            } else if bytes[begin].is_ascii_whitespace() {
                continue;
            } else if i < bytes.len() && bytes[i] == b'=' && b":=!<>".contains(&bytes[begin]) {
                i += 1;
            }
            tokens.push(&text[begin..i]);
        }
        Reader { tokens, place: 0, sensors, cells, lets: Vec::new(), code: Vec::new() }
    }

    fn next(&mut self) -> &'a str {
        self.place += 1;
        self.tokens[self.place - 1]
    }

    fn eat(&mut self, words: &[&str]) -> Option<&'a str> {
        let word = *self.tokens.get(self.place)?;
        words.contains(&word).then(|| self.next())
    }

    fn body(mut self) -> Vec<Instruction> {
        while self.place < self.tokens.len() {
            let name = self.next();
            if name == "let" {
                let name = self.next();
                self.next();
                self.or();
                self.lets.push(name);
                self.code.push(Keep);
            } else {
                self.next();
                self.or();
                self.code.push(Set(self.cells.iter().position(|cell| cell == name).unwrap()));
            }
            self.next();
        }
        self.code
    }

    fn value(mut self) -> Vec<Instruction> {
        self.or();
        self.code.push(Set(0));
        self.code
    }

    fn or(&mut self) {
        self.and();
        while self.eat(&["or"]).is_some() {
            self.and();
            self.code.push(Or);
        }
    }

    fn and(&mut self) {
        self.not();
        while self.eat(&["and"]).is_some() {
            self.not();
            self.code.push(And);
        }
    }

    fn not(&mut self) {
        if self.eat(&["not"]).is_some() {
            self.not();
            self.code.push(Not);
        } else {
            self.sum();
            if let Some(word) = self.eat(&["==", "!=", "<", "<=", ">", ">="]) {
                self.sum();
                self.code.push(match word {
                    "==" => Eq,
                    "!=" => Ne,
                    "<" => Lt,
                    "<=" => Le,
                    ">" => Gt,
                    _ => Ge,
                });
            }
        }
    }

    fn sum(&mut self) {
        self.product();
        while let Some(word) = self.eat(&["+", "-"]) {
            self.product();
            self.code.push(if word == "+" { Add } else { Sub });
        }
    }

    fn product(&mut self) {
        self.unary();
        while let Some(word) = self.eat(&["*", "/", "%"]) {
            self.unary();
            self.code.push(match word {
                "*" => Mul,
                "/" => Div,
                _ => Rem,
            });
        }
    }

    fn unary(&mut self) {
        if self.eat(&["-"]).is_some() {
            self.unary();
            self.code.push(Neg);
        } else {
            self.first();
        }
    }

    fn first(&mut self) {
        let word = self.next();
        let call = match word {
            "abs" => Abs,
            "min" => Min,
            "max" => Max,
            "clamp" => Clamp,
            "if" => If,
            "(" => {
                self.or();
                self.next();
                return;
            }
            _ => return self.code.push(self.operand(word)),
        };
        self.next();
        self.or();
        while self.next() == "," {
            self.or();
        }
        self.code.push(call);
    }

    fn operand(&self, word: &str) -> Instruction {
        let is_word = |name: &String| name == word;
        if let Ok(number) = word.parse() {
            Number(number)
        } else if let Some(i) = self.sensors.iter().position(is_word) {
            Sensor(i)
        } else if let Some(i) = self.cells.iter().position(is_word) {
            Cell(i)
        } else {
            Let(self.lets.iter().position(|name| *name == word).unwrap())
        }
    }
}

// --- the plan

struct Timing {
    compute: i64,
    broadcast: i64,
    vote: i64,
    frame: i64,
    skew: i64,
    drift: i64,
    delay_min: i64,
    delay_max: i64,
    skew_limit: i64,
}

struct Plan {
    replicas: usize,
    timing: Timing,
    sensors: Vec<String>,
    cells: Vec<String>,
    initial_sensors: Vec<i64>,
    initial_cells: Vec<i64>,
    tasks: Vec<Vec<Instruction>>,
    slots: Vec<(Vec<usize>, u64)>,
    actuators: Vec<(String, Vec<Instruction>)>,
}

fn names(top: &Value, section: &str) -> (Vec<String>, Vec<i64>) {
    let Value::Table(table) = top else { panic!("no table") };
    let items = table.get(section).map_or(&[][..], Value::list);
    let name = |item: &Value| item.at("name").text().to_string();
    (items.iter().map(name).collect(), items.iter().map(|item| item.at("initial").integer()).collect())
}

fn read_plan(bytes: &[u8]) -> Plan {
    let top = Toml { bytes, place: 0 }.document();
    let ((sensors, initial_sensors), (cells, initial_cells)) = (names(&top, "sensor"), names(&top, "cell"));
    let tick = |key| top.at("timing").at(key).integer();
    let tasks = top.at("task").list();
    let number = |names: &[Value], name: &Value| names.iter().position(|item| item.at("name").text() == name.text()).unwrap();
    let cell = |name: &Value| cells.iter().position(|cell| cell == name.text()).unwrap();
    let slot = |slot: &Value| {
        let votes = slot.at("votes").list().iter().fold(0, |word, name| word | 1 << cell(name));
        (slot.at("tasks").list().iter().map(|name| number(tasks, name)).collect(), votes)
    };
    let value = |item: &Value| {
        let code = Reader::new(item.at("value").text(), &sensors, &cells).value();
        (item.at("name").text().to_string(), code)
    };
    Plan {
        replicas: top.at("replicas").integer() as usize,
        timing: Timing {
            compute: tick("compute"),
            broadcast: tick("broadcast"),
            vote: tick("vote"),
            frame: tick("compute") + tick("broadcast") + tick("vote") + tick("sync"),
            skew: tick("skew"),
            drift: tick("drift_ppm"),
            delay_min: tick("delay_min"),
            delay_max: tick("delay_max"),
            skew_limit: tick("skew_limit"),
        },
        tasks: tasks.iter().map(|task| Reader::new(task.at("body").text(), &sensors, &cells).body()).collect(),
        slots: top.at("slot").list().iter().map(slot).collect(),
        actuators: top.at("actuator").list().iter().map(value).collect(),
        sensors: sensors.clone(),
        cells: cells.clone(),
        initial_sensors,
        initial_cells,
    }
}

impl Plan {
    fn run_slot(&self, machine: &mut Machine, slot: usize, sensors: &[i64], cells: &mut [i64]) {
        for task in &self.slots[slot].0 {
            machine.run(&self.tasks[*task], sensors, cells);
            for (cell, value) in &machine.sets {
                cells[*cell] = *value;
            }
        }
    }

    // The cells that feed each cell in a slot.
    fn feeds(&self, slot: usize) -> Vec<u64> {
        let mut needs: Vec<u64> = (0..self.cells.len()).map(|cell| 1 << cell).collect();
        for task in &self.slots[slot].0 {
            let (mut stack, mut lets, mut sets) = (Vec::<u64>::new(), Vec::new(), Vec::new());
            for instruction in &self.tasks[*task] {
                let word = match *instruction {
                    Number(_) | Sensor(_) => 0,
                    Cell(i) => needs[i],
                    Let(i) => lets[i],
                    Neg | Not | Abs => continue,
                    Clamp | If => stack.pop().unwrap() | stack.pop().unwrap() | stack.pop().unwrap(),
                    Keep => {
                        lets.push(stack.pop().unwrap());
                        continue;
                    }
                    Set(cell) => {
                        sets.push((cell, stack.pop().unwrap()));
                        continue;
                    }
                    _ => stack.pop().unwrap() | stack.pop().unwrap(),
                };
                stack.push(word);
            }
            for (cell, word) in sets {
                needs[cell] = word;
            }
        }
        needs
    }

    fn recovery(&self) -> u64 {
        let feeds: Vec<_> = (0..self.slots.len()).map(|slot| self.feeds(slot)).collect();
        let all = u64::MAX >> (64 - self.cells.len());
        let mut ends: Vec<u64> = self.slots.iter().map(|slot| all & !slot.1).collect();
        let mut length = 1;
        while ends.iter().any(|word| *word != 0) {
            let count = ends.len();
            let next = |slot: usize| {
                let before = ends[(slot + count - 1) % count];
                let led = (0..self.cells.len()).filter(|cell| feeds[slot][*cell] & before != 0);
                led.fold(0, |word, cell| word | 1 << cell) & all & !self.slots[slot].1
            };
            ends = (0..count).map(next).collect();
            length += 1;
        }
        length
    }
}

// --- the journal

#[derive(Default)]
struct Input {
    sensors: Vec<i64>,
    is_quiet: bool,
    down: [bool; MOST],
    skew: [i64; MOST],
    rate: [i64; MOST],
    cells: Vec<(usize, usize, i64)>,
    slots: Vec<(usize, usize)>,
    acts: Vec<(usize, usize, i64)>,
    lies: Vec<(usize, usize, usize, i64)>,
    slot_lies: Vec<(usize, usize, usize)>,
    drops: Vec<(usize, usize)>,
    delays: Vec<(usize, usize, i64)>,
}

impl Input {
    fn clear(&mut self) {
        if !self.is_quiet {
            let sensors = std::mem::take(&mut self.sensors);
            *self = Input { sensors, is_quiet: true, ..Input::default() };
        }
    }

    fn delay(&self, plan: &Plan, from: usize, to: usize) -> i64 {
        let is_it = |row: &&(usize, usize, i64)| (row.0, row.1) == (from, to);
        self.delays.iter().find(is_it).map_or(plan.timing.delay_min, |row| row.2)
    }

    fn goes_out(&self, from: usize, to: usize) -> bool {
        !self.down[from] && !self.drops.contains(&(from, to))
    }

    fn is_healthy(&self, plan: &Plan, replica: usize) -> bool {
        let timing = &plan.timing;
        let is_late = |row: &(usize, usize, i64)| row.0 == replica && !(timing.delay_min..=timing.delay_max).contains(&row.2);
        self.is_quiet
            || !self.down[replica]
                && !self.cells.iter().any(|row| row.0 == replica)
                && !self.slots.iter().any(|row| row.0 == replica)
                && !self.acts.iter().any(|row| row.0 == replica)
                && !self.lies.iter().any(|row| row.0 == replica)
                && !self.slot_lies.iter().any(|row| row.0 == replica)
                && !self.drops.iter().any(|row| row.0 == replica)
                && (0..=timing.skew).contains(&self.skew[replica])
                && self.rate[replica].abs() <= timing.drift
                && !self.delays.iter().any(is_late)
    }

    fn tick(&self, plan: &Plan, frame: i64, replica: usize, own: i64) -> i64 {
        frame * plan.timing.frame + self.skew[replica] + own + (own * self.rate[replica]).div_euclid(1_000_000)
    }
}

struct Journal<'a> {
    plan: &'a Plan,
    lines: std::iter::Peekable<std::str::Lines<'a>>,
    frames: i64,
}

impl<'a> Journal<'a> {
    fn new(plan: &'a Plan, text: &'a str) -> Journal<'a> {
        let last = text.lines().next_back().unwrap();
        let frames = last.split(',').next().unwrap().parse().unwrap();
        let mut lines = text.lines().peekable();
        lines.next();
        Journal { plan, lines, frames }
    }

    fn fill(&mut self, frame: i64, input: &mut Input) {
        input.clear();
        while let Some(line) = self.lines.peek() {
            let mut fields = line.split(',');
            if fields.next().unwrap().parse::<i64>() != Ok(frame) {
                return;
            }
            self.row(fields, input);
            self.lines.next();
        }
    }

    fn row(&self, mut fields: std::str::Split<'a, char>, input: &mut Input) {
        let kind = fields.next().unwrap();
        let [a, b, c, d] = std::array::from_fn(|_| fields.next().unwrap());
        let number = |field: &str| field.parse::<i64>().unwrap();
        let index = |field: &str| field.parse::<usize>().unwrap();
        let cell = |name: &str| self.plan.cells.iter().position(|cell| cell == name).unwrap();
        input.is_quiet &= kind == "sensor";
        match kind {
            "sensor" => input.sensors[self.plan.sensors.iter().position(|name| name == a).unwrap()] = number(b),
            "down" => input.down[index(a)] = true,
            "cell" => input.cells.push((index(a), cell(b), number(c))),
            "slot" => input.slots.push((index(a), index(b))),
            "act" => {
                let actuator = self.plan.actuators.iter().position(|actuator| actuator.0 == b).unwrap();
                input.acts.push((index(a), actuator, number(c)));
            }
            "lie" => input.lies.push((index(a), index(b), cell(c), number(d))),
            "lieslot" => input.slot_lies.push((index(a), index(b), index(c))),
            "drop" => input.drops.push((index(a), index(b))),
            "skew" => input.skew[index(a)] = number(b),
            "rate" => input.rate[index(a)] = number(b),
            _ => input.delays.push((index(a), index(b), number(c))),
        }
    }
}

// --- the replicas

#[derive(Clone, Default)]
struct Message {
    slot: usize,
    named: u64,
    values: Vec<i64>,
}

#[derive(Clone, Default)]
struct Letter {
    goes_out: bool,
    arrival: i64,
    message: Message,
}

struct System<'a> {
    plan: &'a Plan,
    done: i64,
    machine: Machine,
    slots: Vec<usize>,
    cells: Vec<Vec<i64>>,
    computed: Vec<Vec<i64>>,
    // By receiver and sender.
    fresh: Vec<Vec<Letter>>,
    late: Vec<Vec<Letter>>,
    commands: Vec<Vec<Option<i64>>>,
}

fn majority<T: PartialEq + Copy>(of: usize, values: impl Iterator<Item = Option<T>> + Clone) -> Option<T> {
    let mut found = None;
    for value in values.clone().flatten() {
        if 2 * values.clone().filter(|other| *other == Some(value)).count() > of {
            found = Some(value);
            break;
        }
    }
    found
}

impl<'a> System<'a> {
    fn new(plan: &'a Plan) -> System<'a> {
        let letter = Letter { message: Message { values: plan.initial_cells.clone(), ..Message::default() }, ..Letter::default() };
        let letters = vec![vec![letter; plan.replicas]; plan.replicas];
        System {
            plan,
            done: 0,
            machine: Machine::default(),
            slots: vec![0; plan.replicas],
            cells: vec![plan.initial_cells.clone(); plan.replicas],
            computed: vec![plan.initial_cells.clone(); plan.replicas],
            fresh: letters.clone(),
            late: letters,
            commands: vec![vec![None; plan.actuators.len()]; plan.replicas],
        }
    }

    fn send(&mut self, input: &Input) {
        let plan = self.plan;
        for (to, row) in self.fresh.iter_mut().enumerate() {
            for (from, letter) in row.iter_mut().enumerate() {
                letter.goes_out = input.goes_out(from, to);
                letter.arrival = input.tick(plan, self.done, from, plan.timing.compute) + input.delay(plan, from, to);
                letter.message.slot = self.slots[from];
                letter.message.named = plan.slots[self.slots[from]].1;
                letter.message.values.copy_from_slice(&self.computed[from]);
                for lie in input.slot_lies.iter().filter(|lie| (lie.0, lie.1) == (from, to)) {
                    letter.message.slot = lie.2;
                }
                for lie in input.lies.iter().filter(|lie| (lie.0, lie.1) == (from, to)) {
                    letter.message.named |= 1 << lie.2;
                    letter.message.values[lie.2] = lie.3;
                }
            }
        }
    }

    fn vote(&mut self, input: &Input, to: usize) {
        let plan = self.plan;
        let begin = input.tick(plan, self.done, to, 0);
        let end = input.tick(plan, self.done, to, plan.timing.compute + plan.timing.broadcast);
        let comes = |letter: &&Letter| letter.goes_out && begin <= letter.arrival && letter.arrival <= end;
        let (fresh_row, late_row) = (&self.fresh[to], &self.late[to]);
        let heard: [Option<&Message>; MOST] = std::array::from_fn(|from| {
            if from >= plan.replicas {
                None
            } else if from == to {
                Some(&fresh_row[to].message)
            } else {
                let (fresh, late) = (&fresh_row[from], &late_row[from]);
                Some(fresh).filter(comes).or(Some(late).filter(comes)).map(|letter| &letter.message)
            }
        });
        let heard = &heard[..plan.replicas];
        let slot = majority(plan.replicas, heard.iter().map(|message| message.map(|message| message.slot)));
        let slot = slot.unwrap_or(self.slots[to]);
        let cells = &mut self.computed[to];
        let mut word = plan.slots[slot].1;
        while word != 0 {
            let cell = word.trailing_zeros() as usize;
            let value = |message: &Message| (message.named >> cell & 1 == 1).then(|| message.values[cell]);
            let values = heard.iter().map(|message| message.and_then(value));
            if let Some(value) = majority(plan.replicas, values) {
                cells[cell] = value;
            }
            word &= word - 1;
        }
        self.slots[to] = (slot + 1) % plan.slots.len();
        self.cells[to].copy_from_slice(cells);
        for (actuator, (_, code)) in plan.actuators.iter().enumerate() {
            self.machine.run(code, &input.sensors, cells);
            self.commands[to][actuator] = Some(self.machine.sets[0].1);
        }
    }

    fn frame(&mut self, input: &Input) {
        let plan = self.plan;
        for replica in 0..plan.replicas {
            self.computed[replica].copy_from_slice(&self.cells[replica]);
            if !input.down[replica] {
                plan.run_slot(&mut self.machine, self.slots[replica], &input.sensors, &mut self.computed[replica]);
            }
        }
        self.send(input);
        for replica in 0..plan.replicas {
            self.commands[replica].fill(None);
            if !input.down[replica] {
                self.vote(input, replica);
            }
        }
        for (replica, actuator, value) in &input.acts {
            self.commands[*replica][*actuator] = Some(*value);
        }
        for (replica, cell, value) in &input.cells {
            self.cells[*replica][*cell] = *value;
        }
        for (replica, slot) in &input.slots {
            self.slots[*replica] = *slot;
        }
        std::mem::swap(&mut self.fresh, &mut self.late);
        self.done += 1;
    }

    fn voted(&self, actuator: usize) -> Option<i64> {
        majority(self.plan.replicas, self.commands.iter().map(|row| row[actuator]))
    }
}

// --- texts

struct Lines {
    line: Vec<u8>,
    out: std::fs::File,
}

impl Lines {
    fn put(&mut self, text: &str) -> &mut Lines {
        self.line.extend_from_slice(text.as_bytes());
        self
    }

    fn number(&mut self, n: i64) -> &mut Lines {
        let (mut digits, mut place, mut left) = ([0u8; 20], 20, n.unsigned_abs());
        loop {
            place -= 1;
            digits[place] = b'0' + (left % 10) as u8;
            left /= 10;
            if left == 0 {
                break;
            }
        }
        if n < 0 {
            self.line.push(b'-');
        }
        self.line.extend_from_slice(&digits[place..]);
        self
    }

    fn end(&mut self) {
        self.line.push(b'\n');
        self.out.write_all(&self.line).unwrap();
        self.line.clear();
    }

    fn state(&mut self, slot: usize, cells: &[i64]) -> &mut Lines {
        self.put("slot ").number(slot as i64).put(" cells");
        for cell in cells {
            self.put(" ").number(*cell);
        }
        self
    }

    fn vote(&mut self, name: &str, value: Option<i64>) {
        self.put("vote ").put(name).put(" ");
        match value {
            Some(value) => self.number(value).end(),
            None => self.put("none").end(),
        }
    }
}

fn yes_or_no(test: bool) -> &'static str {
    if test { "yes" } else { "no" }
}

fn ideal(plan: &Plan, journal: &mut Journal, input: &mut Input, lines: &mut Lines) {
    let (mut machine, mut slot, mut cells) = (Machine::default(), 0, plan.initial_cells.clone());
    for frame in 0..journal.frames {
        journal.fill(frame, input);
        plan.run_slot(&mut machine, slot, &input.sensors, &mut cells);
        slot = (slot + 1) % plan.slots.len();
        lines.put("frame ").number(frame).end();
        for (name, code) in &plan.actuators {
            machine.run(code, &input.sensors, &cells);
            lines.vote(name, Some(machine.sets[0].1));
        }
        lines.put("ideal ").state(slot, &cells).end();
    }
    lines.put("end ").number(journal.frames).end();
}

// For how many frames each replica was healthy, up to one more than the recovery length, and whether the guard holds.
struct Health {
    length: u64,
    streaks: Vec<u64>,
    guard: bool,
}

impl Health {
    fn count(&mut self, plan: &Plan, input: &Input) {
        for (replica, streak) in self.streaks.iter_mut().enumerate() {
            *streak = if input.is_healthy(plan, replica) { (*streak + 1).min(self.length + 1) } else { 0 };
        }
        self.guard &= 2 * self.streaks.iter().filter(|streak| **streak > self.length).count() > plan.replicas;
    }
}

fn replay(plan: &Plan, journal: &mut Journal, input: &mut Input, lines: &mut Lines, is_summary: bool) {
    let length = plan.recovery();
    let mut system = System::new(plan);
    let mut health = Health { length, streaks: vec![length + 1; plan.replicas], guard: true };
    let (mut guarded, mut votes, mut none, mut working, mut digest) = (0, 0, 0, 0, 0u64);
    lines.put("recovery ").number(length as i64).end();
    for frame in 0..journal.frames {
        journal.fill(frame, input);
        system.frame(input);
        health.count(plan, input);
        if is_summary {
            guarded += i64::from(health.guard);
            working += health.streaks.iter().filter(|streak| **streak >= length).count() as i64;
            for actuator in 0..plan.actuators.len() {
                let vote = system.voted(actuator);
                votes += i64::from(vote.is_some());
                none += i64::from(vote.is_none());
                digest = digest.wrapping_mul(31).wrapping_add(vote.unwrap_or(0) as u64);
            }
            continue;
        }
        lines.put("frame ").number(frame).put(" guard ").put(yes_or_no(health.guard)).end();
        for (actuator, (name, _)) in plan.actuators.iter().enumerate() {
            lines.vote(name, system.voted(actuator));
        }
        for replica in 0..plan.replicas {
            let word = if input.down[replica] { " down " } else { " up " };
            lines.put("replica ").number(replica as i64).put(word).state(system.slots[replica], &system.cells[replica]);
            lines.put(" working ").put(yes_or_no(health.streaks[replica] >= length)).end();
        }
    }
    if is_summary {
        lines.put("frames ").number(journal.frames).end();
        for (label, count) in [("guarded ", guarded), ("votes ", votes), ("none ", none), ("working ", working)] {
            lines.put(label).number(count).end();
        }
        lines.put(&format!("digest {digest}")).end();
    } else {
        lines.put("end ").number(journal.frames).end();
    }
}

// Tick, kind, replica, other, frame.
type Event = (i64, u8, usize, usize, i64);

fn events(plan: &Plan, journal: &mut Journal, input: &mut Input, lines: &mut Lines, is_last: bool) {
    let (mut block, mut late): (Vec<Event>, Vec<Event>) = (Vec::new(), Vec::new());
    let timing = &plan.timing;
    for frame in 0..journal.frames {
        journal.fill(frame, input);
        block.clear();
        block.append(&mut late);
        let over = (frame + 1) * timing.frame - timing.skew_limit;
        for replica in (0..plan.replicas).filter(|replica| !input.down[*replica]) {
            let mut after = 0;
            for (kind, own) in [(0, 0), (1, timing.compute), (3, timing.broadcast), (4, timing.vote)] {
                after += own;
                block.push((input.tick(plan, frame, replica, after), kind, replica, 0, frame));
            }
            let sent = input.tick(plan, frame, replica, timing.compute);
            for to in (0..plan.replicas).filter(|to| *to != replica && input.goes_out(replica, *to)) {
                let event = (sent + input.delay(plan, replica, to), 2, to, replica, frame);
                if event.0 < over { block.push(event) } else { late.push(event) }
            }
        }
        let order = |event: &Event| {
            let sign = if is_last { -1 } else { 1 };
            (event.0, event.1, sign * event.2 as i64, sign * event.3 as i64)
        };
        block.sort_unstable_by_key(order);
        lines.put("frame ").number(frame).end();
        for event in &block {
            let word = [" begin ", " send ", " deliver ", " vote ", " sync "][event.1 as usize];
            lines.number(event.0).put(word);
            if event.1 == 2 {
                lines.number(event.3 as i64).put(" to ").number(event.2 as i64).put(" of ").number(event.4).end();
            } else {
                lines.number(event.2 as i64).end();
            }
        }
    }
    lines.put("end ").number(journal.frames).end();
}

fn main() {
    let words: Vec<String> = std::env::args().skip(1).collect();
    if !["ideal", "replay", "events", "summary"].contains(&words[0].as_str()) {
        std::process::exit(2);
    }
    let plan = read_plan(&std::fs::read(&words[1]).unwrap());
    let text = std::fs::read_to_string(&words[2]).unwrap();
    let mut journal = Journal::new(&plan, &text);
    let mut input = Input { sensors: plan.initial_sensors.clone(), is_quiet: true, ..Input::default() };
    // Not through `std::io::stdout`, which writes by lines of its own.
    let out = std::fs::OpenOptions::new().write(true).open("/dev/stdout").unwrap();
    let mut lines = Lines { line: Vec::new(), out };
    match (words[0].as_str(), words.get(3).map(String::as_str)) {
        ("ideal", _) => ideal(&plan, &mut journal, &mut input, &mut lines),
        ("events", last) => events(&plan, &mut journal, &mut input, &mut lines, last == Some("last")),
        (word, _) => replay(&plan, &mut journal, &mut input, &mut lines, word == "summary"),
    }
}
