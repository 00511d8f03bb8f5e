//! A Rust host that links `liblinecard.a`, owns the card's memory, and answers the scripts of `tests/bench` as docs/BENCH.md says, through the exported functions alone.
//!
//! Usage: host SCRIPT ANSWERS [SCRIPT ANSWERS ..], where ANSWERS is what the program `bench` printed for SCRIPT. Each answer is held against the library's,
//! line for line; the master's commands, which the library has not, are passed over. Exit status 0 where all agree.
//!
//! `main` is C's: Rust's own start-up reads /proc/self/maps, on which some emulators fail.
#![no_main]

/// The words of a plant, by name: rows 301 to 322 are the first 22; the paper's MODE and the others follow at their lines, and behind the rows what is no row.
const SETTINGS: usize = 22;
const MODE: usize = 22;
const SCMD: usize = 23;
const FRQ_ACT: usize = 27;
const I_RMS: usize = 28;
const OP_TIME: usize = 29;
const DRIVE_STATUS: usize = 30;
const DIN1: usize = 31;
const CAUSES: usize = 32;
const FLAGS: usize = 33;
const STATION: usize = 34;

/// The numbers of a port.
const PROTOCOL: usize = 0;
const SUM: usize = 1;
const SIOERR: usize = 2;

/// The least reply buffer, by the protocol's number: NFO serial, Modbus RTU, Modbus ASCII. No reply is longer.
const LEAST: [usize; 3] = [19, 256, 513];

/// Who a card is: revision 17 bytes, model 8, serial number 16. What a `start` that names none gives is spaces.
type Identity = [u8; 41];
const SPACES: Identity = [b' '; 41];

/// A card: its parts lie where the host puts them.
struct Card {
    held: [u8; 512],
    len: usize,
    port: [u32; 3],
    plant: [u32; 35],
    identity: Identity,
}

extern "C" {
    fn card_start_in(held: &mut [u8; 512], len: &mut usize, port: &mut [u32; 3], plant: &mut [u32; 35], identity: &mut Identity, protocol: u32, given: &Identity);
    fn card_restart_in(len: &mut usize, port: &mut [u32; 3], plant: &mut [u32; 35]);
    fn card_raise_fault_in(plant: &mut [u32; 35], n: u32) -> u32;
    fn card_end_cause_in(plant: &mut [u32; 35], n: u32) -> u32;
    fn card_din1_in(plant: &mut [u32; 35], active: u32) -> u32;
    fn card_frq_act_in(plant: &mut [u32; 35], word: u32) -> u32;
    fn card_i_rms_in(plant: &mut [u32; 35], word: u32) -> u32;
    fn card_op_time_in(plant: &mut [u32; 35], word: u32) -> u32;
    fn card_parity_fault_in(port: &mut [u32; 3], plant: &mut [u32; 35]) -> u32;
    fn card_tick_in(port: &mut [u32; 3], plant: &mut [u32; 35], tenths: u32) -> u32;
    fn card_receive_in(held: &mut [u8; 512], len: &mut usize, port: &mut [u32; 3], plant: &mut [u32; 35], identity: &Identity, bytes: *const u8, n_bytes: usize, reply: *mut u8, n_reply: usize, told: &mut [usize; 2]) -> u32;
    fn card_receive_nfo_in(held: &mut [u8; 512], len: &mut usize, port: &mut [u32; 3], plant: &mut [u32; 35], bytes: *const u8, n_bytes: usize, reply: *mut u8, n_reply: usize, told: &mut [usize; 2]) -> u32;
    fn card_receive_rtu_in(held: &mut [u8; 512], len: &mut usize, port: &mut [u32; 3], plant: &mut [u32; 35], identity: &Identity, bytes: *const u8, n_bytes: usize, reply: *mut u8, n_reply: usize, told: &mut [usize; 2]) -> u32;
    fn card_receive_ascii_in(held: &mut [u8; 512], len: &mut usize, port: &mut [u32; 3], plant: &mut [u32; 35], identity: &Identity, bytes: *const u8, n_bytes: usize, reply: *mut u8, n_reply: usize, told: &mut [usize; 2]) -> u32;
    fn card_register_data(frame: *const u8, n_frame: usize, place: &mut [usize; 2]);
}

/// The card in the host's memory, who it was started as, how many calls were made on it, and on which protocols.
struct Host {
    card: Card,
    given: Identity,
    calls: usize,
    protocols: [usize; 3],
}

/// Memory that holds 5Ah throughout, with a fresh card put over it: what was there before does not count.
fn fresh(protocol: u32, given: &Identity) -> Card {
    let mut card = Card { held: [0x5A; 512], len: 0x5A5A, port: [0x5A5A5A5A; 3], plant: [0x5A5A5A5A; 35], identity: [0x5A; 41] };
    unsafe { card_start_in(&mut card.held, &mut card.len, &mut card.port, &mut card.plant, &mut card.identity, protocol, given) };
    card
}

fn unhex(text: &str) -> Vec<u8> {
    let pair = |at: usize| u8::from_str_radix(&text[at..at + 2], 16).expect("hex");
    if text == "-" { Vec::new() } else { (0..text.len()).step_by(2).map(pair).collect() }
}

/// The 41 bytes of an identity, or none where it is not in capital hex or not so many.
fn identity_of(text: &str) -> Option<Identity> {
    let capital = |b: u8| matches!(b, b'0'..=b'9' | b'A'..=b'F');
    if text.len() == 2 * 41 && text.bytes().all(capital) { unhex(text).try_into().ok() } else { None }
}

fn hex(bytes: &[u8]) -> String {
    if bytes.is_empty() { "-".into() } else { bytes.iter().map(|b| format!("{:02X}", b)).collect() }
}

impl Host {
    /// One receive call: outcome, bytes used, length of the reply. Every other call goes by the function of the port's own protocol.
    fn receive(&mut self, bytes: &[u8], reply: &mut [u8]) -> (u32, usize, usize) {
        let mut told = [usize::MAX; 2];
        let c = &mut self.card;
        let protocol = c.port[PROTOCOL] as usize;
        let (from, n, to, room) = (bytes.as_ptr(), bytes.len(), reply.as_mut_ptr(), reply.len());
        let outcome = unsafe {
            if self.calls % 2 == 1 && protocol == 0 {
                // no message of NFO serial asks who the card is
                card_receive_nfo_in(&mut c.held, &mut c.len, &mut c.port, &mut c.plant, from, n, to, room, &mut told)
            } else {
                let call = [card_receive_in, card_receive_rtu_in, card_receive_ascii_in][self.calls % 2 * protocol];
                call(&mut c.held, &mut c.len, &mut c.port, &mut c.plant, &c.identity, from, n, to, room, &mut told)
            }
        };
        assert!(told[1] <= LEAST[protocol], "no reply is longer than the least reply buffer");
        assert!(outcome != 10 || room < LEAST[protocol], "10 is a buffer under the least");
        assert!(c.identity == self.given, "no message changes the identity");
        self.calls += 1;
        self.protocols[protocol] += 1;
        (outcome, told[0], told[1])
    }

    /// `bytes HEX`: the unused rest is handed again, until no byte is left.
    fn bytes(&mut self, scrap: &[u8]) -> Vec<String> {
        let (mut lines, mut at) = (Vec::new(), 0);
        loop {
            let mut reply = [0xA5; 600];
            let (outcome, used, len) = self.receive(&scrap[at..], &mut reply);
            if outcome != 15 {
                lines.push(format!("{} {}", outcome, hex(&reply[..len])));
            }
            at += used;
            if at >= scrap.len() {
                return lines;
            }
        }
    }

    fn call(&mut self, size: usize, bytes: &[u8]) -> String {
        let mut reply = vec![0xA5; size];
        let (outcome, used, len) = self.receive(bytes, &mut reply);
        format!("{} {} {} {}", outcome, used, len, hex(&reply))
    }

    fn register_data(&mut self, frame: &[u8]) -> String {
        let mut place = [usize::MAX; 2];
        unsafe { card_register_data(frame.as_ptr(), frame.len(), &mut place) };
        self.calls += 1;
        match place {
            [0, 0] => "-".into(),
            [from, len] => format!("{} {}", from, hex(&frame[from..from + len])),
        }
    }

    /// `start P`, by the protocol's word, or none where it is no protocol's.
    fn start(&mut self, protocol: &str, given: Identity) -> Option<String> {
        let number = ["nfo", "rtu", "ascii"].iter().position(|p| *p == protocol)?;
        self.card = fresh(number as u32, &given);
        self.given = given;
        self.calls += 1;
        Some("0".into())
    }

    /// The state line, out of the host's own memory.
    fn state(&self) -> String {
        let (port, plant) = (&self.card.port, &self.card.plant);
        let row = |k: usize, word: u32| if k == 19 || k == 20 { word as i32 as i64 } else { word as i16 as i64 };
        let mut columns = vec![port[PROTOCOL] as i64];
        columns.extend(plant[..SETTINGS].iter().enumerate().map(|(k, w)| row(k, *w)));
        columns.extend([plant[MODE], plant[SCMD], port[SIOERR]].map(i64::from));
        columns.extend([plant[FRQ_ACT] as i16 as i64, plant[I_RMS] as i32 as i64]);
        columns.extend([plant[OP_TIME], plant[DIN1], plant[CAUSES], plant[FLAGS], port[SUM], plant[STATION]].map(i64::from));
        let numbers: Vec<String> = columns.iter().map(i64::to_string).collect();
        format!("{} {} {}", numbers.join(" "), hex(&self.card.held[..self.card.len]), plant[DRIVE_STATUS])
    }

    fn event(&mut self, what: &str, word: u32) -> u32 {
        self.calls += 1;
        let (port, plant) = (&mut self.card.port, &mut self.card.plant);
        unsafe {
            match what {
                "tick" => card_tick_in(port, plant, word),
                "raise" => card_raise_fault_in(plant, word),
                "end" => card_end_cause_in(plant, word),
                "din1" => card_din1_in(plant, word),
                "frq" => card_frq_act_in(plant, word),
                "irms" => card_i_rms_in(plant, word),
                "optime" => card_op_time_in(plant, word),
                _ => card_parity_fault_in(port, plant),
            }
        }
    }

    /// The library's answers to a command, or none where it is the master's or no command.
    fn answers(&mut self, line: &str) -> Option<Vec<String>> {
        let words: Vec<&str> = line.split(' ').collect();
        let answer = match words[..] {
            ["start", p] => self.start(p, SPACES)?,
            ["start", p, "identity", who] => self.start(p, identity_of(who)?)?,
            ["restart"] => {
                let c = &mut self.card;
                unsafe { card_restart_in(&mut c.len, &mut c.port, &mut c.plant) };
                self.calls += 1;
                "0".into()
            }
            ["state"] => self.state(),
            ["bytes", scrap] => return Some(self.bytes(&unhex(scrap))),
            ["call", size, bytes] => self.call(size.parse().expect("size"), &unhex(bytes)),
            ["regdata", frame] => self.register_data(&unhex(frame)),
            ["parity"] => self.event("parity", 0).to_string(),
            ["tick" | "raise" | "end" | "din1" | "frq" | "irms" | "optime", n] => self.event(words[0], n.parse::<i64>().expect("number") as u32).to_string(),
            _ => return None,
        };
        Some(vec![answer])
    }
}

/// How many answers to a script agree, or the first that does not.
fn agree(host: &mut Host, script: &str, answers: &str) -> Result<usize, String> {
    let mut told = answers.lines();
    let mut agreed = 0;
    for (number, line) in script.lines().enumerate().filter(|(_, line)| !line.is_empty()) {
        let ours = match host.answers(line) {
            Some(ours) => ours,
            None => {
                told.next();
                continue;
            }
        };
        for answer in ours {
            let other = told.next().unwrap_or("nothing");
            if answer != other {
                return Err(format!("line {} ({}): the library says {}, bench {}", number + 1, line, answer, other));
            }
            agreed += 1;
        }
    }
    told.next().map_or(Ok(agreed), |more| Err(format!("bench says more: {}", more)))
}

#[no_mangle]
pub extern "C" fn main(_count: i32, _words: *const *const u8) -> i32 {
    let files: Vec<String> = std::env::args().skip(1).collect();
    let read = |path: &str| std::fs::read_to_string(path).expect(path);
    let mut host = Host { card: fresh(0, &SPACES), given: SPACES, calls: 0, protocols: [0; 3] };
    let mut agreed = 0;
    for pair in files.chunks(2) {
        host.start("nfo", SPACES).expect("nfo");
        match agree(&mut host, &read(&pair[0]), &read(&pair[1])) {
            Ok(n) => agreed += n,
            Err(difference) => {
                println!("firmware: {}: {}", pair[0], difference);
                return 1;
            }
        }
    }
    let [nfo, rtu, ascii] = host.protocols;
    println!("firmware: Rust: {} answers of {} scripts agree with bench: {} calls, of which receive: NFO {}, RTU {}, ASCII {}", agreed, files.len() / 2, host.calls, nfo, rtu, ascii);
    if agreed < 900 || nfo == 0 || rtu == 0 || ascii == 0 {
        println!("firmware: too little was compared");
        return 1;
    }
    0
}
