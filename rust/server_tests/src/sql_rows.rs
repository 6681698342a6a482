//! Rows of a log as in SQL, with their chain values by docs/SHARING.md, without any code of the store.

/// A chain value.
pub type Chain = [u8; 16];

/// A step of a request.
#[derive(Clone, Debug, PartialEq, Eq)]
pub struct SqlStep {
    /// The number of its kind.
    pub kind: u64,
    /// The client, where the kind has one.
    pub client: Option<u64>,
    /// The bytes of its input.
    pub input: Vec<u8>,
}

/// A client's step without an input.
pub fn step(kind: u64, client: u64) -> SqlStep {
    SqlStep { kind, client: Some(client), input: Vec::new() }
}

/// A client's write of a value.
pub fn write(client: u64, value: u64) -> SqlStep {
    SqlStep { kind: 8, client: Some(client), input: value.to_be_bytes().into() }
}

/// A mark that is set.
pub fn mark(name: [u8; 8]) -> SqlStep {
    SqlStep { kind: 11, client: None, input: name.into() }
}

/// A client's word of rights.
pub fn rights(client: u64, word: u64) -> SqlStep {
    SqlStep { kind: 13, client: Some(client), input: word.to_be_bytes().into() }
}

/// The chain value of row 0 of a log with this client count and so many entry words.
pub fn fresh(client_count: u64, entry_words: u64) -> Chain {
    first_16(&[1, client_count, entry_words].map(u64::to_be_bytes).concat())
}

/// The chain value of a row that comes after this one.
pub fn after(before: Chain, request: u64, part: u64, step: &SqlStep) -> Chain {
    let numbers = [request, part, step.kind, step.client.unwrap_or(0)].map(u64::to_be_bytes).concat();
    first_16(&[&before[..], &numbers, &step.input].concat())
}

fn first_16(bytes: &[u8]) -> Chain {
    *digest::sha256(bytes).first_chunk().expect("16 of 32 bytes")
}

/// Bytes as SQL has them.
pub fn bytes(bytes: &[u8]) -> String {
    let digits: String = bytes.iter().map(|byte| format!("{byte:02x}")).collect();
    format!("'\\x{digits}'::bytea")
}

/// An array as SQL has it.
pub fn array(of: &str, items: impl IntoIterator<Item = String>) -> String {
    format!("ARRAY[{}]::{of}[]", items.into_iter().collect::<Vec<_>>().join(", "))
}

/// A number, or null.
pub fn number(number: Option<u64>) -> String {
    number.map_or("NULL".into(), |number| (number as i64).to_string())
}

/// The statement that appends a request to a log.
pub fn append(log: u64, (known, chain): (u64, Chain), request: u64, steps: &[SqlStep]) -> String {
    let kinds = array("smallint", steps.iter().map(|step| step.kind.to_string()));
    let clients = array("bigint", steps.iter().map(|step| number(step.client)));
    let inputs = array("bytea", steps.iter().map(|step| bytes(&step.input)));
    let (chain, request) = (bytes(&chain), request as i64);
    format!("SELECT cindrolf.append({log}, {known}, {chain}, {request}, {kinds}, {clients}, {inputs}, 'a test', NULL)")
}

/// The columns that a controller reads of each row, in their order.
pub const READ: &str =
    "seq, request, part, kind, coalesce(client::text, '-'), encode(input, 'hex'), encode(chain, 'hex')";

/// What these requests come to, one after the other in a log that had no row: the line of each row as psql prints it.
pub fn lines(mut chain: Chain, requests: &[(u64, Vec<SqlStep>)]) -> Vec<String> {
    let steps = requests.iter().flat_map(|(id, steps)| (0..).zip(steps).map(|(part, step)| (*id, part, step)));
    let hex = |bytes: &[u8]| bytes.iter().map(|byte| format!("{byte:02x}")).collect::<String>();
    let line = |(seq, (id, part, step)): (u64, (u64, u64, &SqlStep))| {
        chain = after(chain, id, part, step);
        let client = step.client.map_or("-".into(), |client| (client as i64).to_string());
        let (id, kind) = (id as i64, step.kind);
        format!("{seq}|{id}|{part}|{kind}|{client}|{}|{}", hex(&step.input), hex(&chain))
    };
    (1..).zip(steps).map(line).collect()
}
