//! The field tables of document 002, for the record kinds that the loader covers.
use super::forms::Form::{self, *};

pub struct Column {
    pub name: &'static str,
    pub form: Form,
    pub may_be_empty: bool,
}

/// A field that must be filled. XREF_KEY and LPI_KEY are among them, though 002 calls them conditional.
const fn man(name: &'static str, form: Form) -> Column {
    Column { name, form, may_be_empty: false }
}

/// A conditional or optional field.
const fn opt(name: &'static str, form: Form) -> Column {
    Column { name, form, may_be_empty: true }
}

const ID: Column = man("RECORD_IDENTIFIER", Identifier);
const CHANGE: Column = man("CHANGE_TYPE", Letter(b"IUD"));
const ORDER: Column = man("PRO_ORDER", Number(16));
const USRN: Column = man("USRN", Positive(8));
const UPRN: Column = man("UPRN", Positive(12));
const CUSTODIAN: Column = man("CUSTODIAN_CODE", Number(4));
const ENTRY: Column = man("ENTRY_DATE", Date);
const UPDATED: Column = man("LAST_UPDATE_DATE", Date);
const START: Column = man("START_DATE", Date);
const END: Column = opt("END_DATE", Date);
const STAMP: Column = man("TIME_STAMP", Time);
const LANGUAGE: Column = man("LANGUAGE", Text(3));

const HEADER: &[Column] = &[
    ID, man("CUSTODIAN_NAME", Text(40)), CUSTODIAN, man("PROCESS_DATE", Date), man("VOLUME_NUMBER", Number(2)), ENTRY, STAMP,
    man("DTF_VERSION", Decimal(2, 1)), man("FILE_TYPE", Letter(b"ABCDEFGH")),
];
const STREET: &[Column] = &[
    ID, CHANGE, ORDER, USRN, man("RECORD_TYPE", Number(1)), CUSTODIAN, opt("STATE", Number(1)), opt("STATE_DATE", Date),
    opt("STREET_CLASSIFICATION", Number(1)), ENTRY, UPDATED, START, END, man("START_X", Decimal(7, 2)),
    man("START_Y", Decimal(7, 2)), man("END_X", Decimal(7, 2)), man("END_Y", Decimal(7, 2)),
];
const STREET_XREF: &[Column] = &[
    ID, CHANGE, ORDER, USRN, man("XREF_TYPE", Digit(b"12")), man("XREF_ID", Number(14)), ENTRY, START, END, UPDATED,
];
const BLPU: &[Column] = &[
    ID, CHANGE, ORDER, UPRN, man("LOGICAL_STATUS", Number(1)), opt("BLPU_STATE", Number(1)), opt("BLPU_STATE_DATE", Date),
    opt("PARENT_UPRN", Positive(12)), man("X_COORDINATE", Decimal(7, 2)), man("Y_COORDINATE", Decimal(7, 2)),
    man("RPC", Number(1)), CUSTODIAN, START, END, UPDATED, ENTRY,
];
const APPLICATION_XREF: &[Column] = &[
    ID, CHANGE, ORDER, UPRN, man("XREF_KEY", Key(b'X')), START, UPDATED, ENTRY, END, man("CROSS_REFERENCE", Text(20)),
    man("SOURCE", Text(6)),
];
const LPI: &[Column] = &[
    ID, CHANGE, ORDER, UPRN, man("LPI_KEY", Key(b'L')), LANGUAGE, man("LOGICAL_STATUS", Number(1)), START, END, ENTRY, UPDATED,
    opt("SAO_START_NUMBER", Number(4)), opt("SAO_START_SUFFIX", Text(1)), opt("SAO_END_NUMBER", Number(4)),
    opt("SAO_END_SUFFIX", Text(1)), opt("SAO_TEXT", Text(90)), opt("PAO_START_NUMBER", Number(4)),
    opt("PAO_START_SUFFIX", Text(1)), opt("PAO_END_NUMBER", Number(4)), opt("PAO_END_SUFFIX", Text(1)),
    opt("PAO_TEXT", Text(90)), USRN, opt("SUB_LOCALITY", Text(35)), opt("LEVEL", Decimal(2, 1)),
    man("POSTALLY_ADDRESSABLE", Text(1)), opt("POSTCODE", Text(8)), opt("POST_TOWN", Text(30)), opt("OFFICIAL_FLAG", Text(1)),
];
const METADATA: &[Column] = &[
    ID, man("GAZ_NAME", Text(60)), man("GAZ_SCOPE", Text(60)), man("TER_OF_USE", Text(60)), man("GAZ_OWNER", Text(60)),
    man("CUSTODIAN_NAME", Text(40)), CUSTODIAN, man("CO_ORD_SYSTEM", Text(40)), man("CO_ORD_UNIT", Text(10)),
    man("META_DATE", Date), man("CLASS_SCHEME", Text(60)), man("STATE_CODE_SCHEME", Text(40)), man("GAZ_DATE", Date), LANGUAGE,
    man("CHARACTER_SET", Text(30)),
];
const TRAILER: &[Column] = &[ID, man("NEXT_VOLUME_NUMBER", Number(2)), man("RECORD_COUNT", Number(12)), ENTRY, STAMP];

pub const KINDS: [u64; 8] = [10, 11, 12, 21, 23, 24, 29, 99];
pub const HELD_KINDS: [u64; 5] = [11, 12, 21, 23, 24];

pub fn columns(kind: u64) -> &'static [Column] {
    match kind {
        10 => HEADER,
        11 => STREET,
        12 => STREET_XREF,
        21 => BLPU,
        23 => APPLICATION_XREF,
        24 => LPI,
        29 => METADATA,
        99 => TRAILER,
        _ => panic!("no kind {kind}"),
    }
}

pub fn kind_of(identifier: &[u8]) -> Option<u64> {
    let all: [&[u8]; 8] = [b"10", b"11", b"12", b"21", b"23", b"24", b"29", b"99"];
    all.iter().position(|known| *known == identifier).map(|at| KINDS[at])
}

/// Where a field stands among those of its kind, from 0.
pub fn position(kind: u64, name: &str) -> Option<usize> {
    columns(kind).iter().position(|column| column.name == name)
}
