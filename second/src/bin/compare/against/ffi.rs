//! The C interface of the first implementation, as `pim.h` declares it.
//! A truth value is an octet here, so that one other than 0 and 1 is seen.

/// Each record with its octets.
macro_rules! records {
    ($($name:ident: $octets:literal { $($field:ident: $form:ty,)* })*) => {$(
        #[repr(C)]
        #[derive(Clone, Copy, Debug, Default, PartialEq, Eq)]
        pub struct $name {
            $(pub $field: $form,)*
        }

        const _: () = assert!(size_of::<$name>() == $octets);
    )*};
}

records! {
    Address: 16 {
        high: u64,
        low: u64,
    }

    Path: 32 {
        source: Address,
        destination: Address,
    }

    Refusal: 16 {
        number: u8,
        place: usize,
    }

    LengthAnswer: 24 {
        refusal: Refusal,
        length: usize,
    }

    HeaderAnswer: 24 {
        refusal: Refusal,
        kind: u8,
    }

    RecordAnswer: 72 {
        refusal: Refusal,
        next: usize,
        group: Address,
        source: Address,
        r_preference: u32,
        metric: u32,
        is_pair: u8,
    }

    ReadAnswer: 32 {
        refusal: Refusal,
        count: usize,
        kind: u8,
    }

    Hello: 12 {
        holdtime: u16,
        has_priority: u8,
        priority: u32,
        packing: u8,
    }

    HelloAnswer: 32 {
        refusal: Refusal,
        hello: Hello,
    }

    PackAnswer: 32 {
        refusal: Refusal,
        length: usize,
        taken: usize,
    }

    ChoiceAnswer: 40 {
        refusal: Refusal,
        length: usize,
        taken: usize,
        aggregated: u8,
    }

    Neighbour: 24 {
        address: Address,
        priority: u32,
        has_priority: u8,
        packs: u8,
        holdtime: u16,
    }

    Table: 1544 {
        rows: Rows,
        count: usize,
    }

    TableAnswer: 1568 {
        refusal: Refusal,
        table: Table,
        done: u8,
    }

    AllowedAnswer: 24 {
        refusal: Refusal,
        allowed: u8,
    }

    ElectAnswer: 32 {
        refusal: Refusal,
        address: Address,
    }

    Totals: 16 {
        messages: u64,
        records: u64,
    }

    ByKind: 96 {
        hello: Totals,
        assert: Totals,
        simple: Totals,
        aggregated: Totals,
        null_register: Totals,
        register_stop: Totals,
    }

    Counters: 192 {
        sent: ByKind,
        received: ByKind,
    }

    Tally: 216 {
        accepted: ByKind,
        refused: [u64; 15],
    }

    TallyAnswer: 224 {
        tally: Tally,
        used: usize,
    }

    Fraction: 16 {
        numerator: u64,
        denominator: u64,
    }

    ReportAnswer: 240 {
        tally: Tally,
        mean: Fraction,
        whole: u8,
    }

    PopcountValues: 16 {
        transit: u32,
        stub: u32,
        minimum_speed: u16,
        maximum_speed: u16,
        domain: u8,
        node: u8,
        diameter: u8,
        time_zone: u8,
    }

    PopcountAttribute: 24 {
        e: u8,
        mtu: u16,
        flags: u16,
        options: u16,
        values: PopcountValues,
    }

    PopcountReadAnswer: 48 {
        refusal: Refusal,
        next: usize,
        attribute: PopcountAttribute,
    }

    PopcountOwn: 16 {
        mtu: u16,
        flags: u16,
        transit: u32,
        stub: u32,
        minimum_speed: u16,
        maximum_speed: u16,
    }

    SheetCounts: 24 {
        asserts: usize,
        pairs: usize,
        neighbours: usize,
    }

    CheckAnswer: 40 {
        refusal: Refusal,
        counts: SheetCounts,
    }

    SheetAnswer: 1584 {
        refusal: Refusal,
        counts: SheetCounts,
        table: Table,
    }
}

/// The rows of a table, more than an array has a default for.
#[repr(transparent)]
#[derive(Clone, Copy, Debug, PartialEq, Eq)]
pub struct Rows(pub [Neighbour; 64]);

impl Default for Rows {
    fn default() -> Rows {
        Rows([Neighbour::default(); 64])
    }
}

/// A packing call.
pub type Pack = unsafe extern "C" fn(u8, Path, *const u8, usize, usize, usize, *mut u8, usize) -> PackAnswer;

#[link(name = "pim", kind = "static")]
extern "C" {
    pub fn pim_header(family: u8, path: Path, m: *const u8, n: usize) -> HeaderAnswer;
    pub fn pim_body(family: u8, path: Path, m: *const u8, n: usize) -> usize;
    pub fn pim_read_record(family: u8, kind: u8, o: *const u8, n: usize, at: usize) -> RecordAnswer;
    pub fn pim_read_asserts(
        family: u8,
        path: Path,
        m: *const u8,
        n: usize,
        entries: *mut u8,
        room: usize,
    ) -> ReadAnswer;
    pub fn pim_read_pairs(
        family: u8,
        path: Path,
        m: *const u8,
        n: usize,
        entries: *mut u8,
        room: usize,
    ) -> ReadAnswer;
    pub fn pim_read_hello(family: u8, path: Path, m: *const u8, n: usize) -> HelloAnswer;

    pub fn pim_write_hello(family: u8, path: Path, said: Hello, buffer: *mut u8, room: usize)
        -> LengthAnswer;
    pub fn pim_pack_assert(
        family: u8,
        path: Path,
        entries: *const u8,
        size: usize,
        start: usize,
        limit: usize,
        buffer: *mut u8,
        room: usize,
    ) -> PackAnswer;
    pub fn pim_pack_simple(
        family: u8,
        path: Path,
        entries: *const u8,
        size: usize,
        start: usize,
        limit: usize,
        buffer: *mut u8,
        room: usize,
    ) -> PackAnswer;
    pub fn pim_pack_aggregated(
        family: u8,
        path: Path,
        entries: *const u8,
        size: usize,
        start: usize,
        limit: usize,
        buffer: *mut u8,
        room: usize,
    ) -> PackAnswer;
    pub fn pim_pack_null_register(
        family: u8,
        path: Path,
        entries: *const u8,
        size: usize,
        start: usize,
        limit: usize,
        buffer: *mut u8,
        room: usize,
    ) -> PackAnswer;
    pub fn pim_pack_register_stop(
        family: u8,
        path: Path,
        entries: *const u8,
        size: usize,
        start: usize,
        limit: usize,
        buffer: *mut u8,
        room: usize,
    ) -> PackAnswer;
    pub fn pim_pack_both(
        family: u8,
        path: Path,
        entries: *const u8,
        size: usize,
        start: usize,
        limit: usize,
        simple: *mut u8,
        simple_room: usize,
        aggregated: *mut u8,
        aggregated_room: usize,
    ) -> ChoiceAnswer;

    pub fn pim_table_empty() -> Table;
    pub fn pim_hear(family: u8, table: Table, address: Address, said: Hello) -> TableAnswer;
    pub fn pim_forget(family: u8, table: Table, address: Address) -> TableAnswer;
    pub fn pim_packing_allowed(family: u8, table: Table) -> AllowedAnswer;
    pub fn pim_elect(family: u8, table: Table, address: Address, priority: u32) -> ElectAnswer;
    pub fn pim_elect_among(rows: *const Neighbour, count: usize) -> ElectAnswer;

    pub fn pim_counters_none() -> Counters;
    pub fn pim_count(counters: *mut Counters, received: bool, kind: u8, records: u64) -> Refusal;

    pub fn pim_tally_none() -> Tally;
    pub fn pim_tally_message(tally: Tally, m: *const u8, n: usize) -> Tally;
    pub fn pim_tally_octets(tally: Tally, o: *const u8, n: usize) -> TallyAnswer;
    pub fn pim_tally_mean(tally: Tally) -> Fraction;
    pub fn pim_report(file: *const u8, n: usize) -> ReportAnswer;

    pub fn pim_popcount_read(o: *const u8, n: usize, at: usize) -> PopcountReadAnswer;
    pub fn pim_popcount_compare_speeds(a: u16, b: u16) -> u8;
    pub fn pim_popcount_merge(
        own: PopcountOwn,
        e: bool,
        contributors: *const u8,
        n: usize,
        buffer: *mut u8,
        room: usize,
    ) -> LengthAnswer;

    pub fn pim_check_sheet(family: u8, o: *const u8, n: usize) -> CheckAnswer;
    pub fn pim_read_sheet(
        family: u8,
        o: *const u8,
        n: usize,
        asserts: *mut u8,
        assert_room: usize,
        pairs: *mut u8,
        pair_room: usize,
    ) -> SheetAnswer;
    pub fn pim_write_sheet(
        family: u8,
        asserts: *const u8,
        assert_size: usize,
        pairs: *const u8,
        pair_size: usize,
        table: Table,
        buffer: *mut u8,
        room: usize,
    ) -> LengthAnswer;

    pub fn pim_checksum(m: *const u8, n: usize) -> u16;
    pub fn pim_checksum_holds(m: *const u8, n: usize) -> u8;
    pub fn pim_checksum_ipv6(path: Path, m: *const u8, n: usize) -> u16;
    pub fn pim_checksum_ipv6_holds(path: Path, m: *const u8, n: usize) -> u8;
}
