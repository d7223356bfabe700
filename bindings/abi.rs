//! The calls of the static library `yard_abi`: blocks, runs, pairs, routes, totals, each a pointer and a length, then the
//! arguments; a quote has its own lists last, and that of a run is lent blocks and runs alone; a call in a contractor's name
//! is lent holders, shares and ceilings after the tables.

#[link(name = "yard_abi", kind = "static")]
extern "C" {
    pub fn yard_start(
        b: *mut u16, bl: usize, r: *mut u16, rl: usize, p: *mut u8, pl: usize, w: *mut u32, wl: usize, t: *mut u32, tl: usize,
    ) -> u32;
    pub fn yard_add_block(
        b: *mut u16, bl: usize, r: *const u16, rl: usize, p: *mut u8, pl: usize, w: *mut u32, wl: usize, t: *mut u32, tl: usize,
        number: u32, corners: *const u16, corners_len: usize,
    ) -> u32;
    pub fn yard_remove_block(
        b: *mut u16, bl: usize, r: *const u16, rl: usize, p: *mut u8, pl: usize, w: *mut u32, wl: usize, t: *mut u32, tl: usize,
        number: u32,
    ) -> u32;
    pub fn yard_move_block(
        b: *mut u16, bl: usize, r: *const u16, rl: usize, p: *mut u8, pl: usize, w: *mut u32, wl: usize, t: *mut u32, tl: usize,
        number: u32, east: i16, north: i16,
    ) -> u32;
    pub fn yard_add_run(
        b: *const u16, bl: usize, r: *mut u16, rl: usize, p: *mut u8, pl: usize, w: *mut u32, wl: usize, t: *mut u32, tl: usize,
        number: u32, e0: u16, n0: u16, e1: u16, n1: u16,
    ) -> u32;
    pub fn yard_remove_run(
        b: *const u16, bl: usize, r: *mut u16, rl: usize, p: *mut u8, pl: usize, w: *mut u32, wl: usize, t: *mut u32, tl: usize,
        number: u32,
    ) -> u32;
    pub fn yard_move_run(
        b: *const u16, bl: usize, r: *mut u16, rl: usize, p: *mut u8, pl: usize, w: *mut u32, wl: usize, t: *mut u32, tl: usize,
        number: u32, e0: u16, n0: u16, e1: u16, n1: u16,
    ) -> u32;
    pub fn yard_set_charge(
        b: *const u16, bl: usize, r: *mut u16, rl: usize, p: *const u8, pl: usize, w: *mut u32, wl: usize, t: *mut u32, tl: usize,
        figure: u16,
    ) -> u32;
    pub fn yard_add_run_for(
        b: *const u16, bl: usize, r: *mut u16, rl: usize, p: *mut u8, pl: usize, w: *mut u32, wl: usize, t: *mut u32, tl: usize,
        holders: *mut u8, holders_len: usize, shares: *const u8, shares_len: usize, ceilings: *const u8, ceilings_len: usize,
        contractor: u32, number: u32, e0: u16, n0: u16, e1: u16, n1: u16,
    ) -> u32;
    pub fn yard_remove_run_for(
        b: *const u16, bl: usize, r: *mut u16, rl: usize, p: *mut u8, pl: usize, w: *mut u32, wl: usize, t: *mut u32, tl: usize,
        holders: *mut u8, holders_len: usize, shares: *const u8, shares_len: usize, ceilings: *const u8, ceilings_len: usize,
        contractor: u32, number: u32,
    ) -> u32;
    pub fn yard_move_run_for(
        b: *const u16, bl: usize, r: *mut u16, rl: usize, p: *mut u8, pl: usize, w: *mut u32, wl: usize, t: *mut u32, tl: usize,
        holders: *const u8, holders_len: usize, shares: *const u8, shares_len: usize, ceilings: *const u8, ceilings_len: usize,
        contractor: u32, number: u32, e0: u16, n0: u16, e1: u16, n1: u16,
    ) -> u32;
    pub fn yard_check(
        b: *const u16, bl: usize, r: *const u16, rl: usize, p: *const u8, pl: usize, w: *const u32, wl: usize,
        t: *const u32, tl: usize,
    ) -> u32;
    pub fn yard_piece(
        b: *const u16, bl: usize, r: *const u16, rl: usize, p: *const u8, pl: usize, w: *const u32, wl: usize,
        t: *const u32, tl: usize,
        run: u32, piece: u32, kind: *mut u32, kind_len: usize, points: *mut f64, points_len: usize,
    ) -> u32;
    pub fn yard_bend(
        b: *const u16, bl: usize, r: *const u16, rl: usize, p: *const u8, pl: usize, w: *const u32, wl: usize,
        t: *const u32, tl: usize,
        run: u32, piece: u32, kind: *mut u32, kind_len: usize, points: *mut f64, points_len: usize,
    ) -> u32;
    pub fn yard_quote_route(
        b: *const u16, bl: usize, r: *const u16, rl: usize, run: u32, route: *mut u32, route_len: usize,
    ) -> u32;
    pub fn yard_quote_move(
        b: *const u16, bl: usize, r: *const u16, rl: usize, p: *const u8, pl: usize, w: *const u32, wl: usize,
        t: *const u32, tl: usize,
        number: u32, east: i16, north: i16, quote: *mut u32, quote_len: usize,
    ) -> u32;
    pub fn yard_quote_duct(
        b: *const u16, bl: usize, r: *const u16, rl: usize, run: u32,
        quote: *mut u32, quote_len: usize, crossings: *mut u16, crossings_len: usize,
    ) -> u32;
    pub fn yard_replay(
        b: *mut u16, bl: usize, r: *mut u16, rl: usize, p: *mut u8, pl: usize, w: *mut u32, wl: usize, t: *mut u32, tl: usize,
        file: *const u8, file_len: usize, answers: *mut u32, answers_len: usize, end: *mut u64, end_len: usize,
    ) -> u32;
    pub fn yard_read(file: *const u8, file_len: usize, at: usize, item: *mut u64, item_len: usize) -> u32;
    pub fn yard_file_shorten(
        file: *const u8, file_len: usize, buffer: *mut u8, buffer_len: usize, length: *mut u32, length_len: usize,
    ) -> u32;
    pub fn yard_file_lengthen(
        file: *const u8, file_len: usize, buffer: *mut u8, buffer_len: usize, length: *mut u32, length_len: usize,
    ) -> u32;
}
