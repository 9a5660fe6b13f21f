//! The port, as libczsc_c.a has it: a slice goes over as its address and its length.
use crate::series::Fed;

/// How many bars each store takes: the most there may be.
pub const ROOM: usize = 65536;

/// The decimal places that the Rust rounds to.
const POWER: usize = 2;
const RATIO: usize = 4;

#[link(name = "czsc_c", kind = "static")]
unsafe extern "C" {
    fn czsc_fresh(
        minimum: usize,
        most: usize,
        power: usize,
        ratio: usize,
        numbers: *mut [usize; 10],
        numbers_len: usize,
        counts: *mut [u32; 65],
        counts_len: usize,
        rt: *const i64,
        rt_len: usize,
        ri: *const i32,
        ri_len: usize,
        rp: *const [f64; 6],
        rp_len: usize,
        ut: *const i64,
        ut_len: usize,
        ui: *const i32,
        ui_len: usize,
        up: *const [f64; 6],
        up_len: usize,
        uc: *const usize,
        uc_len: usize,
        ue: *const [i64; 101],
        ue_len: usize,
        st: *const i64,
        st_len: usize,
        si: *const i32,
        si_len: usize,
        sp: *const [f64; 6],
        sp_len: usize,
        sc: *const usize,
        sc_len: usize,
        se: *const [i64; 101],
        se_len: usize,
        fs: *const [i64; 6],
        fs_len: usize,
        fp: *const [f64; 18],
        fp_len: usize,
    ) -> u64;
    fn czsc_update_bar(
        numbers: *mut [usize; 10],
        numbers_len: usize,
        counts: *mut [u32; 65],
        counts_len: usize,
        events: *mut [u64; 3],
        events_len: usize,
        rt: *mut i64,
        rt_len: usize,
        ri: *mut i32,
        ri_len: usize,
        rp: *mut [f64; 6],
        rp_len: usize,
        ut: *mut i64,
        ut_len: usize,
        ui: *mut i32,
        ui_len: usize,
        up: *mut [f64; 6],
        up_len: usize,
        uc: *mut usize,
        uc_len: usize,
        ue: *mut [i64; 101],
        ue_len: usize,
        st: *mut i64,
        st_len: usize,
        si: *mut i32,
        si_len: usize,
        sp: *mut [f64; 6],
        sp_len: usize,
        sc: *mut usize,
        sc_len: usize,
        se: *mut [i64; 101],
        se_len: usize,
        fs: *mut [i64; 6],
        fs_len: usize,
        fp: *mut [f64; 18],
        fp_len: usize,
        time: i64,
        id: i32,
        open: f64,
        close: f64,
        high: f64,
        low: f64,
        vol: f64,
        amount: f64,
    ) -> u64;
    fn czsc_feed_all(
        minimum: usize,
        most: usize,
        power: usize,
        ratio: usize,
        numbers: *mut [usize; 10],
        numbers_len: usize,
        counts: *mut [u32; 65],
        counts_len: usize,
        sums: *mut [u64; 4],
        sums_len: usize,
        rt: *mut i64,
        rt_len: usize,
        ri: *mut i32,
        ri_len: usize,
        rp: *mut [f64; 6],
        rp_len: usize,
        ut: *mut i64,
        ut_len: usize,
        ui: *mut i32,
        ui_len: usize,
        up: *mut [f64; 6],
        up_len: usize,
        uc: *mut usize,
        uc_len: usize,
        ue: *mut [i64; 101],
        ue_len: usize,
        st: *mut i64,
        st_len: usize,
        si: *mut i32,
        si_len: usize,
        sp: *mut [f64; 6],
        sp_len: usize,
        sc: *mut usize,
        sc_len: usize,
        se: *mut [i64; 101],
        se_len: usize,
        fs: *mut [i64; 6],
        fs_len: usize,
        fp: *mut [f64; 18],
        fp_len: usize,
        bt: *const i64,
        bt_len: usize,
        bi: *const i32,
        bi_len: usize,
        bp: *const [f64; 6],
        bp_len: usize,
    ) -> u64;
}

/// The packed stand, strokes made, broken and shed, and the lent stores.
pub struct Port {
    pub numbers: [[usize; 10]; 1],
    pub counts: [[u32; 65]; 2],
    pub events: [[u64; 3]; 1],
    /// of the batch call: made, broken, shed, and bars accepted
    pub sums: [[u64; 4]; 1],
    pub rt: Vec<i64>,
    pub ri: Vec<i32>,
    pub rp: Vec<[f64; 6]>,
    pub ut: Vec<i64>,
    pub ui: Vec<i32>,
    pub up: Vec<[f64; 6]>,
    pub uc: Vec<usize>,
    pub ue: Vec<[i64; 101]>,
    pub st: Vec<i64>,
    pub si: Vec<i32>,
    pub sp: Vec<[f64; 6]>,
    pub sc: Vec<usize>,
    pub se: Vec<[i64; 101]>,
    pub fs: Vec<[i64; 6]>,
    pub fp: Vec<[f64; 18]>,
}

/// The bars in columns, as the batch call takes them.
pub struct Columns {
    times: Vec<i64>,
    ids: Vec<i32>,
    values: Vec<[f64; 6]>,
}

impl Columns {
    pub fn new(bars: &[Fed]) -> Columns {
        Columns {
            times: bars.iter().map(|b| b.time).collect(),
            ids: bars.iter().map(|b| b.id).collect(),
            values: bars.iter().map(|b| b.values).collect(),
        }
    }
}

impl Port {
    /// No analyzer yet: the stores alone.
    pub fn stores() -> Port {
        Port {
            numbers: [[0; 10]],
            counts: [[0; 65]; 2],
            events: [[0; 3]],
            sums: [[0; 4]],
            rt: vec![0; ROOM],
            ri: vec![0; ROOM],
            rp: vec![[0.0; 6]; ROOM],
            ut: vec![0; ROOM],
            ui: vec![0; ROOM],
            up: vec![[0.0; 6]; ROOM],
            uc: vec![0; ROOM],
            ue: vec![[0; 101]; ROOM],
            st: vec![0; ROOM],
            si: vec![0; ROOM],
            sp: vec![[0.0; 6]; ROOM],
            sc: vec![0; ROOM],
            se: vec![[0; 101]; ROOM],
            fs: vec![[0; 6]; ROOM],
            fp: vec![[0.0; 18]; ROOM],
        }
    }

    /// A fresh analyzer at default settings.
    pub fn fresh(&mut self) -> u64 {
        unsafe {
            czsc_fresh(
                0,
                0,
                POWER,
                RATIO,
                self.numbers.as_mut_ptr(),
                self.numbers.len(),
                self.counts.as_mut_ptr(),
                self.counts.len(),
                self.rt.as_ptr(),
                self.rt.len(),
                self.ri.as_ptr(),
                self.ri.len(),
                self.rp.as_ptr(),
                self.rp.len(),
                self.ut.as_ptr(),
                self.ut.len(),
                self.ui.as_ptr(),
                self.ui.len(),
                self.up.as_ptr(),
                self.up.len(),
                self.uc.as_ptr(),
                self.uc.len(),
                self.ue.as_ptr(),
                self.ue.len(),
                self.st.as_ptr(),
                self.st.len(),
                self.si.as_ptr(),
                self.si.len(),
                self.sp.as_ptr(),
                self.sp.len(),
                self.sc.as_ptr(),
                self.sc.len(),
                self.se.as_ptr(),
                self.se.len(),
                self.fs.as_ptr(),
                self.fs.len(),
                self.fp.as_ptr(),
                self.fp.len(),
            )
        }
    }

    /// One bar, all questions asked.
    #[inline]
    pub fn update_bar(&mut self, b: &Fed) -> u64 {
        let [open, close, high, low, vol, amount] = b.values;
        unsafe {
            czsc_update_bar(
                self.numbers.as_mut_ptr(),
                self.numbers.len(),
                self.counts.as_mut_ptr(),
                self.counts.len(),
                self.events.as_mut_ptr(),
                self.events.len(),
                self.rt.as_mut_ptr(),
                self.rt.len(),
                self.ri.as_mut_ptr(),
                self.ri.len(),
                self.rp.as_mut_ptr(),
                self.rp.len(),
                self.ut.as_mut_ptr(),
                self.ut.len(),
                self.ui.as_mut_ptr(),
                self.ui.len(),
                self.up.as_mut_ptr(),
                self.up.len(),
                self.uc.as_mut_ptr(),
                self.uc.len(),
                self.ue.as_mut_ptr(),
                self.ue.len(),
                self.st.as_mut_ptr(),
                self.st.len(),
                self.si.as_mut_ptr(),
                self.si.len(),
                self.sp.as_mut_ptr(),
                self.sp.len(),
                self.sc.as_mut_ptr(),
                self.sc.len(),
                self.se.as_mut_ptr(),
                self.se.len(),
                self.fs.as_mut_ptr(),
                self.fs.len(),
                self.fp.as_mut_ptr(),
                self.fp.len(),
                b.time,
                b.id,
                open,
                close,
                high,
                low,
                vol,
                amount,
            )
        }
    }

    /// All bars from a fresh analyzer in one call, with so many places of each store.
    pub fn feed_all(&mut self, bars: &Columns, rooms: [usize; 3]) -> u64 {
        let [raw, unfinished, strokes] = rooms;
        unsafe {
            czsc_feed_all(
                0,
                0,
                POWER,
                RATIO,
                self.numbers.as_mut_ptr(),
                self.numbers.len(),
                self.counts.as_mut_ptr(),
                self.counts.len(),
                self.sums.as_mut_ptr(),
                self.sums.len(),
                self.rt.as_mut_ptr(),
                raw,
                self.ri.as_mut_ptr(),
                raw,
                self.rp.as_mut_ptr(),
                raw,
                self.ut.as_mut_ptr(),
                unfinished,
                self.ui.as_mut_ptr(),
                unfinished,
                self.up.as_mut_ptr(),
                unfinished,
                self.uc.as_mut_ptr(),
                unfinished,
                self.ue.as_mut_ptr(),
                unfinished,
                self.st.as_mut_ptr(),
                strokes,
                self.si.as_mut_ptr(),
                strokes,
                self.sp.as_mut_ptr(),
                strokes,
                self.sc.as_mut_ptr(),
                strokes,
                self.se.as_mut_ptr(),
                strokes,
                self.fs.as_mut_ptr(),
                strokes,
                self.fp.as_mut_ptr(),
                strokes,
                bars.times.as_ptr(),
                bars.times.len(),
                bars.ids.as_ptr(),
                bars.ids.len(),
                bars.values.as_ptr(),
                bars.values.len(),
            )
        }
    }

    pub fn raw(&self) -> usize {
        self.numbers[0][5]
    }

    pub fn unfinished(&self) -> usize {
        self.numbers[0][6]
    }

    pub fn strokes(&self) -> usize {
        self.numbers[0][7]
    }
}
