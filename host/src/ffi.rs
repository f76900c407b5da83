//! The exports of libcalls_c.a and libmodem_c.a, as include/dimpstea.h declares them: a slice is a pointer and a length.
extern "C" {
    pub fn dimpstea_layout(bandwidth: u32, record: u32, numbers: *mut u64, numbers_len: usize) -> u32;

    pub fn dimpstea_modulate(
        bandwidth: u32,
        record: u32,
        markers: *const u16,
        markers_len: usize,
        phasors: *const f64,
        phasors_len: usize,
        frames: u32,
        payload: *const u8,
        payload_len: usize,
        draws: *const u8,
        draws_len: usize,
        rows: *mut f64,
        rows_len: usize,
    ) -> u32;

    pub fn dimpstea_nco_phase(
        bandwidth: u32,
        record: u32,
        window: usize,
        phases: *mut f32,
        phases_len: usize,
        out: *mut f32,
        out_len: usize,
    ) -> u32;

    pub fn dimpstea_carrier_audio(
        bandwidth: u32,
        record: u32,
        frames: u32,
        symbols: *const f64,
        symbols_len: usize,
        place: u64,
        window: usize,
        waves: *const f64,
        waves_len: usize,
        phases: *mut f32,
        phases_len: usize,
        out: *mut f64,
        out_len: usize,
    ) -> u32;

    pub fn dimpstea_open(
        bandwidth: u32,
        record: u32,
        markers: *const u16,
        markers_len: usize,
        phasors: *const f64,
        phasors_len: usize,
        start: u64,
        book: *const f64,
        book_len: usize,
        state: *mut u64,
        state_len: usize,
        metric: *mut f64,
    ) -> u32;

    pub fn dimpstea_feed(
        bandwidth: u32,
        record: u32,
        markers: *const u16,
        markers_len: usize,
        phasors: *const f64,
        phasors_len: usize,
        book: *const f64,
        book_len: usize,
        state: *mut u64,
        state_len: usize,
        metric: *mut f64,
        memory: *mut f64,
        memory_len: usize,
        number: u64,
        samples: *const f64,
        samples_len: usize,
        released: *mut u64,
        release_position: *mut u64,
        release_metric: *mut f64,
    ) -> u32;

    pub fn dimpstea_locate(
        bandwidth: u32,
        record: u32,
        markers: *const u16,
        markers_len: usize,
        phasors: *const f64,
        phasors_len: usize,
        state: *const u64,
        state_len: usize,
        metric: f64,
        memory: *const f64,
        memory_len: usize,
        t0: u64,
        t: *mut u64,
        result: *mut f64,
        result_len: usize,
    ) -> u32;

    pub fn dimpstea_read(
        bandwidth: u32,
        record: u32,
        markers: *const u16,
        markers_len: usize,
        phasors: *const f64,
        phasors_len: usize,
        state: *const u64,
        state_len: usize,
        metric: f64,
        memory: *const f64,
        memory_len: usize,
        t0: u64,
        drift: *const f64,
        drift_len: usize,
        scratch: *mut f64,
        scratch_len: usize,
        out: *mut f64,
        out_len: usize,
        t: *mut u64,
        result: *mut f64,
        result_len: usize,
    ) -> u32;

    pub fn dimpstea_offer(
        hold: *mut u64,
        hold_len: usize,
        held_metric: *mut f64,
        position: u64,
        has_metric: u64,
        metric: f64,
        released: *mut u64,
        release_position: *mut u64,
        release_metric: *mut f64,
    ) -> u32;

    pub fn dimpstea_payload_bits(
        bandwidth: u32,
        record: u32,
        soft: *const f64,
        soft_len: usize,
        out: *mut u8,
        out_len: usize,
    ) -> u32;

    pub fn dimpstea_meter(
        bandwidth: u32,
        record: u32,
        sent: *const u8,
        sent_len: usize,
        read: *const u8,
        read_len: usize,
        differing: *mut u64,
    ) -> u32;

    pub fn dimpstea_decibels(median: f64, tenths: *mut u32) -> u32;
    pub fn dimpstea_residual(re: f64, im: f64, index: *mut u32, residual: *mut i32) -> u32;
    pub fn dimpstea_by_time(
        bandwidth: u32,
        record: u32,
        markers: *const u16,
        markers_len: usize,
        soft: *const f64,
        soft_len: usize,
        out: *mut f64,
        out_len: usize,
    ) -> u32;

    pub fn dimpstea_by_carrier(
        bandwidth: u32,
        record: u32,
        markers: *const u16,
        markers_len: usize,
        timed: *const f64,
        timed_len: usize,
        out: *mut f64,
        out_len: usize,
    ) -> u32;
    pub fn dimpstea_soft_step(size: usize, re: f64, im: f64, nvar: f64, out: *mut f64, out_len: usize) -> u32;
    pub fn dimpstea_draw_markers(
        bandwidth: u32,
        record: u32,
        state: *mut u32,
        limit: u32,
        out: *mut u16,
        out_len: usize,
    ) -> u32;

    pub fn dimpstea_nearest_point(
        size: usize,
        re: f64,
        im: f64,
        label: *mut u64,
        distance: *mut f64,
        runner_up: *mut f64,
    ) -> u32;
}
