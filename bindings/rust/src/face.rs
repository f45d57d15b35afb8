//! The C face of the proved core, as a host in Rust declares it. A slice goes over as its pointer and its length.

/// Declares the functions of the face and wraps each: `name(slices; numbers) -> answer`. A slice is `[T]` where it is read
/// and `mut [T]` where it may be written.
macro_rules! face {
    ($($name:ident = $symbol:ident ( $($arg:ident : $kind:tt $of:tt),* ) -> $answer:ty;)*) => {
        $(
            pub fn $name($($arg: face!(@safe $kind $of)),*) -> $answer {
                face!(@declare $symbol [] [$($arg $kind $of)*] $answer);
                face!(@call $symbol [] [$($arg $kind)*])
            }
        )*
    };
    (@safe read $of:tt) => { &[$of] };
    (@safe write $of:tt) => { &mut [$of] };
    (@safe number $of:tt) => { $of };
    (@declare $symbol:ident [$($done:tt)*] [$arg:ident number $of:tt $($rest:tt)*] $answer:ty) => {
        face!(@declare $symbol [$($done)* $arg: $of,] [$($rest)*] $answer)
    };
    (@declare $symbol:ident [$($done:tt)*] [$arg:ident read $of:tt $($rest:tt)*] $answer:ty) => {
        face!(@declare $symbol [$($done)* $arg: *const $of, _: usize,] [$($rest)*] $answer)
    };
    (@declare $symbol:ident [$($done:tt)*] [$arg:ident write $of:tt $($rest:tt)*] $answer:ty) => {
        face!(@declare $symbol [$($done)* $arg: *mut $of, _: usize,] [$($rest)*] $answer)
    };
    (@declare $symbol:ident [$($done:tt)*] [] $answer:ty) => {
        extern "C" { fn $symbol($($done)*) -> $answer; }
    };
    (@call $symbol:ident [$($done:tt)*] [$arg:ident number $($rest:tt)*]) => {
        face!(@call $symbol [$($done)* $arg,] [$($rest)*])
    };
    (@call $symbol:ident [$($done:tt)*] [$arg:ident read $($rest:tt)*]) => {
        face!(@call $symbol [$($done)* $arg.as_ptr(), $arg.len(),] [$($rest)*])
    };
    (@call $symbol:ident [$($done:tt)*] [$arg:ident write $($rest:tt)*]) => {
        face!(@call $symbol [$($done)* $arg.as_mut_ptr(), $arg.len(),] [$($rest)*])
    };
    (@call $symbol:ident [$($done:tt)*] []) => { unsafe { $symbol($($done)*) } };
}

face! {
    version = tmv_version() -> u32;
    narrow = tmv_narrow(bits: number u64) -> u32;
    square_root = tmv_square_root(bits: number u64) -> u64;
    square_roots = tmv_square_roots(list: write u64) -> ();
    is_finite = tmv_is_finite(bits: number u64) -> u32;
    is_finite32 = tmv_is_finite32(bits: number u32) -> u32;
    magnitude = tmv_magnitude(bits: number u64) -> u64;
}

pub mod scan {
    face! {
        words = tmv_scan_words() -> u64;
        envelope_len = tmv_scan_envelope_len(rate: number u32, ceiling: number u32) -> u64;
        levels_len = tmv_scan_levels_len(rate: number u32, ceiling: number u32) -> u64;
        window_len = tmv_scan_window_len(rate: number u32, ceiling: number u32) -> u64;
        prefix_len = tmv_scan_prefix_len(rate: number u32, ceiling: number u32) -> u64;
        lags_len = tmv_scan_lags_len(rate: number u32, ceiling: number u32) -> u64;
        new = tmv_scan_new(state: write u64, envelope: write f32, lag_sums: write f64, rate: number u32, ceiling: number u32) -> u32;
        reset = tmv_scan_reset(state: write u64, envelope: write f32, lag_sums: write f64) -> u32;
        rearm = tmv_scan_rearm(state: write u64, lag_sums: write f64) -> u32;
        discard_near = tmv_scan_discard_near(state: write u64, lag_sums: write f64) -> u32;
        push_far = tmv_scan_push_far(state: write u64, envelope: write f32, samples: read f32) -> u32;
        push_near = tmv_scan_push_near(state: write u64, levels: write f32, sample: number f32, index: number u64) -> u32;
        push_near_run = tmv_scan_push_near_run(state: write u64, levels: write f32, samples: read f32, first: number u64, values: write u64) -> u32;
        observe = tmv_scan_observe(state: write u64, envelope: read f32, levels: read f32, window: write f32, prefix: write f64, squares: write f64, scores: write f64, lag_sums: write f64, values: write u64) -> u32;
        bin_samples = tmv_scan_bin_samples(state: read u64, values: write u64) -> u32;
        ceiling_samples = tmv_scan_ceiling_samples(state: read u64, values: write u64) -> u32;
        frames = tmv_scan_frames(state: read u64, values: write u64) -> u32;
        correlation = tmv_scan_correlation(state: read u64, values: write u64) -> u32;
        region = tmv_scan_region(state: read u64, values: write u64) -> u32;
        beyond_ceiling = tmv_scan_beyond_ceiling(state: read u64) -> u32;
        finished = tmv_scan_finished(state: read u64) -> u32;
        exhausted = tmv_scan_exhausted(state: read u64) -> u32;
    }
}

pub mod panel {
    face! {
        envelope_len = tmv_panel_envelope_len(rate: number u32, ceiling: number u32) -> u64;
        new = tmv_panel_new(state: write u64, envelope: write f32, lag_sums: write f64, rate: number u32, ceiling: number u32) -> u32;
        reset = tmv_panel_reset(state: write u64, envelope: write f32, lag_sums: write f64) -> u32;
        rearm = tmv_panel_rearm(state: write u64, lag_sums: write f64) -> u32;
        discard_near = tmv_panel_discard_near(state: write u64, lag_sums: write f64) -> u32;
        push_far = tmv_panel_push_far(state: write u64, envelope: write f32, samples: read f32) -> u32;
        push_near = tmv_panel_push_near(state: write u64, levels: write f32, sample: number f32, index: number u64) -> u32;
        push_near_run = tmv_panel_push_near_run(state: write u64, levels: write f32, samples: read f32, first: number u64, values: write u64) -> u32;
        observe = tmv_panel_observe(state: write u64, envelope: read f32, levels: read f32, window: write f32, prefix: write f64, squares: write f64, scores: write f64, lag_sums: write f64, values: write u64) -> u32;
        bin_samples = tmv_panel_bin_samples(state: read u64, values: write u64) -> u32;
        ceiling_samples = tmv_panel_ceiling_samples(state: read u64, values: write u64) -> u32;
        frames = tmv_panel_frames(state: read u64, values: write u64) -> u32;
        correlation = tmv_panel_correlation(state: read u64, values: write u64) -> u32;
        region = tmv_panel_region(state: read u64, values: write u64) -> u32;
        beyond_ceiling = tmv_panel_beyond_ceiling(state: read u64) -> u32;
        finished = tmv_panel_finished(state: read u64) -> u32;
        exhausted = tmv_panel_exhausted(state: read u64) -> u32;
    }
}

pub mod pair {
    face! {
        words = tmv_pair_words() -> u64;
        new = tmv_pair_new(state: write u64, envelope: write f32, first_lag_sums: write f64, second_lag_sums: write f64, rate: number u32, ceiling: number u32) -> u32;
        reset = tmv_pair_reset(state: write u64, envelope: write f32, first_lag_sums: write f64, second_lag_sums: write f64) -> u32;
        push_far = tmv_pair_push_far(state: write u64, envelope: write f32, samples: read f32) -> u32;
        push_near = tmv_pair_push_near(state: write u64, channel: number u32, levels: write f32, sample: number f32, index: number u64) -> u32;
        push_near_run = tmv_pair_push_near_run(state: write u64, channel: number u32, levels: write f32, samples: read f32, first: number u64, values: write u64) -> u32;
        observe = tmv_pair_observe(state: write u64, channel: number u32, envelope: read f32, levels: read f32, window: write f32, prefix: write f64, squares: write f64, scores: write f64, lag_sums: write f64, values: write u64) -> u32;
        rearm = tmv_pair_rearm(state: write u64, channel: number u32, lag_sums: write f64) -> u32;
        discard_near = tmv_pair_discard_near(state: write u64, channel: number u32, lag_sums: write f64) -> u32;
        frames = tmv_pair_frames(state: read u64, channel: number u32, values: write u64) -> u32;
        correlation = tmv_pair_correlation(state: read u64, channel: number u32, values: write u64) -> u32;
        region = tmv_pair_region(state: read u64, channel: number u32, values: write u64) -> u32;
        beyond_ceiling = tmv_pair_beyond_ceiling(state: read u64, channel: number u32) -> u32;
        finished = tmv_pair_finished(state: read u64, channel: number u32) -> u32;
        exhausted = tmv_pair_exhausted(state: read u64, channel: number u32) -> u32;
        bin_samples = tmv_pair_bin_samples(state: read u64, values: write u64) -> u32;
        ceiling_samples = tmv_pair_ceiling_samples(state: read u64, values: write u64) -> u32;
    }
}

pub mod ring {
    face! {
        words = tmv_ring_words() -> u64;
        new = tmv_ring_new(state: write u64, buf: read u32) -> u32;
        push = tmv_ring_push(state: write u64, buf: write u32, samples: read u32) -> u32;
        push_floats = tmv_ring_push_floats(state: write u64, buf: write u32, samples: read f32) -> u32;
        clear = tmv_ring_clear(state: write u64, buf: read u32) -> u32;
        get = tmv_ring_get(state: read u64, buf: read u32, at: number u64, values: write u64) -> u32;
        window = tmv_ring_window(state: read u64, buf: read u32, at: number u64, back: number u64, window: write u32, values: write u64) -> u32;
        window_floats = tmv_ring_window_floats(state: read u64, buf: read u32, at: number u64, back: number u64, window: write f32, values: write u64) -> u32;
        next_abs = tmv_ring_next_abs(state: read u64, buf: read u32, values: write u64) -> u32;
        capacity = tmv_ring_capacity(state: read u64, buf: read u32, values: write u64) -> u32;
        dropped = tmv_ring_dropped(state: read u64, buf: read u32, values: write u64) -> u32;
    }
}

pub mod tracker {
    face! {
        words = tmv_tracker_words() -> u64;
        new = tmv_tracker_new(state: write u64, rate: number u32) -> u32;
        on_cycle = tmv_tracker_on_cycle(state: write u64, alignment: number u64, kind: number u32, delay: number u64, values: write u64) -> u32;
        on_discontinuity = tmv_tracker_on_discontinuity(state: write u64) -> u32;
        jump_cycles = tmv_tracker_jump_cycles(state: read u64, values: write u64) -> u32;
        longest_run = tmv_tracker_longest_run(state: read u64, values: write u64) -> u32;
        suspect = tmv_tracker_suspect(state: read u64) -> u32;
        quiescent = tmv_tracker_quiescent(state: read u64) -> u32;
    }
}

pub mod fine {
    face! {
        words = tmv_fine_words() -> u64;
        frame_len = tmv_fine_frame_len(span: number u32) -> u64;
        window_len = tmv_fine_window_len(span: number u32) -> u64;
        correlation_len = tmv_fine_correlation_len(span: number u32) -> u64;
        transform_len = tmv_fine_transform_len(span: number u32) -> u64;
        new = tmv_fine_new(state: write u64, span: number u32) -> u32;
        restart = tmv_fine_restart(state: write u64) -> u32;
        relocate = tmv_fine_relocate(state: write u64, origin: number u64) -> u32;
        reset = tmv_fine_reset(state: write u64) -> u32;
        push_near = tmv_fine_push_near(state: write u64, near: write f32, sample: number f32) -> u32;
        push_near_run = tmv_fine_push_near_run(state: write u64, near: write f32, samples: read f32, values: write u64) -> u32;
        gate = tmv_fine_gate(state: write u64, near: read f32, retained: write f32, far: read f32, missing_head: number u64, missing_tail: number u64) -> u32;
        rescan = tmv_fine_rescan(state: read u64, retained: read f32, far: read f32, missing_head: number u64, missing_tail: number u64) -> u32;
        peak = tmv_fine_peak(state: write u64, correlation: read f32, values: write u64) -> u32;
        state_frame_len = tmv_fine_state_frame_len(state: read u64, values: write u64) -> u32;
        state_window_len = tmv_fine_state_window_len(state: read u64, values: write u64) -> u32;
        max_delay = tmv_fine_max_delay(state: read u64, values: write u64) -> u32;
        window_back_off = tmv_fine_window_back_off(state: read u64, values: write u64) -> u32;
        search_range = tmv_fine_search_range(state: read u64, values: write u64) -> u32;
        frames = tmv_fine_frames(state: read u64, values: write u64) -> u32;
        skipped = tmv_fine_skipped(state: read u64, values: write u64) -> u32;
        last_scan_ratio = tmv_fine_last_scan_ratio(state: read u64, values: write u64) -> u32;
        last_scan_peak_at = tmv_fine_last_scan_peak_at(state: read u64, values: write u64) -> u32;
        last_scan_origin = tmv_fine_last_scan_origin(state: read u64, values: write u64) -> u32;
        scans = tmv_fine_scans(state: read u64, values: write u64) -> u32;
    }
}
