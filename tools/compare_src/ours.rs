//! The proved functions, as include/threshdune.h and include/threshdune_parts.h have them. A C bool is taken as the byte it is:
//! a third value would be a difference, not undefined behaviour of this program.

mod c {
    unsafe extern "C" {
        pub fn threshdune_root(x: f64) -> f64;
        pub fn threshdune_is_finite(x: f64) -> u8;
        pub fn threshdune_size(x: f64) -> f64;
        pub fn threshdune_at_least(x: f64, y: f64) -> u8;
        pub fn threshdune_clamp(x: f64, lo: f64, hi: f64) -> f64;
        pub fn threshdune_plane_dot(ax: f64, ay: f64, bx: f64, by: f64) -> f64;
        pub fn threshdune_plane_cross(ax: f64, ay: f64, bx: f64, by: f64) -> f64;
        pub fn threshdune_plane_norm(ax: f64, ay: f64) -> f64;
        pub fn threshdune_distance(ax: f64, ay: f64, bx: f64, by: f64) -> f64;
    }
}

// These take plain numbers and no memory, so any call is sound.

pub fn root(x: f64) -> f64 {
    unsafe { c::threshdune_root(x) }
}

pub fn is_finite(x: f64) -> u8 {
    unsafe { c::threshdune_is_finite(x) }
}

pub fn size(x: f64) -> f64 {
    unsafe { c::threshdune_size(x) }
}

pub fn at_least(x: f64, y: f64) -> u8 {
    unsafe { c::threshdune_at_least(x, y) }
}

pub fn clamp(x: f64, lo: f64, hi: f64) -> f64 {
    unsafe { c::threshdune_clamp(x, lo, hi) }
}

pub fn plane_dot(a: [f64; 2], b: [f64; 2]) -> f64 {
    unsafe { c::threshdune_plane_dot(a[0], a[1], b[0], b[1]) }
}

pub fn plane_cross(a: [f64; 2], b: [f64; 2]) -> f64 {
    unsafe { c::threshdune_plane_cross(a[0], a[1], b[0], b[1]) }
}

pub fn plane_norm(a: [f64; 2]) -> f64 {
    unsafe { c::threshdune_plane_norm(a[0], a[1]) }
}

pub fn distance(a: [f64; 2], b: [f64; 2]) -> f64 {
    unsafe { c::threshdune_distance(a[0], a[1], b[0], b[1]) }
}

/// Declares the functions of one shape, and the shape's type for tables of them.
macro_rules! shape {
    ($shape:ident, $arguments:tt, $($name:ident)*) => {
        pub type $shape = unsafe extern "C" fn $arguments -> u64;
        unsafe extern "C" {
            $(pub fn $name $arguments -> u64;)*
        }
    };
}

// One value with partials to another.
shape!(One, (a: *const f64, a_len: usize, a_count: u64,
             out: *mut f64, out_len: usize, count: *mut u64),
    threshdune_partials_neg threshdune_partials_root);

// Two values with partials to one.
shape!(Two, (a: *const f64, a_len: usize, a_count: u64, b: *const f64, b_len: usize, b_count: u64,
             out: *mut f64, out_len: usize, count: *mut u64),
    threshdune_partials_add threshdune_partials_sub threshdune_partials_mul threshdune_partials_div);

// Two vectors to one.
shape!(Plane, (ax: f64, ay: f64, bx: f64, by: f64, out: *mut f64, out_len: usize),
    threshdune_plane_add threshdune_plane_sub);

// One vector to another.
shape!(PlaneOne, (ax: f64, ay: f64, out: *mut f64, out_len: usize),
    threshdune_plane_unit threshdune_plane_rot90);

// Two vectors with partials to one.
shape!(PlanePartials, (a: *const f64, a_len: usize, a_counts: *const u64, a_counts_len: usize,
                       b: *const f64, b_len: usize, b_counts: *const u64, b_counts_len: usize,
                       out: *mut f64, out_len: usize, counts: *mut u64, counts_len: usize),
    threshdune_plane_partials_add threshdune_plane_partials_sub);

// One vector with partials to another.
shape!(PlanePartialsOne, (a: *const f64, a_len: usize, a_counts: *const u64, a_counts_len: usize,
                          out: *mut f64, out_len: usize, counts: *mut u64, counts_len: usize),
    threshdune_plane_partials_unit threshdune_plane_partials_rot90);

// Two vectors with partials to a value.
shape!(PlaneProduct, (a: *const f64, a_len: usize, a_counts: *const u64, a_counts_len: usize,
                      b: *const f64, b_len: usize, b_counts: *const u64, b_counts_len: usize,
                      out: *mut f64, out_len: usize, count: *mut u64),
    threshdune_plane_partials_dot threshdune_plane_partials_cross);

unsafe extern "C" {
    pub fn threshdune_partials_var(
        xs: *const f64,
        xs_len: usize,
        i: u64,
        out: *mut f64,
        out_len: usize,
        count: *mut u64,
    ) -> u64;
    pub fn threshdune_partials_overshoot(
        t: *const f64,
        t_len: usize,
        t_count: u64,
        lo: f64,
        hi: f64,
        out: *mut f64,
        out_len: usize,
        count: *mut u64,
    ) -> u64;
    pub fn threshdune_partials_is_fine(a: *const f64, a_len: usize, a_count: u64) -> u8;

    pub fn threshdune_plane_scale(ax: f64, ay: f64, k: f64, out: *mut f64, out_len: usize) -> u64;

    pub fn threshdune_plane_partials_scale(
        a: *const f64,
        a_len: usize,
        a_counts: *const u64,
        a_counts_len: usize,
        k: *const f64,
        k_len: usize,
        k_count: u64,
        out: *mut f64,
        out_len: usize,
        counts: *mut u64,
        counts_len: usize,
    ) -> u64;
    pub fn threshdune_plane_partials_norm(
        a: *const f64,
        a_len: usize,
        a_counts: *const u64,
        a_counts_len: usize,
        out: *mut f64,
        out_len: usize,
        count: *mut u64,
    ) -> u64;
}

unsafe extern "C" {
    pub fn threshdune_partials_basis(
        w: *const f64,
        w_len: usize,
        w_counts: *const u64,
        w_counts_len: usize,
        t: *const f64,
        t_len: usize,
        t_count: u64,
        order: u64,
        out: *mut f64,
        out_len: usize,
        counts: *mut u64,
        counts_len: usize,
    ) -> u64;
}

// Curves.
unsafe extern "C" {
    pub fn threshdune_residual(
        handles: *const f64,
        handles_len: usize,
        fit: u64,
        given: u64,
        knots: *const f64,
        knots_len: usize,
        px: f64,
        py: f64,
        t: f64,
        work: *mut f64,
        work_len: usize,
        counts: *mut u8,
        counts_len: usize,
        residuals: *mut f64,
        residuals_len: usize,
        rows: *mut f64,
        rows_len: usize,
    ) -> u64;
    pub fn threshdune_closest(
        coords: *const f64,
        coords_len: usize,
        knots: *const f64,
        knots_len: usize,
        px: f64,
        py: f64,
        t: *mut f64,
    ) -> u64;
    pub fn threshdune_closest_many(
        coords: *const f64,
        coords_len: usize,
        knots: *const f64,
        knots_len: usize,
        points: *const f64,
        points_len: usize,
        out: *mut f64,
        out_len: usize,
        refusals: *mut u64,
        refusals_len: usize,
    ) -> u64;
    pub fn threshdune_build_fit(
        coords: *const f64,
        coords_len: usize,
        work: *mut f64,
        work_len: usize,
        control: *mut f64,
        control_len: usize,
        knots_out: *mut f64,
        knots_out_len: usize,
    ) -> u64;
    pub fn threshdune_build_control(
        coords: *const f64,
        coords_len: usize,
        given: u64,
        knots: *const f64,
        knots_len: usize,
        control: *mut f64,
        control_len: usize,
        knots_out: *mut f64,
        knots_out_len: usize,
    ) -> u64;
    pub fn threshdune_evaluate(
        coords: *const f64,
        coords_len: usize,
        knots: *const f64,
        knots_len: usize,
        t: f64,
        order: u64,
        out: *mut f64,
        out_len: usize,
    ) -> u64;
    pub fn threshdune_evaluate_many(
        coords: *const f64,
        coords_len: usize,
        knots: *const f64,
        knots_len: usize,
        ts: *const f64,
        ts_len: usize,
        order: u64,
        out: *mut f64,
        out_len: usize,
        refusals: *mut u64,
        refusals_len: usize,
    ) -> u64;
    pub fn threshdune_point_tangent(
        coords: *const f64,
        coords_len: usize,
        knots: *const f64,
        knots_len: usize,
        t: f64,
        out: *mut f64,
        out_len: usize,
    ) -> u64;
    pub fn threshdune_length(
        coords: *const f64,
        coords_len: usize,
        knots: *const f64,
        knots_len: usize,
        length: *mut f64,
    ) -> u64;
    pub fn threshdune_domain(
        coords: *const f64,
        coords_len: usize,
        knots: *const f64,
        knots_len: usize,
        from: *mut f64,
        to: *mut f64,
    ) -> u64;
    pub fn threshdune_samples(
        coords: *const f64,
        coords_len: usize,
        knots: *const f64,
        knots_len: usize,
        per_span: u64,
        out: *mut f64,
        out_len: usize,
        count: *mut u64,
    ) -> u64;
}

/// Declares the doors that take a record: its counts, its length and its slices first.
macro_rules! records {
    ($($name:ident, ($($own:ident: $of:ty),*);)*) => {
        unsafe extern "C" {
            $(pub fn $name(
                points: u64,
                knot_count: u64,
                length: f64,
                xs: *const f64,
                xs_len: usize,
                ys: *const f64,
                ys_len: usize,
                knots: *const f64,
                knots_len: usize,
                $($own: $of),*
            ) -> u64;)*
        }
    };
}

records! {
    threshdune_record_evaluate, (t: f64, order: u64, out: *mut f64, out_len: usize);
    threshdune_record_evaluate_many, (ts: *const f64, ts_len: usize, order: u64, out: *mut f64, out_len: usize,
        refusals: *mut u64, refusals_len: usize);
    threshdune_record_point_tangent, (t: f64, out: *mut f64, out_len: usize);
    threshdune_record_length, (answer: *mut f64);
    threshdune_record_domain, (from: *mut f64, to: *mut f64);
    threshdune_record_closest, (px: f64, py: f64, t: *mut f64);
    threshdune_record_closest_many, (marks: *const f64, marks_len: usize, out: *mut f64, out_len: usize,
        refusals: *mut u64, refusals_len: usize);
    threshdune_record_samples, (per_span: u64, out: *mut f64, out_len: usize, count: *mut u64);
    threshdune_record_move, (index: u64, x: f64, y: f64, xs_out: *mut f64, xs_out_len: usize, ys_out: *mut f64,
        ys_out_len: usize, length_out: *mut f64);
}
