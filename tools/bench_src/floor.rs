//! A floor: the same numbers by the same rules, in Rust written for speed alone. Nothing is checked and nothing is allocated; a curve
//! stands in arrays, the span is found by halving, and A2.3 is written out for the orders 0 to 2. The closest search takes no root and scales
//! nothing, which finds the same samples at the sizes that are timed. A fit is the dense one, its rows in an array.

pub struct Floor {
    n: usize,
    xs: [f64; 66],
    ys: [f64; 66],
    knots: [f64; 70],
}

impl Floor {
    /// Control points, x and y in turn.
    pub fn of(coords: &[f64], knots: &[f64]) -> Self {
        let n = coords.len() / 2;
        let mut floor = Floor {
            n,
            xs: [0.0; 66],
            ys: [0.0; 66],
            knots: [0.0; 70],
        };
        for (k, pair) in coords.chunks_exact(2).enumerate() {
            (floor.xs[k], floor.ys[k]) = (pair[0], pair[1]);
        }
        floor.knots[..n + 4].copy_from_slice(knots);
        floor
    }

    /// The point.
    #[inline(never)] // as ours is in a library
    pub fn point(&self, t: f64) -> [f64; 2] {
        self.at(t)
    }

    /// The point at each parameter, x and y in turn.
    #[inline(never)]
    pub fn points(&self, ts: &[f64], out: &mut [f64]) {
        for (&t, place) in ts.iter().zip(out.chunks_exact_mut(2)) {
            place.copy_from_slice(&self.at(t));
        }
    }

    /// The point and two derivatives.
    #[inline(never)]
    pub fn second(&self, t: f64) -> [f64; 6] {
        let [lo, hi] = self.ends();
        if t < lo || t > hi {
            let (point, tangent) = self.beyond(t, if t < lo { lo } else { hi });
            return [point[0], point[1], tangent[0], tangent[1], 0.0, 0.0];
        }
        let i = self.span(t);
        let ndu = values(self.near(i), t);
        let [a, b] = self.combine(i, &ndu.three);
        let [c, d] = self.combine(i, &ndu.first());
        let [e, f] = self.combine(i, &ndu.second());
        [a, b, c, d, e, f]
    }

    /// The closest parameter: the nearest of 16 samples to a span, by squares, and then Newton's rounds.
    #[inline(never)]
    pub fn closest(&self, [px, py]: [f64; 2]) -> f64 {
        let [lo, hi] = self.ends();
        let mut t = self.nearest([px, py]);
        for _ in 0..30 {
            let [x, y, dx, dy, ddx, ddy] = self.second(t);
            let (wx, wy) = (x - px, y - py);
            let f = wx * dx + wy * dy;
            let df = dx * dx + dy * dy + wx * ddx + wy * ddy;
            if df <= 0.0 {
                break;
            }
            let next = (t - f / df).clamp(lo, hi);
            let moved = (next - t).abs();
            t = next;
            if moved < 1e-15 {
                break;
            }
        }
        t
    }

    /// The curve through points.
    #[inline(never)]
    pub fn through(points: &[[f64; 2]]) -> Self {
        let n = points.len();
        let mut floor = Floor {
            n: n + 2,
            xs: [0.0; 66],
            ys: [0.0; 66],
            knots: [0.0; 70],
        };
        floor.fit_knots(points);
        let mut rows = [[0.0; 68]; 66];
        floor.system(points, &mut rows[..n + 2]);
        solve(&mut rows[..n + 2]);
        for (k, row) in rows[..n + 2].iter().enumerate() {
            (floor.xs[k], floor.ys[k]) = (row[n + 2], row[n + 3]);
        }
        floor
    }

    /// The control points, x and y in turn, and then the knots.
    pub fn numbers(&self) -> Vec<f64> {
        let points = self.xs.iter().zip(&self.ys).take(self.n);
        let mut numbers: Vec<f64> = points.flat_map(|(&x, &y)| [x, y]).collect();
        numbers.extend(&self.knots[..self.n + 4]);
        numbers
    }

    /// Four 0, the running sums of the steps over their total, four 1.
    fn fit_knots(&mut self, points: &[[f64; 2]]) {
        let step = |w: &[[f64; 2]]| {
            let (dx, dy) = (w[1][0] - w[0][0], w[1][1] - w[0][1]);
            (dx * dx + dy * dy + 1e-24).sqrt().sqrt()
        };
        let mut sums = [0.0; 64];
        let mut sum = 0.0;
        for (k, w) in points.windows(2).enumerate() {
            sum += step(w);
            sums[k] = sum;
        }
        let inner = points.len() - 2;
        for k in 0..inner {
            self.knots[4 + k] = sums[k] / sum;
        }
        self.knots[4 + inner..8 + inner].fill(1.0);
    }

    /// A row for each parameter, its point after the matrix numbers, between the two that say that the ends do not bend.
    fn system(&self, points: &[[f64; 2]], rows: &mut [[f64; 68]]) {
        let (n, m) = (points.len(), rows.len());
        let mut fill = |row: usize, t: f64, bend: bool, b: [f64; 2]| {
            let i = self.span(t);
            let ndu = values(self.near(i), t);
            let four = if bend { ndu.second() } else { ndu.three };
            rows[row][i - 3..=i].copy_from_slice(&four);
            rows[row][m..m + 2].copy_from_slice(&b);
        };
        fill(0, 0.0, true, [0.0; 2]);
        for (k, &b) in points.iter().enumerate() {
            let t = match k {
                0 => 0.0,
                _ if k < n - 1 => self.knots[k + 3],
                _ => 1.0,
            };
            fill(k + 1, t, false, b);
        }
        fill(m - 1, 1.0, true, [0.0; 2]);
    }

    fn nearest(&self, [px, py]: [f64; 2]) -> f64 {
        let (mut best, mut least) = (0.0, f64::INFINITY);
        let mut take = |t: f64| {
            let [x, y] = self.at(t);
            let square = (x - px) * (x - px) + (y - py) * (y - py);
            if square < least {
                (best, least) = (t, square);
            }
        };
        for pair in self.knots[..self.n + 4].windows(2) {
            if pair[1] > pair[0] {
                (0..16).for_each(|s| take(pair[0] + (pair[1] - pair[0]) * s as f64 / 16.0));
            }
        }
        take(self.knots[self.n + 3]);
        best
    }

    fn ends(&self) -> [f64; 2] {
        [self.knots[0], self.knots[self.n + 3]]
    }

    #[inline(always)]
    fn at(&self, t: f64) -> [f64; 2] {
        let [lo, hi] = self.ends();
        if t < lo || t > hi {
            return self.beyond(t, if t < lo { lo } else { hi }).0;
        }
        let i = self.span(t);
        self.combine(i, &values(self.near(i), t).three)
    }

    /// The point past the end e, and the tangent there.
    fn beyond(&self, t: f64, e: f64) -> ([f64; 2], [f64; 2]) {
        let i = self.span(e);
        let ndu = values(self.near(i), e);
        let (p, d) = (self.combine(i, &ndu.three), self.combine(i, &ndu.first()));
        ([p[0] + d[0] * (t - e), p[1] + d[1] * (t - e)], d)
    }

    fn span(&self, t: f64) -> usize {
        if t >= self.knots[self.n] {
            return self.n - 1;
        }
        if t <= self.knots[3] {
            return 3;
        }
        let (mut lo, mut hi) = (3, self.n);
        while hi - lo > 1 {
            let mid = (lo + hi) / 2;
            if t < self.knots[mid] {
                hi = mid;
            } else {
                lo = mid;
            }
        }
        lo
    }

    /// The six knots about span i.
    fn near(&self, i: usize) -> &[f64; 6] {
        self.knots[i - 2..i + 4].try_into().expect("six")
    }

    /// Four control points, each times its weight, summed from 0.
    fn combine(&self, i: usize, row: &[f64; 4]) -> [f64; 2] {
        let (xs, ys) = (&self.xs[i - 3..=i], &self.ys[i - 3..=i]);
        let sum =
            |cs: &[f64]| 0.0 + cs[0] * row[0] + cs[1] * row[1] + cs[2] * row[2] + cs[3] * row[3];
        [sum(xs), sum(ys)]
    }
}

/// Elimination with the pivot of greatest size, the last of equals, and back substitution: the right sides become the answers.
fn solve(rows: &mut [[f64; 68]]) {
    let m = rows.len();
    for col in 0..m {
        let mut best = col;
        for r in col + 1..m {
            if rows[r][col].abs() >= rows[best][col].abs() {
                best = r;
            }
        }
        rows.swap(col, best);
        let (above, below) = rows.split_at_mut(col + 1);
        let pivot = &above[col];
        for row in below.iter_mut().filter(|row| row[col] != 0.0) {
            let f = row[col] / pivot[col];
            for (target, p) in row[col..m + 2].iter_mut().zip(&pivot[col..m + 2]) {
                *target -= f * p;
            }
        }
    }
    for r in (0..m).rev() {
        let (above, below) = rows.split_at_mut(r + 1);
        let row = &mut above[r];
        let [mut x, mut y] = [row[m], row[m + 1]];
        for (k, answered) in below.iter().enumerate() {
            x -= answered[m] * row[r + 1 + k];
            y -= answered[m + 1] * row[r + 1 + k];
        }
        let inverse = 1.0 / row[r];
        (row[m], row[m + 1]) = (x * inverse, y * inverse);
    }
}

/// The values of A2.3 that derivatives are made of: by degree, those of the first, second and third, and the knot differences.
struct Values {
    one: [f64; 2],
    two: [f64; 3],
    three: [f64; 4],
    over_two: [f64; 2],
    over_three: [f64; 3],
}

/// On the span between the third and the fourth of six knots.
#[inline(always)]
fn values(u: &[f64; 6], t: f64) -> Values {
    let left = [t - u[2], t - u[1], t - u[0]];
    let right = [u[3] - t, u[4] - t, u[5] - t];
    let over_one = right[0] + left[0];
    let temp = 1.0 / over_one;
    let one = [0.0 + right[0] * temp, left[0] * temp];
    let over_two = [right[0] + left[1], right[1] + left[0]];
    let temps = [one[0] / over_two[0], one[1] / over_two[1]];
    let two = [
        0.0 + right[0] * temps[0],
        left[1] * temps[0] + right[1] * temps[1],
        left[0] * temps[1],
    ];
    let over_three = [right[0] + left[2], right[1] + left[1], right[2] + left[0]];
    let temps = [
        two[0] / over_three[0],
        two[1] / over_three[1],
        two[2] / over_three[2],
    ];
    let three = [
        0.0 + right[0] * temps[0],
        left[2] * temps[0] + right[1] * temps[1],
        left[1] * temps[1] + right[2] * temps[2],
        left[0] * temps[2],
    ];
    Values {
        one,
        two,
        three,
        over_two,
        over_three,
    }
}

impl Values {
    /// One over each difference: the first row of A2.3's coefficients, and with the other sign the second.
    fn thirds(&self) -> [f64; 3] {
        self.over_three.map(|difference| 1.0 / difference)
    }

    fn first(&self) -> [f64; 4] {
        let ([a, b, c], [f, g, h]) = (self.two, self.thirds());
        [
            (0.0 + -f * a) * 3.0,
            (f * a + -g * b) * 3.0,
            (g * b + -h * c) * 3.0,
            (h * c) * 3.0,
        ]
    }

    fn second(&self) -> [f64; 4] {
        let ([a, b], [d, e], [f, g, h]) = (self.one, self.over_two, self.thirds());
        [
            (0.0 + f / d * a) * 6.0,
            (0.0 + (-g - f) / d * a + g / e * b) * 6.0,
            (g / d * a + (-h - g) / e * b) * 6.0,
            (h / e * b) * 6.0,
        ]
    }
}
