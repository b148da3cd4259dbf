/* Threshdune for C, the rest: numbers, values with partials, vectors, the basis with partials, and
 * curves as records. What threshdune.h says about slices, refusals and buffers holds here too; the
 * sections are in docs/RULES.md, and the operations are those of the original's spline.rs.
 */
#ifndef THRESHDUNE_PARTS_H
#define THRESHDUNE_PARTS_H

#include "threshdune.h"

#include <stdbool.h>

#ifdef __cplusplus
extern "C" {
#endif

/* ---- numbers */

/* The double nearest to the root of x; +0.0 at or below 0, of minus infinity too; plus infinity and
 * a NaN as they are. */
double threshdune_root(double x);
/* Whether x is neither a NaN nor an infinity. */
bool threshdune_is_finite(double x);
/* x without its sign. */
double threshdune_size(double x);
/* Whether the size of x is that of y or stands after it in IEEE 754's totalOrder: a NaN stands
 * after every number, and two of them tie. */
bool threshdune_at_least(double x, double y);
/* lo where x is below it, else x; then hi where that is above it. A zero keeps its sign, and a NaN
 * stays. */
double threshdune_clamp(double x, double lo, double hi);

/* ---- values with partials
 *
 * A value with partials is given as a slice, its value and then its partials, and as their count. A
 * count above 27 reads as 27, and what lies past the slice's end as +0.0.
 * Room: 28 doubles in `out`, the value and 27 partials (+0.0 past the count); `count` is the count.
 * Refusal: 14.
 */
#define THRESHDUNE_PARTIALS 28

/* Variable i of xs: xs[i] with i + 1 partials, the last of them 1; above index 26, or past the
 * slice, +0.0 with no partials. */
uint64_t threshdune_partials_var(const double *xs, size_t xs_len, uint64_t i, double *out,
                                 size_t out_len, uint64_t *count);
/* a + b, a - b, a * b, a / b, -a. */
uint64_t threshdune_partials_add(const double *a, size_t a_len, uint64_t a_count, const double *b,
                                 size_t b_len, uint64_t b_count, double *out, size_t out_len,
                                 uint64_t *count);
uint64_t threshdune_partials_sub(const double *a, size_t a_len, uint64_t a_count, const double *b,
                                 size_t b_len, uint64_t b_count, double *out, size_t out_len,
                                 uint64_t *count);
uint64_t threshdune_partials_mul(const double *a, size_t a_len, uint64_t a_count, const double *b,
                                 size_t b_len, uint64_t b_count, double *out, size_t out_len,
                                 uint64_t *count);
uint64_t threshdune_partials_div(const double *a, size_t a_len, uint64_t a_count, const double *b,
                                 size_t b_len, uint64_t b_count, double *out, size_t out_len,
                                 uint64_t *count);
uint64_t threshdune_partials_neg(const double *a, size_t a_len, uint64_t a_count, double *out,
                                 size_t out_len, uint64_t *count);
/* The root of a; at or below 0 it is +0.0 with no partials. */
uint64_t threshdune_partials_root(const double *a, size_t a_len, uint64_t a_count, double *out,
                                  size_t out_len, uint64_t *count);
/* How far t lies outside lo to hi: t - lo below lo, t - hi above hi, else +0.0 with no partials. */
uint64_t threshdune_partials_overshoot(const double *t, size_t t_len, uint64_t t_count, double lo,
                                       double hi, double *out, size_t out_len, uint64_t *count);
/* Whether the value and each counted partial is finite. */
bool threshdune_partials_is_fine(const double *a, size_t a_len, uint64_t a_count);

/* ---- vectors of the plane
 *
 * Room: 2 doubles in `out`, x and y. Refusal: 14.
 */

uint64_t threshdune_plane_add(double ax, double ay, double bx, double by, double *out,
                              size_t out_len);
uint64_t threshdune_plane_sub(double ax, double ay, double bx, double by, double *out,
                              size_t out_len);
uint64_t threshdune_plane_scale(double ax, double ay, double k, double *out, size_t out_len);
/* a over its length; (1, 0) where its length, multiplied by itself, is below 1e-24. */
uint64_t threshdune_plane_unit(double ax, double ay, double *out, size_t out_len);
/* a turned by 90 degrees counter-clockwise: -ay and ax, a zero's sign with the others. */
uint64_t threshdune_plane_rot90(double ax, double ay, double *out, size_t out_len);
/* The inner product; the outer product, ax * by - ay * bx; the length. */
double threshdune_plane_dot(double ax, double ay, double bx, double by);
double threshdune_plane_cross(double ax, double ay, double bx, double by);
double threshdune_plane_norm(double ax, double ay);
/* The distance of two points, by which the closest parameter is searched: as the length of their
 * difference, but that nothing vanishes or overflows on the way, since the difference is scaled by a
 * power of two before it is squared. Not finite where a difference is not, or where it is too large. */
double threshdune_distance(double ax, double ay, double bx, double by);

/* ---- vectors with partials
 *
 * A vector with partials is given as a slice, 28 doubles for x and then 28 for y, each a value and
 * its partials, and as a slice of their two counts; a missing count reads as 0.
 * Room: 56 doubles in `out`, 2 counts in `counts`; for dot, cross and norm, which answer one value
 * with partials, 28 doubles and a `count`. Refusal: 14.
 */

uint64_t threshdune_plane_partials_add(const double *a, size_t a_len, const uint64_t *a_counts,
                                       size_t a_counts_len, const double *b, size_t b_len,
                                       const uint64_t *b_counts, size_t b_counts_len, double *out,
                                       size_t out_len, uint64_t *counts, size_t counts_len);
uint64_t threshdune_plane_partials_sub(const double *a, size_t a_len, const uint64_t *a_counts,
                                       size_t a_counts_len, const double *b, size_t b_len,
                                       const uint64_t *b_counts, size_t b_counts_len, double *out,
                                       size_t out_len, uint64_t *counts, size_t counts_len);
/* k times a, where k is a value with partials. */
uint64_t threshdune_plane_partials_scale(const double *a, size_t a_len, const uint64_t *a_counts,
                                         size_t a_counts_len, const double *k, size_t k_len,
                                         uint64_t k_count, double *out, size_t out_len,
                                         uint64_t *counts, size_t counts_len);
uint64_t threshdune_plane_partials_unit(const double *a, size_t a_len, const uint64_t *a_counts,
                                        size_t a_counts_len, double *out, size_t out_len,
                                        uint64_t *counts, size_t counts_len);
uint64_t threshdune_plane_partials_rot90(const double *a, size_t a_len, const uint64_t *a_counts,
                                         size_t a_counts_len, double *out, size_t out_len,
                                         uint64_t *counts, size_t counts_len);
uint64_t threshdune_plane_partials_dot(const double *a, size_t a_len, const uint64_t *a_counts,
                                       size_t a_counts_len, const double *b, size_t b_len,
                                       const uint64_t *b_counts, size_t b_counts_len, double *out,
                                       size_t out_len, uint64_t *count);
uint64_t threshdune_plane_partials_cross(const double *a, size_t a_len, const uint64_t *a_counts,
                                         size_t a_counts_len, const double *b, size_t b_len,
                                         const uint64_t *b_counts, size_t b_counts_len, double *out,
                                         size_t out_len, uint64_t *count);
uint64_t threshdune_plane_partials_norm(const double *a, size_t a_len, const uint64_t *a_counts,
                                        size_t a_counts_len, double *out, size_t out_len,
                                        uint64_t *count);

/* ---- the basis with partials
 *
 * The four cubic basis functions that are not zero on a span, at t, with their derivatives up to
 * the order. The span is given by the six knots that it reads, for span i those from knot i - 2 to
 * knot i + 3: w holds six values with partials, one behind the other, 28 doubles to each, and
 * w_counts their counts; a missing count reads as 0. Nothing is asked of the knots, and any order
 * may be asked for.
 * Room: 560 doubles in `out`, twenty values with partials one behind the other, and their 20 counts
 * in `counts`. Value 4 * k + j is the derivative of order k, 0 to 4, of function j. Those of orders
 * above the one asked for, and of order 4, are +0.0 with no partials. Refusal: 14.
 */
#define THRESHDUNE_BASIS 560

uint64_t threshdune_partials_basis(const double *w, size_t w_len, const uint64_t *w_counts,
                                   size_t w_counts_len, const double *t, size_t t_len,
                                   uint64_t t_count, uint64_t order, double *out, size_t out_len,
                                   uint64_t *counts, size_t counts_len);

/* ---- curves as records
 *
 * A record has room for 66 control points and 70 knots, two counts that say how many there are, and
 * the length of its control polygon. It is given as the counts, the length and three slices: the x,
 * the y, the knots. What lies past a slice's end reads as +0.0, what lies past the room is not
 * read, and what lies past a count does not matter. The length of a curve that was built is what
 * threshdune_length answers of the coordinates and knots that the build wrote.
 * Each function checks the record again, whatever its counts say, by 2 to 4 and 6 to 11, and then
 * by 17: `length` is not finite, or has not the bits of the sum over the counted control points, as
 * threshdune_length has it; -0.0 is refused where the sum is +0.0. Then the function answers, or
 * refuses, as its namesake in threshdune.h does, and needs the same room.
 */

uint64_t threshdune_record_evaluate(uint64_t points, uint64_t knot_count, double length,
                                    const double *xs, size_t xs_len, const double *ys,
                                    size_t ys_len, const double *knots, size_t knots_len, double t,
                                    uint64_t order, double *out, size_t out_len);
uint64_t threshdune_record_evaluate_many(uint64_t points, uint64_t knot_count, double length,
                                         const double *xs, size_t xs_len, const double *ys,
                                         size_t ys_len, const double *knots, size_t knots_len,
                                         const double *ts, size_t ts_len, uint64_t order,
                                         double *out, size_t out_len, uint64_t *refusals,
                                         size_t refusals_len);
uint64_t threshdune_record_point_tangent(uint64_t points, uint64_t knot_count, double length,
                                         const double *xs, size_t xs_len, const double *ys,
                                         size_t ys_len, const double *knots, size_t knots_len,
                                         double t, double *out, size_t out_len);
/* The length as it is stored, which has the bits of the sum. Refusals: the record's alone. */
uint64_t threshdune_record_length(uint64_t points, uint64_t knot_count, double length,
                                  const double *xs, size_t xs_len, const double *ys, size_t ys_len,
                                  const double *knots, size_t knots_len, double *answer);
uint64_t threshdune_record_domain(uint64_t points, uint64_t knot_count, double length,
                                  const double *xs, size_t xs_len, const double *ys, size_t ys_len,
                                  const double *knots, size_t knots_len, double *from, double *to);
uint64_t threshdune_record_samples(uint64_t points, uint64_t knot_count, double length,
                                   const double *xs, size_t xs_len, const double *ys, size_t ys_len,
                                   const double *knots, size_t knots_len, uint64_t per_span,
                                   double *out, size_t out_len, uint64_t *count);
uint64_t threshdune_record_closest(uint64_t points, uint64_t knot_count, double length,
                                   const double *xs, size_t xs_len, const double *ys, size_t ys_len,
                                   const double *knots, size_t knots_len, double px, double py,
                                   double *t);
uint64_t threshdune_record_closest_many(uint64_t points, uint64_t knot_count, double length,
                                        const double *xs, size_t xs_len, const double *ys,
                                        size_t ys_len, const double *knots, size_t knots_len,
                                        const double *marks, size_t marks_len, double *out,
                                        size_t out_len, uint64_t *refusals, size_t refusals_len);

/* The record with control point `index`, counted from 0, at (x, y). The counts and knots stay as
 * they are; what is answered are the coordinates, the x in `xs_out` and the y in `ys_out`, and the
 * new length. A record of these passes every check.
 * Room: `points` doubles in each of the two slices. Refusals: the record's, 11 for x and y too, 17
 * also where the index is not below `points`, 14 for either slice, 15 where the new length is not
 * finite. */
uint64_t threshdune_record_move(uint64_t points, uint64_t knot_count, double length,
                                const double *xs, size_t xs_len, const double *ys, size_t ys_len,
                                const double *knots, size_t knots_len, uint64_t index, double x,
                                double y, double *xs_out, size_t xs_out_len, double *ys_out,
                                size_t ys_out_len, double *length_out);

#ifdef __cplusplus
}
#endif

#endif
