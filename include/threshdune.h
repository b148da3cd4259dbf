/* Threshdune for C: plane cubic B-splines. threshdune_parts.h has what curves are made of.
 *
 * The functions are those of the crate `threshdune`, and each is proved to meet its contract
 * (crates/threshdune/src/lib.rt). docs/RULES.md says what they compute; which operations are made,
 * and in which order, the original's spline.rs decides (NOTICE). The archive is libthreshdune.a. It
 * calls nothing but memcpy and memset.
 *
 * Slices. A slice is a pointer and the number of its entries. With no entries the pointer may be
 * null: nothing is read or written through it. The other pointers (`length`, `from`, `to`, `t`,
 * `count`, `answer`, `length_out`) are never null. What is lent for writing overlaps nothing else
 * that the call is given.
 *
 * Refusals. Where a function answers a uint64_t it is a refusal, and 0 is none. The rows are tried
 * from the top, and the first that applies is the answer:
 *
 *     1  a slice of coordinates has an odd number of entries
 *     2  there are fewer than 2 points
 *     3  there are 2 or 3 control points
 *     4  there are over 66 control points, or over 64 fit points, or over 12 handles of residuals
 *     5  knots are given with fit points (of residuals; no other function here takes both)
 *     6  the knots are not 4 more than the control points
 *     7  a knot is not finite, or is less than the one before
 *     8  the first four knots are not equal, or the last four
 *     9  the first knot is not below the last
 *    10  one of the knots 4 to n - 1, counted from 0, stands more than 3 times in the list
 *    11  a coordinate is not finite, of the curve's points or of the point searched for or moved
 *    17  of records alone (threshdune_parts.h): the stored length is not finite or has not the bits
 *        of the polygon's, or the index of the point to be moved is not below the count
 *    12  the parameter is not finite
 *    13  the order is above 4, or there are over 16 samples to a span
 *    14  a slice for the answer or for work is too short
 *    15  an outcome is not finite (docs/RULES.md, "When 15 is given")
 *
 * Buffers. A refused call writes no answer: what is lent for it is as it was. A call that answers
 * writes as many entries as its comment says, from the first on, and leaves the rest of the slice.
 * A work buffer is written by a fit that is refused 15, too: it holds zeros then (see there).
 *
 * Curves. A curve is given as its control points, x and y in turn, and its knots: n points, 4 to
 * 66, are 2 * n doubles, and n + 4 knots belong to them. Whoever made it, a function that is asked
 * about a curve checks it again, by 1 to 4 and 6 to 11. The comments name what may follow.
 */
#ifndef THRESHDUNE_H
#define THRESHDUNE_H

#include <stddef.h>
#include <stdint.h>

#ifdef __cplusplus
extern "C" {
#endif

#define THRESHDUNE_NO_ROOM 14 /* a slice is too short */

/* ---- making a curve
 *
 * A build is refused 15 where the length of the control polygon is not finite: one edge of 1.35e154
 * makes it so, since its square overflows; one of 1.34e154 does not. threshdune_length of the
 * coordinates and knots that a build wrote gives that length, with the bits that a record of the
 * curve has to store (threshdune_parts.h).
 */

/* The curve of n control points, x and y in turn: over `knots` where `given` is not 0, else over
 * uniform ones, and `knots` is not read then.
 * Room: 2 * n doubles in `control`, x and y in turn; n + 4 in `knots_out`.
 * Refusals: 1 to 4, 6 to 11 (6 to 10 of given knots alone), 14, 15. */
uint64_t threshdune_build_control(const double *coords, size_t coords_len, uint64_t given,
                                  const double *knots, size_t knots_len, double *control,
                                  size_t control_len, double *knots_out, size_t knots_out_len);

/* The curve through n fit points, x and y in turn, 2 to 64 of them; it has m = n + 2 control
 * points.
 * Room: 2 * m doubles in `control`, x and y in turn; m + 4 in `knots_out`; m * m + 2 * m in `work`,
 * which is THRESHDUNE_FIT_WORK(n): 4488 for 64 points. The work buffer may hold anything. After an
 * answer, and after 15, that part of it holds zeros; any other refusal leaves it as it was. What
 * lies past that part is never touched.
 * Refusals: 1, 2, 4, 11, 14 for any of the three slices, 15. */
uint64_t threshdune_build_fit(const double *coords, size_t coords_len, double *work,
                              size_t work_len, double *control, size_t control_len,
                              double *knots_out, size_t knots_out_len);
#define THRESHDUNE_FIT_WORK(n) (((n) + 2) * ((n) + 4)) /* m * m + 2 * m for m = n + 2 */

/* ---- what is asked of a curve */

/* The point at t and its derivatives up to the order, 0 to 4. Past the ends of its domain a curve
 * goes on straight.
 * Room: 2 * (order + 1) doubles in `out`, x and y in turn. Refusals: 12, 13, 14, 15. */
uint64_t threshdune_evaluate(const double *coords, size_t coords_len, const double *knots,
                             size_t knots_len, double t, uint64_t order, double *out,
                             size_t out_len);

/* The same at many parameters, in one call that checks the curve once. Those of parameter k stand
 * from out[k * 2 * (order + 1)] on, and its refusal, 0 or 12 or 15, at refusals[k]; where that is
 * not 0 its place in `out` is as it was. With no parameters nothing is written.
 * Room: ts_len * 2 * (order + 1) doubles in `out`, ts_len numbers in `refusals`. Refusals of the
 * whole call: 13, 14 for either slice. */
uint64_t threshdune_evaluate_many(const double *coords, size_t coords_len, const double *knots,
                                  size_t knots_len, const double *ts, size_t ts_len,
                                  uint64_t order, double *out, size_t out_len, uint64_t *refusals,
                                  size_t refusals_len);

/* The point at t and the unit tangent, which is (1, 0) where the derivative has no direction: where
 * its length, multiplied by itself, is below 1e-24.
 * Room: 4 doubles in `out`. Refusals: 12, 14, 15. */
uint64_t threshdune_point_tangent(const double *coords, size_t coords_len, const double *knots,
                                  size_t knots_len, double t, double *out, size_t out_len);

/* The length of the control polygon: from +0.0, in rising order, the threshdune_plane_norm of the
 * difference of each control point and the one before. Refusal: 15, but never of what a build
 * wrote. */
uint64_t threshdune_length(const double *coords, size_t coords_len, const double *knots,
                           size_t knots_len, double *length);

/* The first knot and the last. No refusal but the curve's. */
uint64_t threshdune_domain(const double *coords, size_t coords_len, const double *knots,
                           size_t knots_len, double *from, double *to);

/* Parameters for drawing: `per_span` of them, 0 to 16, from the start of each rising pair of knots
 * on, and last the domain's end. `count` is how many there are.
 * Room: as many doubles in `out`, at most (n - 3) * per_span + 1 for n control points, and never
 * more than 1009. Refusals: 13, 14, 15. */
uint64_t threshdune_samples(const double *coords, size_t coords_len, const double *knots,
                            size_t knots_len, uint64_t per_span, double *out, size_t out_len,
                            uint64_t *count);

/* The parameter of the curve's point that lies nearest to (px, py), as far as 16 samples to a span
 * and then at most 30 of Newton's rounds find it. Refusals: 11 for the point too, 15. */
uint64_t threshdune_closest(const double *coords, size_t coords_len, const double *knots,
                            size_t knots_len, double px, double py, double *t);

/* The same for many points, x and y in turn, in one call that checks the curve once. The parameter
 * of point k stands at out[k], and its refusal, 0 or 11 or 15, at refusals[k]; where that is not 0
 * its place in `out` is as it was. With no points nothing is written.
 * Room: points_len / 2 doubles in `out`, as many numbers in `refusals`. Refusals of the whole call:
 * 1 where points_len is odd, 14 for either slice. */
uint64_t threshdune_closest_many(const double *coords, size_t coords_len, const double *knots,
                                 size_t knots_len, const double *points, size_t points_len,
                                 double *out, size_t out_len, uint64_t *refusals,
                                 size_t refusals_len);

/* ---- a point held on a curve */

/* How far the point (px, py) lies from the curve at t, and how that moves with every number. The
 * curve is that of n handles, x and y in turn, at most 12: through them where `fit` is not 0, else
 * with them as control points, over `knots` where `given` is not 0, else over uniform ones, and
 * `knots` is not read then.
 * residuals: px - C(t).x, py - C(t).y, and how far t lies past the domain, 0 inside it.
 * rows: for each of the three its c = 2 * n + 3 partials, with respect to the numbers of the
 * handles in their order, px, py and t.
 * Room: 3 doubles in `residuals`, 3 * c in `rows`. Work for fit points: (n + 2) * (n + 4) bytes in
 * `counts`, and (n + 2) * (n + 4) * (c + 1) doubles in `work`; for control points none. Once 1 to
 * 14 do not apply, that part of both holds zeros afterwards, and the rest is as it was.
 * Refusals: 1 to 11 by the form, 4 over 12 handles, 11 for the point too, 12, 14 for each of the
 * four, 15 for a number or a partial that the fit stores or that is answered. No length is stored
 * here, and none is judged. */
uint64_t threshdune_residual(const double *handles, size_t handles_len, uint64_t fit,
                             uint64_t given, const double *knots, size_t knots_len, double px,
                             double py, double t, double *work, size_t work_len, uint8_t *counts,
                             size_t counts_len, double *residuals, size_t residuals_len,
                             double *rows, size_t rows_len);

#ifdef __cplusplus
}
#endif

#endif
