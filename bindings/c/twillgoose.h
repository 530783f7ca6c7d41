/* Twillgoose: sheets of SVG filter steps drawn into buffers that the caller lends.
 *
 * Link crates/capi/out/libcapi.a, which `rt lib` in crates/capi writes.
 *
 * The rules have a number, TWILLGOOSE_RULES here and twillgoose_rules() in the library, which rises whenever an answer or
 * a pixel changes: compare pictures only if both were drawn under the same number.
 *
 * A picture of W by H pixels (1 to 1,024 each) has 4 * W * H bytes: rows from top to bottom, four bytes R, G, B, A a
 * pixel, premultiplied (no colour above its alpha). A sheet has 1 to 64 steps, numbered from 0; step n draws layer n,
 * and the workspace holds the layers one after another: 4 * W * H bytes for each step, up to 256 * W * H.
 *
 * A slice is a pointer and its length in bytes. Every length and every number is checked: what does not fit is refused,
 * and a refused render or redraw changes no byte of any slice. What the library cannot check is the caller's part: a
 * pointer is not null, not even with length 0, and has that many bytes behind it, and what is written does not overlap
 * anything else that is passed. Nothing is allocated; a call uses up to 600 KB of stack,
 * twillgoose_sheet up to 520 KB.
 *
 * Steps are lines of text, each closed by a line feed, their fields parted by one tab: kind, x, y, width, height of its
 * region, inputs (src, alpha, or the number of an earlier step), numbers, and optionally the space that it works in:
 *
 *     flood     R G B opacity           bytes; 0 to 1
 *     offset    input dx dy             whole, -1024 to 1024
 *     blur      input sx sy             0 to 32
 *     erode     input rx ry             whole, 0 to 64
 *     dilate    input rx ry             whole, 0 to 64
 *     matrix    input m1 .. m20         four rows of five, -256 to 256
 *     saturate  input s                 0 to 1
 *     lumalpha  input
 *     curve     input, then a transfer for each of R, G, B and A:
 *               identity
 *               table n v1 .. vn        n of 1 to 16; 0 to 1, straight lines between them
 *               discrete n v1 .. vn     n of 1 to 16; 0 to 1, steps
 *               linear slope intercept  -256 to 256
 *     over, in, out, atop, xor          top bottom
 *     arith     input input k1 .. k4    -256 to 256
 *     merge     1 to 4 inputs           bottom first
 *     conv      input, order across, order down (1 to 5), the kernel's values by rows, divisor (empty: the values' sum, or
 *               1 where that is 0), bias, target across, target down (inside the kernel), true or false (whether alpha is
 *               preserved), duplicate, wrap or none (what is read beyond the canvas); values, divisor, bias -256 to 256
 *
 * The space is srgb or linear; without that last field a step works in linear light. The source is sRGB. Each layer is
 * kept in its step's space, and its bytes in the workspace are in it: a step of the other space reads them converted, and
 * so must whoever shows them. With srgb on every step nothing is converted. A curve's space stands after the fourth
 * transfer, its own linear is never taken for it; a conv's after the edge mode. No field but a conv's divisor may be empty.
 *
 * Whole fields (the region, a step's number, a flood's bytes, a count n, orders, targets) have 1 to 4 digits, no sign and
 * no leading zeros. A number is an optional minus, 1 to 5 digits without leading zeros, optionally a point and 1 to 4
 * digits; or x and the eight lower-case hexadecimal digits of a single. It is checked as it stands, then rounded to the
 * nearest 1/65,536. A single halfway between two goes to the even one; no decimal lies there.
 *
 * Answers, in the order of checking. The place is 0 unless said:
 *
 *      0  done
 *     15  a step line is not of the form; so are a sixty-fifth line,    place: the line, from 1
 *         a flood's byte above 255, a merge of 0 or 5 inputs, a count
 *         n of 0 or above 16, an order of 0 or above 5, another word
 *         for a transfer, alpha, the edge or the space
 *      1  width or height is 0 or above 1,024
 *      2  the source is not 4 * W * H bytes
 *      3  no step
 *      4  the workspace is not 4 * W * H * steps bytes
 *      5  the scratch buffer is not 8 * W * H bytes
 *      6  redraw: the rectangle is not inside the canvas
 *      7  an input is not the source, its alpha or an earlier step      place: the step
 *     17  a conv's target is not inside its kernel                      place: the step
 *      8  a number is not a number, or infinite                         place: the step
 *      9  a number below zero whose range starts at 0                   place: the step
 *     10  a number outside its range otherwise                          place: the step
 *     11  a number that must be whole and is not                        place: the step
 *     12  retired: never given, and not used again
 *     17  a conv's divisor is given and rounds to 0                     place: the step
 *     13  a region leaves the canvas                                    place: the step
 *     14  a colour exceeds its alpha: in the source, then in a          place: the pixel, from 0
 *         redraw in the workspace
 *
 * Two numbers cannot be met here, where steps are lines: 16, which a step record with a table of 0 or more than 16 entries
 * is refused with after 7, and 21, which readers of lists of step records give after 15.
 */
#ifndef TWILLGOOSE_H
#define TWILLGOOSE_H

#include <stddef.h>
#include <stdint.h>

#ifdef __cplusplus
extern "C" {
#endif

/* The rules that this header describes. */
#define TWILLGOOSE_RULES 7

enum {
    TWILLGOOSE_DONE = 0,
    TWILLGOOSE_CANVAS = 1,
    TWILLGOOSE_SOURCE = 2,
    TWILLGOOSE_STEP_COUNT = 3,
    TWILLGOOSE_WORKSPACE = 4,
    TWILLGOOSE_SCRATCH = 5,
    TWILLGOOSE_RECTANGLE = 6,
    TWILLGOOSE_INPUT = 7,
    TWILLGOOSE_NOT_FINITE = 8,
    TWILLGOOSE_NEGATIVE = 9,
    TWILLGOOSE_OUT_OF_RANGE = 10,
    TWILLGOOSE_NOT_WHOLE = 11,
    TWILLGOOSE_OUTSIDE_CANVAS = 13,
    TWILLGOOSE_ABOVE_ALPHA = 14,
    TWILLGOOSE_LINE = 15,
    TWILLGOOSE_KERNEL = 17
};

/* Draws every layer of the steps on the picture in `source`. Returns the number and stores the place. Done: `workspace`
 * holds the layers, each a valid picture in its step's space, and `scratch` is all zero. Refused: both are as they were. */
uint64_t twillgoose_render(size_t width, size_t height,
                           const uint8_t *steps, size_t steps_length,
                           const uint8_t *source, size_t source_length,
                           uint8_t *workspace, size_t workspace_length,
                           uint8_t *scratch, size_t scratch_length,
                           uint64_t *place);

/* Brings the layers in `workspace` up to date with `source`, where it has changed inside the rectangle only. Returns the
 * number, stores the place, and the count of pixels worked (0 when refused). Done: if `workspace` held the layers of a
 * picture that differs from `source` inside the rectangle only, it now holds those of `source`, as a full render draws
 * them; whatever it held, no pixel outside the part that the steps derive from the rectangle is altered; `scratch` is all
 * zero. Refused: both are as they were. The rectangle may be empty, and lies inside the canvas all the same. */
uint64_t twillgoose_redraw(size_t width, size_t height,
                           const uint8_t *steps, size_t steps_length,
                           size_t x, size_t y, size_t rect_width, size_t rect_height,
                           const uint8_t *source, size_t source_length,
                           uint8_t *workspace, size_t workspace_length,
                           uint8_t *scratch, size_t scratch_length,
                           uint64_t *place, uint64_t *count);

/* Where layer n lies in a workspace of so many bytes: returns its length, 4 * W * H, and stores the offset of its first
 * byte. Both are 0 where the canvas, the count of steps or the length is not valid, or there is no such layer. The bytes
 * are in the space of step n. */
uint64_t twillgoose_layer(size_t width, size_t height, size_t steps, size_t n, size_t workspace_length,
                          uint64_t *offset);

/* Answers a whole sheet as text (a `canvas` line with two sides of 0 to 16, steps, rows of pixels), as the program `sheet`
 * does: `ok` and the last layer as rows, in sRGB whatever its step's space, or `refused`, number and place. A text over
 * 65,536 bytes is refused with 15 at place 0. Returns the length of the answer, a refusal's too, which is stored at the
 * start of `out` where it fits; otherwise `out` is as it was. 2,371 bytes are enough for every answer. */
uint64_t twillgoose_sheet(const uint8_t *text, size_t text_length,
                          uint8_t *out, size_t out_length);

/* The number of the rules that the library was built with. */
uint64_t twillgoose_rules(void);

#ifdef __cplusplus
}
#endif

#endif
