/* The composer's calls for C. Link with target/staticlib/libcapi.a, which `tools/staticlib` proves and writes.
 *
 * Each call has a contract in crates/capi/src, for every input; what is said here is short for it. A call takes any
 * bytes. It reads and writes only what it is lent, allocates nothing and keeps nothing. A part of length 0 may have
 * any pointer, NULL too, and a part that is written overlaps no other.
 * A call takes at most 46 KiB of stack.
 *
 * A record is a picture, a tray several of them, as document 01 sets them out ("What is handed in").
 */
#ifndef COMPOSE_H
#define COMPOSE_H

#include <stddef.h>
#include <stdint.h>

#ifdef __cplusplus
extern "C" {
#endif

/* The version of these calls: major * 10000 + minor * 100 + patch, as the crate's in rust/Cargo.toml is. It grows when a
 * call is added or changed. */
#define COMPOSE_API_VERSION 600

/* Every call answers a number of 64 bits. Below 2^63 it is a length, a count, or 0 where there is none; from there on
 * it is a refusal, and then nothing was written: 2^63, and in bits 0 to 7 its number, in bits 8 to 15 the sort of the item
 * whose own refusal it is, in bits 16 to 55 the item's index, from 0 (one above 2^40 - 1 as that number). */
#define COMPOSE_REFUSED UINT64_C(0x8000000000000000)

/* Whether an answer is a refusal. */
#define COMPOSE_IS_REFUSAL(answer) ((answer) >= COMPOSE_REFUSED)

/* The number of a refusal, the sort of its item, and the item's index. compose_sentence takes all three. */
#define COMPOSE_REFUSAL(answer) ((int)((answer) & 0xff))
#define COMPOSE_SORT(answer) ((int)((answer) >> 8 & 0xff))
#define COMPOSE_INDEX(answer) ((uint64_t)(answer) >> 16 & UINT64_C(0xffffffffff))

/* The refusals (document 01, "Refusals in order"; document 02, A4, for 19). */
enum compose_refusal {
    COMPOSE_SHORT = 1,      /* a descriptor body is empty or cut short */
    COMPOSE_VERSION = 2,    /* a descriptor's version is not 0 */
    COMPOSE_EMPTY = 3,      /* a side is 0 */
    COMPOSE_LIMIT = 4,      /* above a limit */
    COMPOSE_MALFORMED = 5,  /* malformed bytes */
    COMPOSE_DEPTH = 6,      /* a depth outside 8 to 16 */
    COMPOSE_ZERO = 7,       /* a zero term of a fraction */
    COMPOSE_FRACTION = 8,   /* a size or an edge that is no whole number */
    COMPOSE_OUTSIDE = 9,    /* a rectangle outside its picture, or margins that are not its own */
    COMPOSE_SCALE = 10,     /* a scaled side above 2^32 - 1 */
    COMPOSE_COUNT = 11,     /* a count or an index that differs */
    COMPOSE_COVER = 12,     /* tiles that do not cover the canvas */
    COMPOSE_TILE = 13,      /* a tile of another size */
    COMPOSE_LAYOUT = 14,    /* another chroma or depth */
    COMPOSE_MISSING = 15,   /* no inputs, nothing placed, or a cell missing */
    COMPOSE_OPACITY = 16,   /* an alpha sample above top */
    COMPOSE_ROOM = 17,      /* a lent buffer that is too short */
    COMPOSE_POINT = 18,     /* no point answer */
    COMPOSE_TILING = 19     /* rows or columns of tiles outside 1 to 256 */
};

/* The sorts of items. A call on a tray (compose_tray; grids, overlays, their scenes, room and points) says which record it
 * refuses: by the record's own refusal, where the tray lacks it, too; by 13, 14 or 16; by 18 as an input with alpha. A call
 * on a chain (compose_chain, compose_transforms; scenes, room and points) says which entry: by its form, where the chain
 * lacks it, too, and when it is applied. Every entry counts, also one that is skipped. All else is of no item: counts, bytes
 * left over, bodies, 11, 12, 15, 17, 18 for a place, the one record of compose_transforms, and the refusals of other calls. */
enum compose_sort {
    COMPOSE_NO_ITEM = 0,
    COMPOSE_RECORD = 1,     /* a record of the tray */
    COMPOSE_ENTRY = 2       /* an entry of the chain */
};

/* The languages of sentences. */
enum compose_language {
    COMPOSE_GERMAN = 0,
    COMPOSE_ENGLISH = 1
};

/* No sentence has more bytes. */
#define COMPOSE_SENTENCE 192

/* The sentence of a refusal, in UTF-8 with no 0 behind it, at the start of `out`; what is past it stays. It is the number,
 * the reason, and the item with its index; with COMPOSE_NO_ITEM the index is not looked at. Answers its length. Refusals: 5
 * a number, a sort or a language that there is not; 17 an `out` that is shorter. */
uint64_t compose_sentence(uint32_t number, uint8_t sort, uint64_t index, uint8_t language, uint8_t *out, size_t out_len);

/* What a record says, in 17 words: width, height, chroma, depth, alpha; then of luma, Cb, Cr and alpha each where its
 * bytes start, how many they are, and its stride. Answers 0. Refusals: the record's; 17 an answer below 17 words. */
uint64_t compose_record(const uint8_t *record, size_t record_len, uint64_t *answer, size_t answer_len);

/* How many records a tray has. Refusals: the tray's. */
uint64_t compose_tray(const uint8_t *tray, size_t tray_len);

/* What a grid's descriptor body says, in 4 words: rows, columns, width, height. Answers 0. Refusals: the body's; 17 an
 * answer below 4 words. */
uint64_t compose_grid_descriptor(const uint8_t *body, size_t body_len, uint64_t *answer, size_t answer_len);

/* What the descriptor body of an overlay of so many inputs says, in 6 words: the fill's red, green, blue and alpha,
 * width, height. Answers 0. Refusals: the body's; 17 an answer below 6 words. */
uint64_t compose_overlay_descriptor(const uint8_t *body, size_t body_len, uint32_t count, uint64_t *answer,
                                    size_t answer_len);

/* Where an input of an overlay goes, in 4 words: how far right and how far left of the canvas edge, then how far below
 * and how far above it; of each pair one is 0. Answers 0. Refusals: the body's; 11 an index outside; 17 an answer below
 * 4 words. */
uint64_t compose_overlay_offset(const uint8_t *body, size_t body_len, uint32_t count, uint32_t index, uint64_t *answer,
                                size_t answer_len);

/* Where all inputs of an overlay go, in list order, in 4 words each, as compose_overlay_offset has them. Answers 0.
 * Refusals: the body's; 17 an answer below 4 * count words. */
uint64_t compose_overlay_offsets(const uint8_t *body, size_t body_len, uint32_t count, uint64_t *answer,
                                 size_t answer_len);

/* A descriptor body written from its fields (document 02, A4), at the start of `out`; what is past it stays. Sizes and
 * offsets have 16 bits where every size is at most 65,535 and every offset lies from -32,768 to 32,767, else 32. Each
 * answers the body's length. 17, the last refusal of each: `out` is shorter than the body. */

/* The body of a grid, of 8 or 12 bytes. Refusals: 19 rows or columns outside 1 to 256; 3 a side 0; 4 above 2^30 pixels;
 * 17. */
uint64_t compose_write_grid(uint32_t rows, uint32_t columns, uint32_t width, uint32_t height, uint8_t *out,
                            size_t out_len);

/* The body of an overlay, of 14 + 4 * inputs or 18 + 8 * inputs bytes: its fill, its canvas, and of each input in turn two
 * words of `offsets`, how far right of and how far below the canvas's corner it goes, each the unsigned pattern of a signed
 * number. A last word without a partner is not looked at. Refusals: 3 a side 0; 4 above 2^30 pixels; 4 above 65,536 inputs;
 * 15 no inputs; 17. */
uint64_t compose_write_overlay(uint16_t red, uint16_t green, uint16_t blue, uint16_t alpha, uint32_t width,
                               uint32_t height, const uint32_t *offsets, size_t offsets_len, uint8_t *out,
                               size_t out_len);

/* How many entries a chain has. Refusals: the chain's. */
uint64_t compose_chain(const uint8_t *chain, size_t chain_len);

/* The rectangle that a clap property cuts out of a size and the margins about it, in 8 words: x, y, width, height, left,
 * top, right, bottom. Left is x and top is y; left + width + right is the size's width, top + height + bottom its height.
 * Answers 0. Refusals: clap's; 17 an answer below 8 words. */
uint64_t compose_clap_resolve(uint32_t width_n, uint32_t width_d, uint32_t height_n, uint32_t height_d,
                              uint32_t horiz_off_n, uint32_t horiz_off_d, uint32_t vert_off_n, uint32_t vert_off_d,
                              uint32_t width, uint32_t height, uint32_t *answer, size_t answer_len);

/* The size that an iscl property makes of a size, in 2 words: width, height. Answers 0. Refusals: iscl's; 17 an answer
 * below 2 words. */
uint64_t compose_iscl_size(uint16_t width_num, uint16_t width_den, uint16_t height_num, uint16_t height_den,
                           uint32_t width, uint32_t height, uint32_t *answer, size_t answer_len);

/* The text that the steps program prints for an input, at the start of `out`. Answers its length. Refusal: 17 an `out`
 * that is shorter. */
uint64_t compose_steps(const uint8_t *input, size_t input_len, uint8_t *out, size_t out_len);

/* The samples of a fill colour, in 3 words. Colour 0 is no description, and then matrix and range say nothing; a full
 * range of 0 is the studio range. Answers 0. Refusals: 6 a depth outside 8 to 16; 17 an answer below 3 words. */
uint64_t compose_fill(uint16_t red, uint16_t green, uint16_t blue, uint32_t depth, uint8_t colour, uint16_t matrix,
                      uint8_t full_range, uint16_t *answer, size_t answer_len);

/* One operation on one record. Each writes a record at the start of `out`, leaves what is past it, and answers its
 * length. 17, the last refusal of each: `out` is shorter than that record. */

/* The part of a record in a rectangle, with the margins about it, as compose_clap_resolve answers them. Refusals: the
 * record's; 9 a side 0, left not x, top not y, left + width + right not the record's width, or top + height + bottom not
 * its height; 17. */
uint64_t compose_crop(const uint8_t *record, size_t record_len, uint32_t x, uint32_t y, uint32_t width, uint32_t height,
                      uint32_t left, uint32_t top, uint32_t right, uint32_t bottom, uint8_t *out, size_t out_len);

/* A record cropped by a clap property. An offset's numerator is the unsigned pattern of a signed number. Refusals: the
 * record's, 7, 8, 9, 17. */
uint64_t compose_clap(const uint8_t *record, size_t record_len, uint32_t width_n, uint32_t width_d, uint32_t height_n,
                      uint32_t height_d, uint32_t horiz_off_n, uint32_t horiz_off_d, uint32_t vert_off_n,
                      uint32_t vert_off_d, uint8_t *out, size_t out_len);

/* A record turned by angle mod 4 quarter turns anticlockwise. Refusals: the record's, 17. */
uint64_t compose_irot(const uint8_t *record, size_t record_len, uint8_t angle, uint8_t *out, size_t out_len);

/* A record mirrored: axis mod 2, 0 exchanges top and bottom, 1 left and right. Refusals: the record's, 17. */
uint64_t compose_imir(const uint8_t *record, size_t record_len, uint8_t axis, uint8_t *out, size_t out_len);

/* A record scaled by an iscl property: each side times its fraction, rounded up, each sample the mean over its
 * footprint. An unchanged size hands the record back. Refusals: the record's, 7, 10, 4, 17. */
uint64_t compose_iscl(const uint8_t *record, size_t record_len, uint16_t width_num, uint16_t width_den,
                      uint16_t height_num, uint16_t height_den, uint8_t *out, size_t out_len);

/* A record at another size, by nearest samples. An unchanged size hands the record back. Refusals: the record's, 3, 4,
 * 17. */
uint64_t compose_resize_nearest(const uint8_t *record, size_t record_len, uint32_t width, uint32_t height, uint8_t *out,
                                size_t out_len);

/* A record at another depth, each sample in proportion to the top. An equal depth hands the record back. Refusals: the
 * record's, 6, 17. */
uint64_t compose_rescale_depth(const uint8_t *record, size_t record_len, uint32_t depth, uint8_t *out, size_t out_len);

/* The master's record with the luma of another as its alpha plane, at the master's size and depth. The master's colour
 * planes stay as they stand. Refusals: the master's, the alpha record's, 17. */
uint64_t compose_attach_alpha(const uint8_t *master, size_t master_len, const uint8_t *alpha, size_t alpha_len,
                              uint8_t *out, size_t out_len);
/* Records composed of others. Each writes a record at the start of `out`, leaves what is past it, and answers its
 * length. */

/* The tiles of a tray joined, each in its cell of the grid of a descriptor body. Refusals: 5 a tray count that cannot be
 * read; the body's; 11; the records'; 12; tile by tile 13 and 14; 17. */
uint64_t compose_grid(const uint8_t *body, size_t body_len, const uint8_t *tray, size_t tray_len, uint8_t *out,
                      size_t out_len);

/* The inputs of a tray laid over the canvas of a descriptor body, the last on top. `premultiplied` has one byte an input,
 * 0 means straight alpha. Colour 0 is no description. Refusals: 5 a tray count that cannot be read; the body's; 15; 11;
 * the records'; 14; 16; 17. */
uint64_t compose_overlay(const uint8_t *body, size_t body_len, const uint8_t *tray, size_t tray_len,
                         const uint8_t *premultiplied, size_t premultiplied_len, uint8_t colour, uint16_t matrix,
                         uint8_t full_range, uint8_t *out, size_t out_len);

/* A grid composed, an overlay composed, or one record, then a chain of transforms. Each answers the length of the record at
 * the start of output; past it output is zero, and the spare, which must be as long, is all zero. A refusal leaves both as
 * they were. An essential_only of 0 applies every entry of the chain. 17 is an output or a spare shorter than the longest of
 * the composed record, or the one record made tight, and the records after each entry. */

/* A grid. Refusals: 5 a tray count that cannot be read; the chain's; the body's; 11; the records'; 12; 13 and 14; the
 * entries' in turn; 17. */
uint64_t compose_grid_scene(const uint8_t *body, size_t body_len, const uint8_t *tray, size_t tray_len,
                            const uint8_t *chain, size_t chain_len, uint8_t essential_only, uint8_t *output,
                            size_t output_len, uint8_t *spare, size_t spare_len);

/* An overlay. Refusals: 5 a tray count that cannot be read; the chain's; the body's; 15; 11; the records'; 14; 16; the
 * entries' in turn; 17. */
uint64_t compose_overlay_scene(const uint8_t *body, size_t body_len, const uint8_t *tray, size_t tray_len,
                               const uint8_t *chain, size_t chain_len, uint8_t essential_only,
                               const uint8_t *premultiplied, size_t premultiplied_len, uint8_t colour, uint16_t matrix,
                               uint8_t full_range, uint8_t *output, size_t output_len, uint8_t *spare,
                               size_t spare_len);

/* One record, which an empty chain writes tight. Refusals: the record's; the chain's; the entries' in turn; 17. */
uint64_t compose_transforms(const uint8_t *record, size_t record_len, const uint8_t *chain, size_t chain_len,
                            uint8_t essential_only, uint8_t *output, size_t output_len, uint8_t *spare,
                            size_t spare_len);

/* Room, so that nobody guesses. */

/* The length of the tight record of a form: what an operation writes that ends with that form, and does not hand its record
 * or a plane back as it is. Refusals: 5, 6, 3, 4. */
uint64_t compose_record_size(uint32_t width, uint32_t height, uint32_t chroma, uint32_t depth, uint32_t alpha);

/* The least length of output and of the spare for which compose_grid_scene does not answer 17. Refusals: its others. */
uint64_t compose_grid_scene_room(const uint8_t *body, size_t body_len, const uint8_t *tray, size_t tray_len,
                                 const uint8_t *chain, size_t chain_len, uint8_t essential_only);

/* The same for compose_overlay_scene, whatever its colour. */
uint64_t compose_overlay_scene_room(const uint8_t *body, size_t body_len, const uint8_t *tray, size_t tray_len,
                                    const uint8_t *chain, size_t chain_len, uint8_t essential_only,
                                    const uint8_t *premultiplied, size_t premultiplied_len);

/* Which input and which spot of it a final place shows, without drawing the picture. Column and row count from 0; an
 * essential_only of 0 applies every entry of the chain. Each answers 0 and writes 10 words, leaving what is past them: 1
 * an input or 0 fill; the input, the spot's column and row (0 for fill); the chain's rectangle in the composed picture as
 * x, y, width, height; 1 where left and right are exchanged, else 0; then 0 to 3 quarter turns anticlockwise. */

/* The tile of a grid. Refusals: 5 a tray count that cannot be read; the chain's; the body's; 11; the records'; 12; 13 and
 * 14; the entries' in turn, 18 an applied iscl; 18 a place outside; 17 an answer below 10 words. */
uint64_t compose_grid_point(const uint8_t *body, size_t body_len, const uint8_t *tray, size_t tray_len,
                            const uint8_t *chain, size_t chain_len, uint8_t essential_only, uint32_t column,
                            uint32_t row, uint32_t *answer, size_t answer_len);

/* The topmost input of an overlay, or fill. The colour description has no effect. Refusals: 5 a tray count that cannot be
 * read; the chain's; the body's; 15; 11; the records'; 14; 18 an input with alpha; the entries' in turn, 18 an applied
 * iscl; 18 a place outside; 17 an answer below 10 words. */
uint64_t compose_overlay_point(const uint8_t *body, size_t body_len, const uint8_t *tray, size_t tray_len,
                               const uint8_t *chain, size_t chain_len, uint8_t essential_only,
                               const uint8_t *premultiplied, size_t premultiplied_len, uint8_t colour, uint16_t matrix,
                               uint8_t full_range, uint32_t column, uint32_t row, uint32_t *answer, size_t answer_len);

/* The canvas session: the tiles of a grid placed one by one, in any order, in one buffer that each call is lent. Between
 * the calls the caller keeps the state, COMPOSE_STATE words, and the buffer; a refused call changes neither. A state is
 * plain words and any of them are safe: one that no call can have made is 5. A state below COMPOSE_STATE words cannot be
 * read, and is 17 at once. From the first tile on, the buffer holds the canvas's record with an alpha plane reserved
 * behind it; 17 is also a buffer below both. */
#define COMPOSE_STATE 1034

/* A canvas for the grid of a descriptor body. Answers 0. Refusals: the body's; 17 a state below COMPOSE_STATE words,
 * last here. */
uint64_t compose_canvas_start(const uint8_t *body, size_t body_len, uint64_t *state, size_t state_len);

/* A tile's record in its cell, over what was there; a tile without alpha leaves the alpha there. Answers 0. Refusals: 5;
 * 11 an index outside; the record's; 12, 13, 14; 17. */
uint64_t compose_canvas_place(uint64_t *state, size_t state_len, uint32_t index, const uint8_t *record,
                              size_t record_len, uint8_t *buffer, size_t buffer_len);

/* A blank cell of the first tile's form. Answers 0. Refusals: 5; 15 nothing placed; 11 an index outside; 17. */
uint64_t compose_canvas_blank(uint64_t *state, size_t state_len, uint32_t index, uint8_t *buffer, size_t buffer_len);

/* The length of the canvas's record at the start of the buffer, without alpha if no tile had it. Nothing is written, and
 * it may be asked again. Refusals: 5; 15 a cell missing; 17. */
uint64_t compose_canvas_finish(const uint64_t *state, size_t state_len, const uint8_t *buffer, size_t buffer_len);

#ifdef __cplusplus
}
#endif

#endif
