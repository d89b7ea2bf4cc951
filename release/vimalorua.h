/* Subtitles for players: one handle has a script, its fonts, the live events of one track, and caches. For several
 * threads a handle becomes seats, which share its script, its fonts and its track.
 *
 * A call answers by a status, of which only VIMALORUA_DONE is 0. Below stands which statuses a call has, what it
 * answers, and what it leaves as it was.
 *
 * Who owns what: the library keeps nothing of what it is given, and lends nothing. What it answers is copied into the
 * caller's memory. Handles and seats alone are the library's: vimalorua_open makes a handle, and vimalorua_close frees
 * all of it; vimalorua_share and vimalorua_split make seats, and the last vimalorua_leave frees what they share.
 *
 * What C must keep to, since nothing checks it:
 *
 * A handle comes from vimalorua_open, isn't copied, and has one call at a time. It may go from thread to thread where
 * a lock, a thread's start or join, or a sequentially consistent atomic orders its calls. After vimalorua_close it is
 * gone. All this is so of a seat too, which vimalorua_share or vimalorua_split makes and vimalorua_leave ends. Seats of
 * one track may have a call each at the same time.
 *
 * A pointer with a length behind it has that many items, and may be null where that is 0. No other pointer is null, but
 * that vimalorua_close and vimalorua_leave take a null one. Each is aligned for its type. What a call writes overlaps
 * nothing else that it is given.
 *
 * malloc, realloc and free, which the library calls, are one allocator, and align a block to each power of two up to
 * 16 that divides its size. No call is made from a signal handler, nor in the forked child of a process with threads.
 *
 * Numbers may be any: those that are out of range are answered by VIMALORUA_BAD_CALL, as lengths are.
 *
 * Times are in milliseconds, sizes of frames in pixels, and all other lengths in bytes or in items. */
#ifndef VIMALORUA_H
#define VIMALORUA_H
#include <sched.h>
#include <stddef.h>
#include <stdint.h>
#include <sys/select.h>
#ifdef __cplusplus
extern "C" {
#endif

/* The number of this header, which is the first number of the release's version and that of libvimalorua.so.
 * vimalorua_version tells that of the library. */
#define VIMALORUA_VERSION 1

/* Compilers warn of null pointers at these places then, and the sanitizer of undefined behaviour finds them. */
#if defined(__GNUC__) || defined(__clang__)
#define VIMALORUA_NO_NULLS(places) __attribute__((nonnull places))
#else
#define VIMALORUA_NO_NULLS(places)
#endif

/* A function of this header, in each C and C++. */
#if defined(__cplusplus) || (defined(__STDC_VERSION__) && __STDC_VERSION__ >= 199901L)
#define VIMALORUA_INLINE static inline
#elif defined(__GNUC__)
#define VIMALORUA_INLINE static __inline__
#else
#define VIMALORUA_INLINE static
#endif

/* Statuses. Where one tells a place, it stands beside it; where it tells none, a call that has a place writes 0. */
enum {
    VIMALORUA_DONE = 0,
    VIMALORUA_NOT_UTF8 = 1,      /* *place: how many bytes the longest prefix has that is UTF-8 */
    VIMALORUA_NO_EVENTS = 2,     /* no line is the heading [Events] */
    VIMALORUA_MANY_LINES = 3,    /* *place: the most Dialogue lines, 1,000,000 */
    VIMALORUA_MANY_STYLES = 4,   /* *place: the most styles, 10,000 */
    VIMALORUA_OUT_OF_MEMORY = 5, /* the same call may be made again */
    VIMALORUA_BAD_FONT = 6,      /* *place: the first line that leaves BDF, from 1, or byte that leaves OpenType, from 0 */
    VIMALORUA_LARGE_FONT = 7,    /* *place: the most glyphs, 131,072, or faces of a file, 64 */
    VIMALORUA_MANY_FONTS = 8,    /* *place: the most fonts, 64 */
    VIMALORUA_NO_FONT = 9,       /* nothing is drawn before a font was added */
    VIMALORUA_REPEATED = 10,     /* *place: the entry of the live event that has this ReadOrder */
    VIMALORUA_MALFORMED = 11,    /* *field: the first field that can't be read or is missing; *place: where it begins */
    VIMALORUA_FULL = 12,         /* *place: the most live events, 1,000,000 */
    VIMALORUA_MANY_FLUSHES = 13, /* *place: the most flushes, 1,000,000 */
    VIMALORUA_BAD_CALL = 14,     /* a number or a length is out of its range */
    VIMALORUA_CLOSED = 15,       /* nothing is behind the handle, which was shared; a seat never answers it */
    VIMALORUA_BAD_FONT_DATA = 16, /* *place: the first line in a script that leaves the coding of fonts, from 1 */
    VIMALORUA_BUSY = 17,          /* another seat's call has the track; the same call may be made again, or not */
    VIMALORUA_NOT_FIRST = 18,     /* seats are split off the first one alone */
    VIMALORUA_MANY_SEATS = 19,    /* 4,294,967,295 seats were split off already */
    VIMALORUA_WAS_FED = 20        /* the handle's track has entries already */
};

/* The fields of an event, as VIMALORUA_MALFORMED names them. Of a chunk, END and OTHER are never named. A place is one
 * of the chunk's bytes, from 0; that of a missing field is the chunk's length. */
enum {
    VIMALORUA_READ_ORDER = 1,
    VIMALORUA_LAYER = 2,
    VIMALORUA_START = 3, /* out of range; *place is the chunk's length */
    VIMALORUA_END = 4,
    VIMALORUA_DURATION = 5, /* out of range; *place is the chunk's length */
    VIMALORUA_STYLE = 6,
    VIMALORUA_NAME = 7,
    VIMALORUA_MARGIN_L = 8,
    VIMALORUA_MARGIN_R = 9,
    VIMALORUA_MARGIN_V = 10,
    VIMALORUA_EFFECT = 11,
    VIMALORUA_TEXT = 12,
    VIMALORUA_UTF8 = 13, /* not UTF-8; *place is how many bytes the longest prefix has that is */
    VIMALORUA_OTHER = 14
};

/* How a list of images differs from the one before. */
enum {
    VIMALORUA_SAME = 0,
    VIMALORUA_MOVED = 1, /* only in where the images stand */
    VIMALORUA_OTHER_LIST = 2
};

typedef struct vimalorua vimalorua;

/* A thread's part in a track that several threads feed and draw: see vimalorua_share. It came with version 1.5. */
typedef struct vimalorua_seat vimalorua_seat;

/* What a call that waits does after each try that found the track busy, so many of them as `tries` says, from 1. `with`
 * is what that call was given. It came with version 1.5. */
typedef void (*vimalorua_pause)(void *with, unsigned tries);

/* An image of one colour: w columns and h rows of the frame, from column x and row y on, all of them inside the frame.
 * Its mask has a byte for each pixel, row by row: 0 leaves the pixel as it is. The bytes are w * h of the masks, from
 * `at` on. A colour's a of 0 is opaque, and 255 invisible. */
typedef struct vimalorua_image {
    int32_t x, y;
    uint32_t w, h;
    uint8_t r, g, b, a;
    uint32_t unused; /* 0 */
    size_t at;
} vimalorua_image;

/* By what the width of letters goes. */
enum {
    VIMALORUA_BY_CANVAS = 0, /* by the columns of the script's canvas, as all else across the frame */
    VIMALORUA_BY_ASPECT = 1  /* by its rows and the shape of the video's pixels: letters keep their shape, as libass's do */
};

/* What the colour of a pixel with alpha says. */
enum {
    VIMALORUA_STRAIGHT = 0,     /* the colour by itself */
    VIMALORUA_PREMULTIPLIED = 1 /* the colour times the alpha */
};

/* What a frame is to a script: where the video's picture stands in it, and what is known of the video. `size` is
 * sizeof(vimalorua_view) as the program was built with it: what it doesn't reach is taken as 0, so that the struct may
 * grow. Where all is 0 but size, w and h, the size alone is known, as in vimalorua_draw.
 *
 * A line is typeset where its event has \pos, \move, \org or a clip. */
typedef struct vimalorua_view {
    size_t size;                       /* 16 at least */
    uint32_t w, h;                     /* the frame's columns and rows, at most 4,096 each */
    int32_t left, top;                 /* the upper left corner of the picture in it, each within 4,096 of 0 */
    uint32_t content_w, content_h;     /* the picture's columns and rows, from 1 to 4,096; both 0: it fills the frame */
    uint32_t storage_w, storage_h;     /* those of the video as it is stored, from 1 to 65,536; both 0: not known */
    uint32_t aspect_wide, aspect_high; /* the shape of its pixels, 1 to 65,536 parts each; both 0: not known */
    uint32_t letters;                  /* VIMALORUA_BY_CANVAS or VIMALORUA_BY_ASPECT */
    uint32_t scale;                    /* of lines that aren't typeset, in thousandths, to 100,000; 0: 1,000 */
    uint32_t use_bars;                 /* 1: such lines may stand in the bars beside the picture; 0: they may not */
    uint32_t unused;                   /* 0 */
} vimalorua_view;

/* The library's number: it is that of its header. It takes no memory. */
uint32_t vimalorua_version(void);

/* A status in a few English words, in small letters and without a stop: "out of memory". It is a text of the library's,
 * which stays, and is never null: of another number it says that. It takes no memory. It came with version 1.3. */
const char *vimalorua_status_text(int32_t status);

/* Opens a handle, *out, of the bytes of a script (at most 67,108,864), with a budget in bytes for each of its three
 * caches (at most 2^40). It has no font yet, and no event: see vimalorua_feed_lines.
 *
 * DONE: *out is the caller's to close. NOT_UTF8, NO_EVENTS, MANY_LINES, MANY_STYLES, OUT_OF_MEMORY, BAD_CALL: *out
 * stays. */
int32_t vimalorua_open(const uint8_t *script, size_t script_len, uint64_t budget, vimalorua **out,
                       size_t *place) VIMALORUA_NO_NULLS((4, 5));

/* Adds the fonts of a file from its bytes (at most 67,108,864), BDF or OpenType, behind the others: of a collection all
 * faces, in their order. There are at most 64 fonts. Texts in a style whose font isn't there are shown in font 0. What
 * the caches had is dropped.
 *
 * DONE: *first is the number of the first of them, from 0, and *count how many they are, from 1. BAD_FONT, LARGE_FONT,
 * MANY_FONTS, OUT_OF_MEMORY, BAD_CALL, CLOSED: nothing changes; *first is the place that goes with the status, and
 * *count is 0. It came with version 1.4. */
int32_t vimalorua_add_fonts(vimalorua *handle, const uint8_t *file, size_t file_len, size_t *first,
                            size_t *count) VIMALORUA_NO_NULLS((1, 4, 5));

/* The same, which tells *place as the other does *first, and not how many they are. */
int32_t vimalorua_add_font(vimalorua *handle, const uint8_t *font, size_t font_len,
                           size_t *place) VIMALORUA_NO_NULLS((1, 4));

/* Adds the fonts that a script holds in its sections [Fonts] from its bytes (at most 67,108,864), in its order, as
 * vimalorua_add_fonts adds those of files. vimalorua_open adds none: it is the program's to ask for them. It came with
 * version 1.4.
 *
 * DONE: *first is the number of the first of them, from 0, and *count how many they are: 0 where the script holds none.
 * BAD_FONT_DATA: *first is the line. BAD_FONT, LARGE_FONT: *first is the place, from 0, of the file among those of the
 * script. MANY_FONTS, OUT_OF_MEMORY, BAD_CALL, CLOSED. On all but DONE nothing changes, and *count is 0. */
int32_t vimalorua_add_script_fonts(vimalorua *handle, const uint8_t *script, size_t script_len, size_t *first,
                                   size_t *count) VIMALORUA_NO_NULLS((1, 4, 5));

/* Tells the names that the font with a number answers to: those of its families, and behind them its full names, each
 * with a zero byte behind it. They are UTF-8 where the font is OpenType, and the bytes of its file where it is BDF.
 * *len is how many bytes they have together. They stand at the front of `names` where `room` is as much at least, and
 * what is behind them stays; where it is less, all of `names` stays. It came with version 1.4.
 *
 * DONE. BAD_CALL: no font has this number. OUT_OF_MEMORY, CLOSED. On all but DONE *len is 0, and `names` stays. */
int32_t vimalorua_font_names(vimalorua *handle, size_t number, uint8_t *names, size_t room,
                             size_t *len) VIMALORUA_NO_NULLS((1, 5));

/* Offers the events of the script's own Dialogue lines, each with the place of its line, from 0, as its ReadOrder.
 * Lines that give no event are passed over, and so are events that vimalorua_feed would answer by REPEATED or FULL.
 *
 * DONE: *place is how many entries the track's history has then. OUT_OF_MEMORY: some events were offered, from the
 * first on; *place may be that number or 0; the call may be made again, and offers the others. CLOSED. */
int32_t vimalorua_feed_lines(vimalorua *handle, size_t *place) VIMALORUA_NO_NULLS((1, 2));

/* Offers the event of a chunk, ReadOrder,Layer,Style,Name,MarginL,MarginR,MarginV,Effect,Text (at most 134,217,728
 * bytes), shown from `start` on for `duration`, each from 0 to 4 * 10^12 milliseconds.
 *
 * DONE: the event is live; *place is its entry in the track's history, from 0. REPEATED, MALFORMED, FULL,
 * OUT_OF_MEMORY, BAD_CALL, CLOSED: nothing changes. *field is 0 but for MALFORMED. */
int32_t vimalorua_feed(vimalorua *handle, const uint8_t *chunk, size_t chunk_len, int64_t start, int64_t duration,
                       uint32_t *field, size_t *place) VIMALORUA_NO_NULLS((1, 6, 7));

/* Drops all live events, as a player does before it seeks.
 *
 * DONE: *place is the flush's entry in the track's history. MANY_FLUSHES, OUT_OF_MEMORY, CLOSED: nothing changes. */
int32_t vimalorua_flush(vimalorua *handle, size_t *place) VIMALORUA_NO_NULLS((1, 2));

/* Gives each cache a budget in bytes (at most 2^40). Pictures are the same for each.
 *
 * DONE. OUT_OF_MEMORY, BAD_CALL, CLOSED: nothing changes. */
int32_t vimalorua_set_budget(vimalorua *handle, uint64_t budget) VIMALORUA_NO_NULLS((1));

/* Draws what is shown at `ms` milliseconds (within 4 * 10^12 of 0) on a black frame of w by h pixels (at most 4,096
 * each) into just 3 * w * h bytes: red, green and blue of each pixel, row by row.
 *
 * DONE. NO_FONT, OUT_OF_MEMORY, BAD_CALL, CLOSED: the bytes stay. */
int32_t vimalorua_draw(vimalorua *handle, int64_t ms, uint32_t w, uint32_t h, uint8_t *out,
                       size_t out_len) VIMALORUA_NO_NULLS((1));

/* Lists what is shown at `ms` milliseconds in a frame of w by h pixels as images of one colour each, the lowest first,
 * and keeps the list for vimalorua_copy_images. Instants and sizes are those of vimalorua_draw. Blended in order onto
 * black, they make what vimalorua_draw draws: a channel d under a channel c of the colour becomes
 * div(d * (255 - k) + c * k), where k = div(m * (255 - a)), m is the mask's byte and div(v) is (v + 127) / 255 in whole
 * numbers.
 *
 * DONE: *change tells how the list differs from the one that was kept before, which at first is empty; *count is how
 * many images it has, and *bytes how many bytes their masks have together. NO_FONT, OUT_OF_MEMORY, BAD_CALL, CLOSED:
 * the list that was kept stays, and *change, *count and *bytes tell nothing. */
int32_t vimalorua_images(vimalorua *handle, int64_t ms, uint32_t w, uint32_t h, int32_t *change, size_t *count,
                         size_t *bytes) VIMALORUA_NO_NULLS((1, 5, 6, 7));

/* The same two in a frame as the script sees it, so that text isn't stretched where the video's shape isn't that of the
 * script's canvas: a script that was made of SRT has a canvas of 384 by 288. A view that is out of its limits, or that
 * says more than the library knows, is a BAD_CALL. They came with version 1.2. */
int32_t vimalorua_draw_in(vimalorua *handle, int64_t ms, const vimalorua_view *view, uint8_t *out,
                          size_t out_len) VIMALORUA_NO_NULLS((1, 3));
int32_t vimalorua_images_in(vimalorua *handle, int64_t ms, const vimalorua_view *view, int32_t *change, size_t *count,
                            size_t *bytes) VIMALORUA_NO_NULLS((1, 3, 4, 5, 6));

/* Draws what is shown with alpha, over nothing in place of black, into just 4 * w * h bytes: red, green, blue and alpha of
 * each pixel, row by row. An alpha of 0 shows nothing, and 255 hides what lies below. `form` is VIMALORUA_STRAIGHT or
 * VIMALORUA_PREMULTIPLIED: over a channel d of any background the picture makes, where v is the channel of the pixel and
 * a its alpha, div(d * (255 - a) + v * a) of the one, and v + div(d * (255 - a)) of the other, with div as of
 * vimalorua_images. It differs by at most 1 from painting the images on that background exactly, rounded once. They came
 * with version 1.8.
 *
 * DONE. NO_FONT, OUT_OF_MEMORY, BAD_CALL, CLOSED: the bytes stay. */
int32_t vimalorua_draw_alpha(vimalorua *handle, int64_t ms, uint32_t w, uint32_t h, uint32_t form, uint8_t *out,
                             size_t out_len) VIMALORUA_NO_NULLS((1));
int32_t vimalorua_draw_alpha_in(vimalorua *handle, int64_t ms, const vimalorua_view *view, uint32_t form,
                                uint8_t *out, size_t out_len) VIMALORUA_NO_NULLS((1, 3));

/* Copies the list that is kept into just as many images, and just as many bytes for their masks, one image's behind the
 * other's, as vimalorua_images told. It may be copied again: only a vimalorua_images or vimalorua_images_in that is
 * DONE changes it.
 *
 * DONE. OUT_OF_MEMORY, BAD_CALL, CLOSED: what the pointers have stays. */
int32_t vimalorua_copy_images(vimalorua *handle, vimalorua_image *images, size_t count, uint8_t *masks,
                              size_t bytes) VIMALORUA_NO_NULLS((1));

/* Frees a handle. Of a null one it does nothing. */
void vimalorua_close(vimalorua *handle);

/* Makes a seat, *first, of a handle to whose track nothing was fed and which was never flushed. The seat has the
 * handle's script, fonts and budget, and the list that it kept. It and all that vimalorua_split makes of it are the
 * seats of one track, and may have a call each at the same time. The track has one history, in which the entries of all
 * seats stand in one order. What a seat has seen of it only grows.
 *
 * No call of a seat waits. One that needs the track while another seat's call has it answers VIMALORUA_BUSY: then
 * nothing has changed, and it may be made again or given up at any time. Those below whose names end in `waiting` make
 * it again. Whose try finds the track free is left to chance: no order is kept. A thread that ends inside a call of a
 * seat may leave the track busy for ever. All calls of seats came with version 1.5.
 *
 * DONE: *first is the caller's to leave. The handle is closed, so that its calls answer CLOSED, but is still to be
 * freed by vimalorua_close. WAS_FED, OUT_OF_MEMORY, CLOSED: nothing changes, and *first stays. */
int32_t vimalorua_share(vimalorua *handle, vimalorua_seat **first) VIMALORUA_NO_NULLS((1, 2));

/* Makes one more seat of the track, *seat, off the first one, with its budget and nothing in its caches. It is never
 * busy.
 *
 * DONE: *seat is the caller's to leave. NOT_FIRST, MANY_SEATS, OUT_OF_MEMORY: *seat stays. */
int32_t vimalorua_split(vimalorua_seat *first, vimalorua_seat **seat) VIMALORUA_NO_NULLS((1, 2));

/* Ends a seat: in any order, the first one too. The last one frees what they share. Of a null one it does nothing. */
void vimalorua_leave(vimalorua_seat *seat);

/* Offers the event of a chunk, as vimalorua_feed does. A chunk is read before the track is asked for, and again where
 * the call is made again.
 *
 * DONE: the event is live; *place is its entry in the track's history, from 0, among those of all seats. REPEATED,
 * MALFORMED, FULL, BUSY, OUT_OF_MEMORY, BAD_CALL: nothing changes. *field is 0 but for MALFORMED. */
int32_t vimalorua_try_feed(vimalorua_seat *seat, const uint8_t *chunk, size_t chunk_len, int64_t start,
                           int64_t duration, uint32_t *field, size_t *place) VIMALORUA_NO_NULLS((1, 6, 7));

/* Offers the event of one of the script's own Dialogue lines, the one behind the first *place of them, with the place
 * of the line as its ReadOrder. A line that gives no event is passed over. Called from a *place of 0 on, it offers all
 * of them as vimalorua_feed_lines does.
 *
 * DONE: *place is one more, or, where there was no such line, how many lines the script has. BUSY, OUT_OF_MEMORY:
 * nothing changes, and *place stays. */
int32_t vimalorua_try_feed_lines(vimalorua_seat *seat, size_t *place) VIMALORUA_NO_NULLS((1, 2));

/* Drops all live events, as vimalorua_flush does.
 *
 * DONE: *place is the flush's entry in the track's history. MANY_FLUSHES, BUSY, OUT_OF_MEMORY: nothing changes. */
int32_t vimalorua_try_flush(vimalorua_seat *seat, size_t *place) VIMALORUA_NO_NULLS((1, 2));

/* Gives each cache of a seat a budget in bytes (at most 2^40). Other seats have theirs. It is never busy.
 *
 * DONE. OUT_OF_MEMORY, BAD_CALL: nothing changes. */
int32_t vimalorua_seat_set_budget(vimalorua_seat *seat, uint64_t budget) VIMALORUA_NO_NULLS((1));

/* Draws what the track shows at an instant, as vimalorua_draw and vimalorua_draw_in do: what the first *entries entries
 * of the history show, whatever other seats do. These are all that there are when it looks, and so no fewer than at any
 * call of the seat before, and its own are among them.
 *
 * DONE. NO_FONT, BUSY, OUT_OF_MEMORY, BAD_CALL: the bytes stay, and *entries is 0. */
int32_t vimalorua_try_draw(vimalorua_seat *seat, int64_t ms, uint32_t w, uint32_t h, uint8_t *out, size_t out_len,
                           size_t *entries) VIMALORUA_NO_NULLS((1, 7));
int32_t vimalorua_try_draw_in(vimalorua_seat *seat, int64_t ms, const vimalorua_view *view, uint8_t *out,
                              size_t out_len, size_t *entries) VIMALORUA_NO_NULLS((1, 3, 6));

/* Draws the same with alpha, as vimalorua_draw_alpha and vimalorua_draw_alpha_in do. They came with version 1.8.
 *
 * DONE. NO_FONT, BUSY, OUT_OF_MEMORY, BAD_CALL: the bytes stay, and *entries is 0. */
int32_t vimalorua_try_draw_alpha(vimalorua_seat *seat, int64_t ms, uint32_t w, uint32_t h, uint32_t form, uint8_t *out,
                                 size_t out_len, size_t *entries) VIMALORUA_NO_NULLS((1, 8));
int32_t vimalorua_try_draw_alpha_in(vimalorua_seat *seat, int64_t ms, const vimalorua_view *view, uint32_t form,
                                    uint8_t *out, size_t out_len, size_t *entries) VIMALORUA_NO_NULLS((1, 3, 7));

/* Lists the same as images of one colour each, as vimalorua_images and vimalorua_images_in do, and keeps the list in
 * the seat for vimalorua_seat_copy.
 *
 * DONE: *change, *count and *bytes tell of the list, *change beside the list that the seat kept before. NO_FONT, BUSY,
 * OUT_OF_MEMORY, BAD_CALL: the list that was kept stays, *entries is 0, and the others tell nothing. */
int32_t vimalorua_try_list(vimalorua_seat *seat, int64_t ms, uint32_t w, uint32_t h, int32_t *change, size_t *count,
                           size_t *bytes, size_t *entries) VIMALORUA_NO_NULLS((1, 5, 6, 7, 8));
int32_t vimalorua_try_list_in(vimalorua_seat *seat, int64_t ms, const vimalorua_view *view, int32_t *change,
                              size_t *count, size_t *bytes, size_t *entries) VIMALORUA_NO_NULLS((1, 3, 4, 5, 6, 7));

/* Copies the list that the seat keeps, as vimalorua_copy_images does. It is never busy.
 *
 * DONE. OUT_OF_MEMORY, BAD_CALL: what the pointers have stays. */
int32_t vimalorua_seat_copy(vimalorua_seat *seat, vimalorua_image *images, size_t count, uint8_t *masks,
                            size_t bytes) VIMALORUA_NO_NULLS((1));

/* Pauses after so many tries and one more that found the track busy, and tells how many they are then: by a null pause
 * a few turns of a loop, 1 to 64, then the processor is left to other threads, and from the 20th on to all for 50
 * microseconds. */
VIMALORUA_INLINE unsigned vimalorua_pause_after(unsigned tries, vimalorua_pause pause, void *with) {
    tries += tries + 1 != 0;
    if (pause) {
        pause(with, tries);
    } else if (tries < 8) {
        volatile unsigned left = 1u << (tries - 1);
        while (left != 0)
            left = left - 1;
    } else if (tries < 20) {
        sched_yield();
    } else {
        struct timeval time;
        time.tv_sec = 0;
        time.tv_usec = 50;
        select(0, NULL, NULL, NULL, &time);
    }
    return tries;
}

/* The calls that may be busy, made again until they aren't, with a pause after each try: null, or the program's own,
 * which is given `with`. That of lines offers all of them from *place on. */
VIMALORUA_INLINE int32_t vimalorua_feed_waiting(vimalorua_seat *seat, const uint8_t *chunk, size_t chunk_len,
                                                int64_t start, int64_t duration, uint32_t *field, size_t *place,
                                                vimalorua_pause pause, void *with) {
    unsigned tries = 0;
    int32_t status;
    while ((status = vimalorua_try_feed(seat, chunk, chunk_len, start, duration, field, place)) == VIMALORUA_BUSY)
        tries = vimalorua_pause_after(tries, pause, with);
    return status;
}
VIMALORUA_INLINE int32_t vimalorua_feed_lines_waiting(vimalorua_seat *seat, size_t *place, vimalorua_pause pause,
                                                      void *with) {
    unsigned tries = 0;
    int32_t status;
    size_t before;
    do {
        before = *place;
        status = vimalorua_try_feed_lines(seat, place);
        tries = status == VIMALORUA_BUSY ? vimalorua_pause_after(tries, pause, with) : 0;
    } while (status == VIMALORUA_BUSY || (status == VIMALORUA_DONE && *place > before));
    return status;
}
VIMALORUA_INLINE int32_t vimalorua_flush_waiting(vimalorua_seat *seat, size_t *place, vimalorua_pause pause,
                                                 void *with) {
    unsigned tries = 0;
    int32_t status;
    while ((status = vimalorua_try_flush(seat, place)) == VIMALORUA_BUSY)
        tries = vimalorua_pause_after(tries, pause, with);
    return status;
}
VIMALORUA_INLINE int32_t vimalorua_draw_waiting(vimalorua_seat *seat, int64_t ms, uint32_t w, uint32_t h, uint8_t *out,
                                                size_t out_len, size_t *entries, vimalorua_pause pause, void *with) {
    unsigned tries = 0;
    int32_t status;
    while ((status = vimalorua_try_draw(seat, ms, w, h, out, out_len, entries)) == VIMALORUA_BUSY)
        tries = vimalorua_pause_after(tries, pause, with);
    return status;
}
VIMALORUA_INLINE int32_t vimalorua_draw_in_waiting(vimalorua_seat *seat, int64_t ms, const vimalorua_view *view,
                                                   uint8_t *out, size_t out_len, size_t *entries,
                                                   vimalorua_pause pause, void *with) {
    unsigned tries = 0;
    int32_t status;
    while ((status = vimalorua_try_draw_in(seat, ms, view, out, out_len, entries)) == VIMALORUA_BUSY)
        tries = vimalorua_pause_after(tries, pause, with);
    return status;
}
VIMALORUA_INLINE int32_t vimalorua_draw_alpha_waiting(vimalorua_seat *seat, int64_t ms, uint32_t w, uint32_t h,
                                                      uint32_t form, uint8_t *out, size_t out_len, size_t *entries,
                                                      vimalorua_pause pause, void *with) {
    unsigned tries = 0;
    int32_t status;
    while ((status = vimalorua_try_draw_alpha(seat, ms, w, h, form, out, out_len, entries)) == VIMALORUA_BUSY)
        tries = vimalorua_pause_after(tries, pause, with);
    return status;
}
VIMALORUA_INLINE int32_t vimalorua_draw_alpha_in_waiting(vimalorua_seat *seat, int64_t ms, const vimalorua_view *view,
                                                         uint32_t form, uint8_t *out, size_t out_len, size_t *entries,
                                                         vimalorua_pause pause, void *with) {
    unsigned tries = 0;
    int32_t status;
    while ((status = vimalorua_try_draw_alpha_in(seat, ms, view, form, out, out_len, entries)) == VIMALORUA_BUSY)
        tries = vimalorua_pause_after(tries, pause, with);
    return status;
}
VIMALORUA_INLINE int32_t vimalorua_list_waiting(vimalorua_seat *seat, int64_t ms, uint32_t w, uint32_t h,
                                                int32_t *change, size_t *count, size_t *bytes, size_t *entries,
                                                vimalorua_pause pause, void *with) {
    unsigned tries = 0;
    int32_t status;
    while ((status = vimalorua_try_list(seat, ms, w, h, change, count, bytes, entries)) == VIMALORUA_BUSY)
        tries = vimalorua_pause_after(tries, pause, with);
    return status;
}
VIMALORUA_INLINE int32_t vimalorua_list_in_waiting(vimalorua_seat *seat, int64_t ms, const vimalorua_view *view,
                                                   int32_t *change, size_t *count, size_t *bytes, size_t *entries,
                                                   vimalorua_pause pause, void *with) {
    unsigned tries = 0;
    int32_t status;
    while ((status = vimalorua_try_list_in(seat, ms, view, change, count, bytes, entries)) == VIMALORUA_BUSY)
        tries = vimalorua_pause_after(tries, pause, with);
    return status;
}

#ifdef __cplusplus
}
#endif
#endif
