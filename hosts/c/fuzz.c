/* fuzz SECONDS SEED FOLDER: every entry of the library on damaged product files, with two threads.
 *
 * FOLDER has product files and, as NAME.body, their unpacked symbology; tests/samples.py writes such a folder. Each call is made twice
 * with the same input: once with every array against the guard page behind it, once against the one before it, and with two fills of
 * what is written to. It must return the same, leave what it reads, write the same bytes or none at each place, and write nothing but the
 * report when it refuses. A touched guard page ends the program with the entry's name, the seed and the number of the case. At the end
 * stands for each entry how many inputs it accepted and refused; one that accepted none is a failure.
 */
#include <dirent.h>
#include <pthread.h>
#include <signal.h>
#include <stdatomic.h>
#include <stdio.h>
#include <stdlib.h>
#include <string.h>
#include <sys/mman.h>
#include <time.h>
#include <unistd.h>

#include "l3.h"

/* ---- arrays between guard pages */

enum { IN_FILE, IN_BODY, IN_SECOND, IN_PLAN, IN_CODES, IN_ENDS, IN_RATES, IN_THRESHOLDS,
       OUT_AZIMUTHS, OUT_CODES, OUT_PHYSICAL, OUT_MARKS, OUT_TOTALS, OUT_OUTPUT, OUT_THRESHOLDS, OUT_LEVELS, OUT_TABLE, OUT_NAME, INTS, FLOATS, ARRAYS };
static const size_t element[ARRAYS] = {1, 1, 1, 1, 2, 8, 4, 1, 8, 2, 4, 1, 8, 1, 1, 4, 2, 1, 8, 8};
static const size_t room[ARRAYS] = {1 << 16, 1 << 20, 1 << 20, 1 << 16, 1 << 16, 256, 256, 256,
                                    1 << 20, 1 << 20, 1 << 21, 1 << 17, 1 << 16, 1 << 20, 256, 256, 256, 64, 512, 256};

struct arena { uint8_t *start, *end; };

static struct arena new_arena(size_t bytes)
{
    size_t page = (size_t)sysconf(_SC_PAGESIZE), middle = (bytes + page - 1) / page * page;
    uint8_t *all = mmap(NULL, middle + 2 * page, PROT_NONE, MAP_PRIVATE | MAP_ANONYMOUS, -1, 0);
    if (all == MAP_FAILED || mprotect(all + page, middle, PROT_READ | PROT_WRITE) != 0) {
        perror("mmap");
        exit(2);
    }
    return (struct arena){all + page, all + page + middle};
}

/* ---- a case */

struct input {
    size_t length[ARRAYS];       /* in elements */
    uint8_t *bytes[OUT_AZIMUTHS]; /* of what is read */
    uint64_t clock, total;
    uint32_t scheme, kind, item, number;
    float parameter;
    size_t block, index, at, radials, bins;
    size_t body_radials, body_bins; /* of the body as it was made */
    uint16_t days;
    int32_t seconds;
    int16_t code;
};

struct worker {
    struct arena arena[2][ARRAYS];
    struct input in;
    uint64_t random, seed, cases;
    const char *entry;
    atomic_ulong counts[64][2]; /* of each entry, how many inputs were accepted and refused */
    pthread_t thread;
};

static _Thread_local struct worker *mine;
static atomic_int stop, failed;

static uint64_t next(struct worker *w)
{
    uint64_t x = w->random;
    x ^= x << 13, x ^= x >> 7, x ^= x << 17;
    return w->random = x;
}

static size_t below(struct worker *w, size_t n) { return n == 0 ? 0 : (size_t)(next(w) % n); }

/* ---- the entries */

typedef uint32_t call(const struct input *in, void *const p[ARRAYS]);
#define REPORT p[INTS], in->length[INTS], p[FLOATS], in->length[FLOATS]
#define FILE_ARGS p[IN_FILE], in->length[IN_FILE]
#define BODY_ARGS p[IN_BODY], in->length[IN_BODY]
#define HEAD FILE_ARGS, in->clock, in->scheme, in->parameter
#define PICTURE p[OUT_AZIMUTHS], in->length[OUT_AZIMUTHS], p[OUT_CODES], in->length[OUT_CODES], p[OUT_PHYSICAL], in->length[OUT_PHYSICAL]
#define MARKS p[OUT_MARKS], in->length[OUT_MARKS]

static uint32_t c_sweep(const struct input *in, void *const p[ARRAYS]) { return l3_sweep(HEAD, BODY_ARGS, PICTURE, REPORT); }
static uint32_t c_strict(const struct input *in, void *const p[ARRAYS]) { return l3_strict(HEAD, BODY_ARGS, PICTURE, REPORT); }
static uint32_t c_gaps(const struct input *in, void *const p[ARRAYS]) { return l3_gaps(HEAD, BODY_ARGS, PICTURE, MARKS, REPORT); }
static uint32_t c_merge(const struct input *in, void *const p[ARRAYS])
{
    return l3_merge(HEAD, BODY_ARGS, p[IN_SECOND], in->length[IN_SECOND], PICTURE, MARKS, REPORT);
}
static uint32_t c_totals(const struct input *in, void *const p[ARRAYS])
{
    return l3_totals(HEAD, BODY_ARGS, p[IN_PLAN], in->length[IN_PLAN], PICTURE, p[OUT_TOTALS], in->length[OUT_TOTALS], REPORT);
}
static uint32_t c_plan_totals(const struct input *in, void *const p[ARRAYS])
{
    return l3_plan_totals(FILE_ARGS, in->block, p[IN_CODES], in->length[IN_CODES], in->radials, in->bins,
                          p[IN_PLAN], in->length[IN_PLAN], p[OUT_TOTALS], in->length[OUT_TOTALS], REPORT);
}
static uint32_t c_symbology(const struct input *in, void *const p[ARRAYS])
{
    return l3_symbology(BODY_ARGS, p[OUT_AZIMUTHS], in->length[OUT_AZIMUTHS], p[OUT_CODES], in->length[OUT_CODES], REPORT);
}
static uint32_t c_export16(const struct input *in, void *const p[ARRAYS])
{
    return l3_export16(BODY_ARGS, p[OUT_OUTPUT], in->length[OUT_OUTPUT], REPORT);
}
static uint32_t c_token(const struct input *in, void *const p[ARRAYS]) { return l3_token(FILE_ARGS, REPORT); }
static uint32_t c_message_header(const struct input *in, void *const p[ARRAYS]) { return l3_message_header(FILE_ARGS, REPORT); }
static uint32_t c_scan_time(const struct input *in, void *const p[ARRAYS]) { return l3_scan_time(in->days, in->seconds, in->clock, REPORT); }
static uint32_t c_date(const struct input *in, void *const p[ARRAYS]) { return l3_date(in->days, REPORT); }
static uint32_t c_field(const struct input *in, void *const p[ARRAYS]) { return l3_field(FILE_ARGS, in->block, in->index, in->kind, REPORT); }
static uint32_t c_pdb(const struct input *in, void *const p[ARRAYS]) { return l3_pdb(FILE_ARGS, in->block, REPORT); }
static uint32_t c_linear(const struct input *in, void *const p[ARRAYS]) { return l3_linear(FILE_ARGS, in->block, REPORT); }
static uint32_t c_float(const struct input *in, void *const p[ARRAYS]) { return l3_float(FILE_ARGS, in->block, REPORT); }
static uint32_t c_precip(const struct input *in, void *const p[ARRAYS]) { return l3_precip(FILE_ARGS, in->block, in->parameter, REPORT); }
static uint32_t c_threshold(const struct input *in, void *const p[ARRAYS])
{
    return l3_threshold(FILE_ARGS, in->block, p[OUT_THRESHOLDS], in->length[OUT_THRESHOLDS], REPORT);
}
static uint32_t c_legacy16(const struct input *in, void *const p[ARRAYS])
{
    return l3_legacy16(p[IN_THRESHOLDS], in->length[IN_THRESHOLDS], in->parameter, p[OUT_LEVELS], in->length[OUT_LEVELS]);
}
static uint32_t c_physical(const struct input *in, void *const p[ARRAYS])
{
    return l3_physical(FILE_ARGS, in->block, in->scheme, in->parameter, p[IN_CODES], in->length[IN_CODES],
                       p[OUT_PHYSICAL], in->length[OUT_PHYSICAL], REPORT);
}
static uint32_t c_trailing(const struct input *in, void *const p[ARRAYS]) { return l3_trailing(p[IN_PLAN], in->length[IN_PLAN], REPORT); }
static uint32_t c_known(const struct input *in, void *const p[ARRAYS]) { (void)p; return l3_known(in->code); }
static uint32_t c_codes(const struct input *in, void *const p[ARRAYS]) { return l3_codes(p[OUT_TABLE], in->length[OUT_TABLE]); }
static uint32_t c_xdr(const struct input *in, void *const p[ARRAYS]) { return l3_xdr(in->item, BODY_ARGS, in->at, REPORT); }
static uint32_t c_items(const struct input *in, void *const p[ARRAYS]) { return l3_items(in->item, BODY_ARGS, REPORT); }
static uint32_t c_read(const struct input *in, void *const p[ARRAYS]) { return l3_read(in->kind, FILE_ARGS, in->at, REPORT); }
static uint32_t c_charge(const struct input *in, void *const p[ARRAYS])
{
    return l3_charge(in->total, p[IN_ENDS], in->length[IN_ENDS], p[IN_RATES], in->length[IN_RATES], REPORT);
}
static uint32_t c_product(const struct input *in, void *const p[ARRAYS]) { return l3_product(in->code, REPORT); }
static uint32_t c_refusal_name(const struct input *in, void *const p[ARRAYS])
{
    return l3_refusal_name(in->number, p[OUT_NAME], in->length[OUT_NAME]);
}
static uint32_t c_version(const struct input *in, void *const p[ARRAYS]) { (void)in, (void)p; return l3_version(); }

/* often: how many parts of all calls; plain: what it returns is not a refusal; draw: input that is its own */
struct entry { const char *name; call *call; unsigned often; int plain; void (*draw)(struct worker *w); };
static struct entry entries[64];
static size_t entry_count, parts;

static void add(const char *name, call *function, unsigned often, int plain)
{
    entries[entry_count++] = (struct entry){name, function, often, plain, NULL};
    parts += often;
}

static void draw_for(const char *name, void (*draw)(struct worker *w))
{
    for (size_t n = 0; n < entry_count; n++)
        if (strcmp(entries[n].name, name) == 0)
            entries[n].draw = draw;
}

static void list_entries(void)
{
    add("l3_sweep", c_sweep, 12, 0), add("l3_gaps", c_gaps, 8, 0), add("l3_totals", c_totals, 8, 0), add("l3_strict", c_strict, 8, 0);
    add("l3_merge", c_merge, 8, 0), add("l3_export16", c_export16, 8, 0), add("l3_symbology", c_symbology, 8, 0);
    add("l3_plan_totals", c_plan_totals, 4, 0);
    add("l3_token", c_token, 2, 0), add("l3_message_header", c_message_header, 2, 0), add("l3_scan_time", c_scan_time, 1, 0);
    add("l3_date", c_date, 1, 0), add("l3_field", c_field, 2, 0), add("l3_pdb", c_pdb, 2, 0), add("l3_linear", c_linear, 1, 0);
    add("l3_float", c_float, 1, 0), add("l3_precip", c_precip, 2, 0), add("l3_threshold", c_threshold, 1, 0);
    add("l3_legacy16", c_legacy16, 1, 0), add("l3_physical", c_physical, 3, 0), add("l3_trailing", c_trailing, 1, 0);
    add("l3_known", c_known, 1, 1), add("l3_codes", c_codes, 1, 0), add("l3_xdr", c_xdr, 3, 0), add("l3_items", c_items, 2, 0);
    add("l3_read", c_read, 1, 0), add("l3_charge", c_charge, 2, 0), add("l3_product", c_product, 1, 0);
    add("l3_refusal_name", c_refusal_name, 1, 0), add("l3_version", c_version, 1, 1);
}

/* ---- input */

struct sample { uint8_t *file, *body; size_t file_len, body_len, block, radials, bins; uint32_t scheme; float parameter; };
static struct sample samples[256];
static size_t sample_count, rain[256], rain_count; /* the places of rain products among them */

static uint8_t *read_whole(const char *path, size_t most, size_t *length)
{
    FILE *file = fopen(path, "rb");
    if (file == NULL)
        return NULL;
    uint8_t *bytes = malloc(most);
    *length = bytes == NULL ? 0 : fread(bytes, 1, most, file);
    fclose(file);
    return bytes;
}

/* where its description block stands, its scheme by the product table, and its picture's size */
static void look_into(struct sample *s)
{
    int64_t ints[L3_INTS];
    double floats[L3_FLOATS];
    static double azimuths[1 << 16];
    static uint16_t codes[1 << 20];
    s->block = 48, s->radials = 1, s->bins = 1;
    if (l3_message_header(s->file, s->file_len, ints, L3_INTS, floats, L3_FLOATS) == L3_ACCEPTED) {
        s->block = (size_t)ints[0] + 18;
        const uint8_t *code = s->file + ints[0];
        if (l3_product((int16_t)(code[0] << 8 | code[1]), ints, L3_INTS, floats, L3_FLOATS) == L3_ACCEPTED && ints[L3_KNOWN])
            s->scheme = (uint32_t)ints[L3_SCHEME], s->parameter = (float)floats[L3_PARAMETER];
    }
    if (l3_symbology(s->body, s->body_len, azimuths, 1 << 16, codes, 1 << 20, ints, L3_INTS, floats, L3_FLOATS) == L3_ACCEPTED)
        s->radials = (size_t)ints[L3_RADIALS], s->bins = (size_t)ints[L3_BINS];
    else if (s->body_len >= 30 && s->body[17] != 28)
        s->bins = (size_t)(s->body[20] << 8 | s->body[21]), s->radials = (size_t)(s->body[28] << 8 | s->body[29]);
}

static void read_samples(const char *folder)
{
    DIR *dir = opendir(folder);
    if (dir == NULL) {
        perror(folder);
        exit(2);
    }
    for (struct dirent *d; (d = readdir(dir)) != NULL && sample_count < 256;) {
        size_t n = strlen(d->d_name);
        if (n < 6 || strcmp(d->d_name + n - 5, ".body") != 0)
            continue;
        char path[4096];
        struct sample s = {0};
        snprintf(path, sizeof path, "%s/%s", folder, d->d_name);
        s.body = read_whole(path, room[IN_BODY], &s.body_len);
        path[strlen(path) - 5] = 0;
        s.file = read_whole(path, 1 << 12, &s.file_len);
        if (s.file == NULL || s.body == NULL || s.body_len >= 1 << 17)
            continue;
        look_into(&s);
        if (s.scheme == L3_PRECIPITATION)
            rain[rain_count++] = sample_count;
        samples[sample_count++] = s;
    }
    closedir(dir);
    if (rain_count == 0) {
        fprintf(stderr, "%s: no samples, or none of rain\n", folder);
        exit(2);
    }
}

static size_t damage(struct worker *w, uint8_t *bytes, size_t length, size_t most)
{
    static const uint16_t odd[] = {0, 1, 2, 15, 16, 28, 99, 100, 101, 255, 256, 3599, 3600, 4095, 4096, 9999, 10001, 32767, 32768, 65534, 65535, 0xAF1F};
    for (size_t n = below(w, 4) == 0 ? 0 : 1 + below(w, 6); n > 0; n--) {
        size_t at = below(w, below(w, 2) && length > 160 ? 160 : length);
        switch (below(w, 8)) {
        case 0:
            length = below(w, 4) ? length - below(w, length < 40 ? length + 1 : 40) : below(w, length + 1);
            break;
        case 1:
            for (size_t k = below(w, 8); k > 0 && length < most; k--)
                bytes[length++] = (uint8_t)next(w);
            break;
        case 2:
        case 3:
            if (at + 2 <= length) {
                uint16_t x = odd[below(w, sizeof odd / sizeof *odd)];
                bytes[at] = (uint8_t)(x >> 8), bytes[at + 1] = (uint8_t)x;
            }
            break;
        case 4:
            if (length > 8 && at + 8 <= length)
                memmove(bytes + at, bytes + below(w, length - 8), 8);
            break;
        default:
            if (at < length)
                bytes[at] = below(w, 2) ? (uint8_t)(bytes[at] ^ (1U << below(w, 8))) : (uint8_t)next(w);
        }
    }
    return length;
}

static size_t some(struct worker *w, size_t right, size_t most)
{
    size_t n = right;
    switch (below(w, 20)) {
    case 0: n = right > 0 ? right - 1 : 0; break;
    case 1: n = below(w, right + 1); break;
    case 2: n = right + below(w, 64); break;
    default: break;
    }
    return n > most ? most : n;
}

/* mostly one of the smaller ones, which are quicker */
static const struct sample *pick(struct worker *w)
{
    struct sample *best = &samples[below(w, sample_count)];
    for (size_t n = below(w, 16) ? 4 : 0; n > 0; n--) {
        struct sample *other = &samples[below(w, sample_count)];
        best = other->body_len < best->body_len ? other : best;
    }
    return best;
}

/* file and body of two samples, of which one in damaged is damaged, and room for the picture */
static void load(struct worker *w, const struct sample *s, const struct sample *t, size_t damaged)
{
    struct input *in = &w->in;
    memcpy(in->bytes[IN_FILE], s->file, s->file_len);
    memcpy(in->bytes[IN_BODY], t->body, t->body_len);
    memcpy(in->bytes[IN_SECOND], t->body, t->body_len);
    in->length[IN_FILE] = below(w, damaged) ? s->file_len : damage(w, in->bytes[IN_FILE], s->file_len, room[IN_FILE]);
    in->length[IN_BODY] = below(w, damaged) ? t->body_len : damage(w, in->bytes[IN_BODY], t->body_len, room[IN_BODY]);
    in->length[IN_SECOND] = below(w, damaged) ? t->body_len : damage(w, in->bytes[IN_SECOND], t->body_len, room[IN_SECOND]);
    in->block = below(w, 4) ? s->block : below(w, 2) ? below(w, 300) : (size_t)next(w);
    size_t radials = t->radials, bins = t->bins, cells = radials * bins > 200000 ? 200000 : radials * bins;
    in->body_radials = radials, in->body_bins = bins;
    in->length[OUT_AZIMUTHS] = some(w, radials, room[OUT_AZIMUTHS] / 8);
    in->length[OUT_CODES] = some(w, cells, room[OUT_CODES] / 2);
    in->length[OUT_PHYSICAL] = some(w, cells, room[OUT_PHYSICAL] / 4);
    in->length[OUT_MARKS] = some(w, radials, room[OUT_MARKS]);
    in->length[OUT_OUTPUT] = some(w, 30 + radials * (7 + bins), room[OUT_OUTPUT]);
}

/* a plan for a picture, mostly well made and inside it, and room for its totals */
static void draw_plan(struct worker *w, size_t radials, size_t bins)
{
    struct input *in = &w->in;
    uint8_t *plan = in->bytes[IN_PLAN];
    size_t length = 0, fields = 0, number = below(w, 60000), outside = below(w, 16) == 0 || radials == 0 || bins == 0;
    for (size_t n = below(w, 12); n > 0; n--) {
        if (length == 0 || below(w, 3) == 0) {
            number += below(w, 64) ? 1 + below(w, 300) : 0;
            const uint8_t field[] = {1, 0, 2, (uint8_t)(number >> 8), (uint8_t)number};
            memcpy(plan + length, field, sizeof field), length += sizeof field, fields++;
        } else {
            size_t r = below(w, radials + outside), g = below(w, bins + outside), k = 1 + below(w, outside ? bins : bins - g), weight = below(w, 65536);
            const uint8_t strip[] = {2, 0, 8, (uint8_t)(r >> 8), (uint8_t)r, (uint8_t)(g >> 8), (uint8_t)g, (uint8_t)(k >> 8), (uint8_t)k,
                                     (uint8_t)(weight >> 8), (uint8_t)weight};
            memcpy(plan + length, strip, sizeof strip), length += sizeof strip;
        }
    }
    in->length[IN_PLAN] = below(w, 6) ? length : damage(w, plan, length, room[IN_PLAN]);
    in->length[OUT_TOTALS] = some(w, fields, room[OUT_TOTALS] / 8);
}

/* mostly the smaller of two */
static const struct sample *pick_rain(struct worker *w)
{
    const struct sample *s = &samples[rain[below(w, rain_count)]], *t = &samples[rain[below(w, rain_count)]];
    return t->body_len < s->body_len && below(w, 8) ? t : s;
}

static void draw_totals(struct worker *w)
{
    if (below(w, 8)) {
        const struct sample *s = pick_rain(w);
        load(w, s, s, 8);
        w->in.scheme = below(w, 16) ? L3_PRECIPITATION : w->in.scheme;
    }
    draw_plan(w, w->in.body_radials, w->in.body_bins);
}

static void draw_plan_totals(struct worker *w)
{
    struct input *in = &w->in;
    if (below(w, 8)) {
        const struct sample *s = pick_rain(w);
        load(w, s, s, 8);
    }
    in->radials = 1 + below(w, 30), in->bins = 1 + below(w, 60);
    draw_plan(w, in->radials, in->bins);
    in->length[IN_CODES] = some(w, in->radials * in->bins, room[IN_CODES] / 2);
    for (size_t i = 0; i < in->length[IN_CODES]; i++) {
        uint16_t code = (uint16_t)(below(w, 2) ? below(w, 20) : next(w));
        memcpy(in->bytes[IN_CODES] + 2 * i, &code, 2);
    }
    if (below(w, 12) == 0)
        *(below(w, 2) ? &in->radials : &in->bins) = below(w, 2) ? below(w, 80) : (size_t)next(w);
}

static void draw_trailing(struct worker *w)
{
    struct input *in = &w->in;
    if (below(w, 2)) {
        memcpy(in->bytes[IN_PLAN], "\r\r\n\3\0\0", 6);
        in->length[IN_PLAN] = below(w, 2) ? 6 : damage(w, in->bytes[IN_PLAN], 6, room[IN_PLAN]);
    } else {
        draw_plan(w, 100, 100);
    }
}

/* thresholds of a file, or any bytes */
static void draw_thresholds(struct worker *w)
{
    struct input *in = &w->in;
    const struct sample *s = &samples[below(w, sample_count)];
    for (size_t i = 0; i < 64; i++)
        in->bytes[IN_THRESHOLDS][i] = (uint8_t)next(w);
    if (below(w, 2) && s->block + 74 <= s->file_len)
        memcpy(in->bytes[IN_THRESHOLDS], s->file + s->block + 42, 32);
    in->length[IN_THRESHOLDS] = below(w, 8) ? 32 : below(w, 64);
}

static void new_case(struct worker *w)
{
    struct input *in = &w->in;
    const struct sample *s = pick(w), *t = below(w, 4) ? s : pick(w);
    load(w, s, t, 2);

    in->length[IN_CODES] = below(w, 512);
    for (size_t i = 0; i < in->length[IN_CODES]; i++) {
        uint16_t code = (uint16_t)(below(w, 2) ? below(w, 20) : next(w));
        memcpy(in->bytes[IN_CODES] + 2 * i, &code, 2);
    }
    in->length[IN_ENDS] = below(w, 10);
    in->length[IN_RATES] = below(w, 4) ? in->length[IN_ENDS] : below(w, 10);
    uint64_t end = 0;
    for (size_t i = 0; i < 10; i++) {
        end = i + 1 >= in->length[IN_ENDS] && below(w, 4) ? (uint64_t)1 << (40 + below(w, 20)) : end + below(w, 1000);
        uint32_t rate = (uint32_t)below(w, below(w, 8) ? 65536 : 70000);
        memcpy(in->bytes[IN_ENDS] + 8 * i, &end, 8), memcpy(in->bytes[IN_RATES] + 4 * i, &rate, 4);
    }

    in->length[OUT_THRESHOLDS] = below(w, 8) ? 32 : below(w, 64);
    in->length[OUT_LEVELS] = below(w, 8) ? 16 : below(w, 32);
    in->length[OUT_TABLE] = below(w, 4) ? 26 : below(w, 40);
    in->length[OUT_NAME] = below(w, 4) ? L3_NAME : below(w, 64);
    in->length[INTS] = below(w, 32) ? L3_INTS : below(w, 40);
    in->length[FLOATS] = below(w, 32) ? L3_FLOATS : below(w, 16);

    static const float parameters[] = {0.254F, 25.4F, 1.0F, 0.514444F, 0.0F, -1.0F, 1e38F};
    in->parameter = parameters[below(w, 7)];
    in->scheme = (uint32_t)below(w, below(w, 32) ? 5 : 9);
    if (below(w, 2))
        in->scheme = s->scheme, in->parameter = s->parameter;
    in->clock = below(w, 16) ? 1800000000 : next(w) >> below(w, 64);
    in->kind = (uint32_t)below(w, 6), in->item = (uint32_t)below(w, 10);
    in->index = below(w, 4) ? below(w, 60) : (size_t)next(w);
    in->at = below(w, 4) ? below(w, in->length[IN_BODY] + 8) : (size_t)next(w);
    in->days = (uint16_t)next(w), in->seconds = below(w, 2) ? (int32_t)below(w, 90000) : (int32_t)next(w);
    in->code = (int16_t)(below(w, 2) ? below(w, 200) : next(w));
    in->total = next(w) >> below(w, 64);
    in->number = (uint32_t)(below(w, 8) ? below(w, 50) : next(w));
}

/* ---- a call, twice */

static void fail(const struct worker *w, const char *what, size_t which)
{
    fprintf(stderr, "%s: %s (array %zu), seed %llu, case %llu\n", w->entry, what, which, (unsigned long long)w->seed, (unsigned long long)w->cases);
    atomic_store(&failed, 1);
    atomic_store(&stop, 1);
}

static void place(struct worker *w, int pass, int right, uint8_t fill, void *p[ARRAYS])
{
    for (size_t a = 0; a < ARRAYS; a++) {
        size_t bytes = w->in.length[a] * element[a];
        p[a] = right ? w->arena[pass][a].end - bytes : w->arena[pass][a].start;
        if (a < OUT_AZIMUTHS)
            memcpy(p[a], w->in.bytes[a], bytes);
        else
            memset(p[a], fill, bytes);
    }
}

static int all(const uint8_t *bytes, size_t n, uint8_t fill) { return n == 0 || (bytes[0] == fill && memcmp(bytes, bytes + 1, n - 1) == 0); }

static void twice(struct worker *w, const struct entry *e)
{
    static const uint8_t fills[2] = {0x00, 0xA5};
    void *p[2][ARRAYS];
    uint32_t answer[2];
    int right = (int)below(w, 2), swap = (int)below(w, 2);
    for (int pass = 0; pass < 2; pass++) {
        place(w, pass, pass ^ right, fills[pass ^ swap], p[pass]);
        answer[pass] = e->call(&w->in, p[pass]);
    }
    if (answer[0] != answer[1])
        fail(w, "two answers to one input", 0);
    if (!e->plain && answer[0] > 46 && answer[0] != L3_SHORT_REPORT && answer[0] != L3_BAD_ARGUMENT)
        fail(w, "a number that no refusal has", answer[0]);
    for (size_t a = 0; a < ARRAYS; a++) {
        size_t bytes = w->in.length[a] * element[a];
        const uint8_t *x = p[0][a], *y = p[1][a];
        if (a < OUT_AZIMUTHS) {
            if (memcmp(x, w->in.bytes[a], bytes) != 0 || memcmp(y, w->in.bytes[a], bytes) != 0)
                fail(w, "wrote to what it only reads", a);
            continue;
        }
        uint8_t f = fills[swap], g = fills[1 ^ swap];
        int untouched = all(x, bytes, f) && all(y, bytes, g);
        if ((answer[0] != 0 && a != INTS && a != FLOATS && !untouched) || (answer[0] >= L3_SHORT_REPORT && !e->plain && !untouched))
            fail(w, "wrote to a buffer and refused", a);
        for (size_t i = 0; !untouched && i < bytes; i++)
            if (x[i] != y[i] && !(x[i] == f && y[i] == g)) {
                fail(w, "what was written depends on what was there", a);
                break;
            }
    }
    atomic_fetch_add(&w->counts[e - entries][!e->plain && answer[0] != 0], 1);
}

static void *work(void *argument)
{
    struct worker *w = mine = argument;
    while (!atomic_load(&stop)) {
        new_case(w);
        for (int k = 0; k < 4; k++) {
            size_t part = below(w, parts), n = 0;
            while (part >= entries[n].often)
                part -= entries[n++].often;
            w->entry = entries[n].name;
            if (entries[n].draw != NULL)
                entries[n].draw(w);
            twice(w, &entries[n]);
        }
        w->cases++;
    }
    return NULL;
}

static void touched(int signal)
{
    char words[256];
    int n = mine == NULL ? snprintf(words, sizeof words, "signal %d outside any call\n", signal)
                         : snprintf(words, sizeof words, "%s: signal %d, seed %llu, case %llu: memory outside an array was touched\n", mine->entry, signal,
                                    (unsigned long long)mine->seed, (unsigned long long)mine->cases);
    if (write(2, words, (size_t)n) < 0)
        _exit(3);
    _exit(1);
}

static struct worker workers[2];

/* how many inputs of an entry were accepted (0) or refused (1) */
static unsigned long counted(size_t n, int refused) { return atomic_load(&workers[0].counts[n][refused]) + atomic_load(&workers[1].counts[n][refused]); }

/* the first entry of which no input was accepted, or entry_count */
static size_t untried(void)
{
    size_t n = 0;
    while (n < entry_count && counted(n, 0) > 0)
        n++;
    return n;
}

int main(int count, char **words)
{
    if (count != 4) {
        fprintf(stderr, "fuzz SECONDS SEED FOLDER\n");
        return 2;
    }
    unsigned long seconds = strtoul(words[1], NULL, 10), seed = strtoul(words[2], NULL, 10);
    read_samples(words[3]);
    list_entries();
    draw_for("l3_totals", draw_totals), draw_for("l3_plan_totals", draw_plan_totals), draw_for("l3_trailing", draw_trailing);
    draw_for("l3_legacy16", draw_thresholds);
    signal(SIGSEGV, touched), signal(SIGBUS, touched), signal(SIGILL, touched), signal(SIGFPE, touched), signal(SIGABRT, touched);
    for (size_t t = 0; t < 2; t++) {
        struct worker *w = &workers[t];
        w->seed = 2 * seed + t, w->random = 0x9E3779B97F4A7C15U * (w->seed + 1), w->entry = "none";
        for (size_t a = 0; a < ARRAYS; a++) {
            for (int pass = 0; pass < 2; pass++)
                w->arena[pass][a] = new_arena(room[a]);
            if (a < OUT_AZIMUTHS && (w->in.bytes[a] = calloc(1, room[a] + 64)) == NULL)
                return 2;
        }
        if (pthread_create(&w->thread, NULL, work, w) != 0)
            return 2;
    }
    /* on a busy machine longer, until every entry has accepted an input */
    for (time_t end = time(NULL) + (time_t)seconds; (time(NULL) < end || (untried() < entry_count && time(NULL) < end + 600)) && !atomic_load(&stop);)
        usleep(100000);
    atomic_store(&stop, 1);
    for (size_t t = 0; t < 2; t++)
        pthread_join(workers[t].thread, NULL);
    if (!atomic_load(&failed) && untried() < entry_count) {
        fprintf(stderr, "%s: no input was accepted\n", entries[untried()].name);
        atomic_store(&failed, 1);
    }
    unsigned long accepted = 0, refused = 0;
    for (size_t n = 0; n < entry_count; n++) {
        if (entries[n].plain)
            printf("%-18s %9lu calls\n", entries[n].name, counted(n, 0));
        else
            printf("%-18s %9lu accepted %9lu refused\n", entries[n].name, counted(n, 0), counted(n, 1));
        accepted += counted(n, 0), refused += counted(n, 1);
    }
    printf("%zu entries, %lu inputs each called twice, %lu accepted, %lu refused, %s\n", entry_count, accepted + refused, accepted, refused,
           atomic_load(&failed) ? "FAILED" : "all well");
    return atomic_load(&failed);
}
