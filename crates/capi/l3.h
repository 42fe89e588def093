/* The NEXRAD Level III reader. Link with libcapi.a, which `tools/staticlib` writes to target/staticlib, and with -lm.
 *
 * No function allocates, keeps anything between calls, reads a file or looks at a clock. Each returns on every input and reads and
 * writes only inside the arrays that it is given. An array passes as a pointer and a length in elements; its pointer must not be null,
 * also for length 0. Arrays that a call only reads may overlap each other; one that it writes must overlap no other array of the call.
 * Calls at the same time are safe if no call writes to an array that another one has; what is only read may be shared.
 *
 * What is returned:
 *   0        accepted (l3_known: 1 for a known code, else 0; l3_version: the version)
 *   1 to 46  refused; the number is the one of the README's table
 *   100      L3_SHORT_REPORT: ints has fewer than L3_INTS places (24), or floats fewer than L3_FLOATS (8)
 *   101      L3_BAD_ARGUMENT: an argument that the function does not take: an unknown scheme, kind or item, a number that is no
 *            refusal's, an array of a length that is not the one asked for, or is too short for a name
 * After 100 and 101 nothing is written. 100 comes first.
 *
 * The report: the first 24 places of ints and the first 8 of floats are written, and later places are left as they are. After a
 * refusal ints has its whole numbers in the table's order and floats its float, from place 0 on. Otherwise they have what stands below.
 * Places of which nothing is said hold 0. A number that takes all 64 bits (the index in refusal 3, the position of l3_xdr) stands in
 * ints as its bits.
 *
 * A NaN in floats, azimuths, physical or levels has no particular sign or payload.
 */
#ifndef L3_H
#define L3_H

#include <stddef.h>
#include <stdint.h>

#ifdef __cplusplus
extern "C" {
#endif

/* What is returned beside the refusals' numbers. */
enum { L3_ACCEPTED = 0, L3_SHORT_REPORT = 100, L3_BAD_ARGUMENT = 101 };

/* Places of ints; L3_INTS is how many there are. */
enum {
    L3_TOKEN = 0,         /* place of the AWIPS token in the file */
    L3_PRODUCT_CODE = 1,
    L3_VCP = 2,
    L3_DAYS = 3,
    L3_SECONDS = 4,
    L3_TIME = 5,          /* scan time in seconds since 1970 */
    L3_PACKET = 6,        /* one of the packets below */
    L3_RADIALS = 7,
    L3_BINS = 8,
    L3_RANGE_SCALE = 9,   /* of packets 16 and AF1F */
    L3_HAS_SCALE = 10,    /* 1 if a scale is declared, else 0 */
    L3_LEVELS = 11,       /* its level count; under precipitation how many codes are valid, 0 to 65,536 */
    L3_FLOOR = 12,        /* its floor */
    L3_CEILING = 13,      /* l3_precip alone: the ceiling, or -1 */
    L3_FIELDS = 14,       /* l3_totals alone: how many fields the plan has */
    L3_POSITION = 15,     /* l3_xdr and l3_items alone */
    L3_LATITUDE_THOUSANDTHS = 16,   /* latitude and longitude in thousandths of a degree, height in feet and elevation in tenths of a */
    L3_LONGITUDE_THOUSANDTHS = 17,  /* degree, as they stand in the file: two desks that print these print the same digits */
    L3_HEIGHT_FEET = 18,
    L3_ELEVATION_TENTHS = 19,
    L3_INTS = 24          /* 20 to 23 hold 0 */
};

/* Places of floats; L3_FLOATS is how many there are. */
enum {
    L3_LATITUDE = 0,      /* degrees: ints[L3_LATITUDE_THOUSANDTHS] / 1000.0 */
    L3_LONGITUDE = 1,     /* ints[L3_LONGITUDE_THOUSANDTHS] / 1000.0 */
    L3_HEIGHT = 2,        /* m: ints[L3_HEIGHT_FEET] * 0.3048 */
    L3_ELEVATION = 3,     /* degrees: ints[L3_ELEVATION_TENTHS] / 10.0 */
    L3_GATE_WIDTH = 4,    /* m, of packet 28 */
    L3_FIRST_GATE = 5,
    L3_MINIMUM = 6,       /* of the declared scale */
    L3_STEP = 7,
    L3_FLOATS = 8
};

/* Places of ints of l3_date. */
enum { L3_YEAR = 0, L3_MONTH = 1, L3_DAY = 2 };

/* Places of ints of l3_charge. */
enum { L3_CHARGE = 0, L3_REMAINDER = 1 };

enum { L3_PACKET_16 = 16, L3_PACKET_28 = 28, L3_PACKET_AF1F = 44831 };

/* Schemes. parameter is the factor of L3_PRECIPITATION and the post-scale of L3_LEGACY: any float is taken, a NaN or an infinity too.
 * Under the others it is not looked at. */
enum { L3_HALFWORD = 0, L3_FLOAT = 1, L3_PRECIPITATION = 2, L3_LEGACY = 3, L3_CLASS = 4 };

/* Kinds of l3_field, items of l3_xdr. */
enum { L3_FIELD_I16 = 0, L3_FIELD_U16 = 1, L3_FIELD_I32 = 2, L3_FIELD_PAIR = 3 };
enum { L3_XDR_INT = 0, L3_XDR_UINT = 1, L3_XDR_FLOAT = 2, L3_XDR_STRING = 3, L3_XDR_ARRAY = 4, L3_XDR_PARAMETERS = 5 };

/* What ints[0] names in refusal 23, the item that is cut short, and in refusal 36, the buffer that is too short. */
enum {
    L3_CUT_INT = 0,
    L3_CUT_UINT = 1,
    L3_CUT_FLOAT = 2,
    L3_CUT_STRING_BODY = 3,
    L3_CUT_PADDING = 4,
    L3_CUT_ARRAY_BODY = 5,
    L3_CUT_PACKET_BODY = 6
};
enum { L3_AZIMUTHS = 0, L3_CODES = 1, L3_PHYSICAL = 2, L3_MARKS = 3, L3_TOTALS = 4, L3_OUTPUT = 5 };

/* How many message codes are known. */
enum { L3_KNOWN_CODES = 26 };

/* Places of ints and floats of l3_product; the moments that it names, after the Rust, and their units. */
enum { L3_KNOWN = 0, L3_SCHEME = 1, L3_MOMENT = 2, L3_UNIT = 3, L3_GATE_LENGTH = 4, L3_HAS_ELEVATION = 5 };
enum { L3_PARAMETER = 0 };
enum {
    L3_DBZH = 0,          /* reflectivity */
    L3_VRADH = 1,         /* radial velocity */
    L3_WRADH = 2,         /* spectrum width */
    L3_SRMV = 3,          /* storm relative velocity */
    L3_ZDR = 4,           /* differential reflectivity */
    L3_RHOHV = 5,         /* correlation coefficient */
    L3_KDP = 6,           /* specific differential phase */
    L3_HCLASS = 7,        /* hydrometeor class */
    L3_ACCUM = 8,         /* rain */
    L3_RATE = 9           /* rain rate */
};
enum { L3_DBZ = 0, L3_METRES_PER_SECOND = 1, L3_DECIBELS = 2, L3_RATIO = 3, L3_DEGREES_PER_KILOMETRE = 4, L3_CLASSES = 5,
       L3_MILLIMETRES = 6, L3_MILLIMETRES_PER_HOUR = 7 };

/* Places that l3_refusal_name writes. */
enum { L3_NAME = 32 };

/* The version of this header; l3_version has the library's. */
#define L3_VERSION 40000

/* The sweep of a file and its unpacked symbology body. clock is the present in seconds since 1970; one above 2^40 is refused with 6.
 * Accepted, the front of each buffer is written, and the rest left as it is: a centre in degrees for each radial to azimuths, the codes
 * by row to codes, their physical values to physical. A centre of packet 16 or AF1F is from 0 up to but not including 360; that of packet
 * 28 has the sign of the packet's azimuth plus half its width, and may be a NaN. After a refusal the buffers are as they were, and after
 * a clear scan too: a body of packet 16 or AF1F with no radials is accepted with ints[L3_RADIALS] 0, however short the buffers are.
 * ints[L3_TOKEN] to [L3_FLOOR], ints[L3_LATITUDE_THOUSANDTHS] to [L3_ELEVATION_TENTHS] and all of floats are as named above. */
uint32_t l3_sweep(const uint8_t *file, size_t file_len, uint64_t clock, uint32_t scheme, float parameter,
                  const uint8_t *body, size_t body_len, double *azimuths, size_t azimuths_len,
                  uint16_t *codes, size_t codes_len, float *physical, size_t physical_len,
                  int64_t *ints, size_t ints_len, double *floats, size_t floats_len);

/* The same for an archive: a body that carries stray bytes is refused. All run lengths of a radial of packet AF1F, zero ones too, must
 * sum to exactly the number of bins, and the count of one of packet 16 must be that number or, where it is odd, one more; else 45, with
 * the lowest such radial in ints[0]. The body must end with its last radial, a clear scan at byte 30, packet 28 with its payload; else
 * 46. Both come after all refusals of the body and before 10. What is accepted gets the answer of l3_sweep. */
uint32_t l3_strict(const uint8_t *file, size_t file_len, uint64_t clock, uint32_t scheme, float parameter,
                   const uint8_t *body, size_t body_len, double *azimuths, size_t azimuths_len,
                   uint16_t *codes, size_t codes_len, float *physical, size_t physical_len,
                   int64_t *ints, size_t ints_len, double *floats, size_t floats_len);

/* The same as l3_sweep with gaps: a radial that l3_sweep refuses with 22 or 34 gives a row of codes 0 and values NaN, and reading goes
 * on at the next. A mark for each radial is written to marks: 1 for a gap, 0 for a whole row. All other refusals are those of l3_sweep, in their order; a
 * marks of fewer places than radials is 36, after the other buffers. */
uint32_t l3_gaps(const uint8_t *file, size_t file_len, uint64_t clock, uint32_t scheme, float parameter,
                 const uint8_t *body, size_t body_len, double *azimuths, size_t azimuths_len,
                 uint16_t *codes, size_t codes_len, float *physical, size_t physical_len, uint8_t *marks, size_t marks_len,
                 int64_t *ints, size_t ints_len, double *floats, size_t floats_len);

/* Two receptions of one product: the sweeps of two bodies with the same file, each read as by l3_gaps, merged. A row is the first's if it
 * is whole there, else the second's if it is whole there, else a gap, marked with 1. Refused are, in this order: what l3_gaps refuses of
 * first before 36, then of second; with 43 bodies that differ in packet, counts, a centre, range scale or gate figures; with 44 rows that
 * are whole in both and have other codes, ints[0] the lowest such radial; 36 as by l3_gaps. first and second may be the same. */
uint32_t l3_merge(const uint8_t *file, size_t file_len, uint64_t clock, uint32_t scheme, float parameter,
                  const uint8_t *first, size_t first_len, const uint8_t *second, size_t second_len, double *azimuths, size_t azimuths_len,
                  uint16_t *codes, size_t codes_len, float *physical, size_t physical_len, uint8_t *marks, size_t marks_len,
                  int64_t *ints, size_t ints_len, double *floats, size_t floats_len);

/* The sweep as by l3_sweep, and a total for each field of a field plan. plan is a file of records: a tag (one byte), a length (two bytes),
 * the content; all numbers are unsigned and big-endian. Tag 1, length 2: the number of a field. Tag 2, length 8: a strip of the field
 * named last, as radial, first gate, number of gates and weight, two bytes each; radials and gates are counted from 0. A field's total is
 * the sum over the cells of its strips of weight * (code - floor), for codes from the floor up to the ceiling if there is one; a cell
 * under several strips counts for each of them. Accepted, the totals stand in the front of totals in the order of the plan,
 * ints[L3_FIELDS] of them, each below 2^60; later places are left as they are. A plan of no bytes has no fields and is accepted.
 * Refused are, in this order: what l3_sweep refuses, where any scheme but L3_PRECIPITATION is 10; with 37 a record that is cut short or
 * has another tag or length, a strip before any field, one of no gates, and strip 4,097; with 38 a field's number that was named before;
 * with 39 a strip that leaves the picture; with 36 a totals of fewer places than fields. 37, 38 and 39 have the record's offset in
 * ints[0], and each is looked for in the whole plan before the next. After a refusal the buffers are as they were. */
uint32_t l3_totals(const uint8_t *file, size_t file_len, uint64_t clock, uint32_t scheme, float parameter,
                   const uint8_t *body, size_t body_len, const uint8_t *plan, size_t plan_len,
                   double *azimuths, size_t azimuths_len, uint16_t *codes, size_t codes_len, float *physical, size_t physical_len,
                   uint64_t *totals, size_t totals_len, int64_t *ints, size_t ints_len, double *floats, size_t floats_len);

/* The totals of a field plan over the codes of any picture of radials * bins cells, row after row: one that l3_merge gave, say. Floor and
 * ceiling are those of the description block at place block, as in l3_precip. Accepted, the totals stand in the front of totals as
 * l3_totals leaves them, and ints[0] is how many; later places of totals are left as they are. A cell of a gap has code 0: whether a
 * strip lies in one only the marks tell. Refused are, in this order: what l3_precip refuses; with 36 codes of fewer places than cells;
 * what l3_totals refuses with 37, 38, 39 and then 36. After a refusal totals is as it was. */
uint32_t l3_plan_totals(const uint8_t *file, size_t file_len, size_t block, const uint16_t *codes, size_t codes_len,
                        size_t radials, size_t bins, const uint8_t *plan, size_t plan_len, uint64_t *totals, size_t totals_len,
                        int64_t *ints, size_t ints_len, double *floats, size_t floats_len);

/* A symbology body alone, of any packet. ints[L3_PACKET] to [L3_RANGE_SCALE], floats[L3_GATE_WIDTH] and [L3_FIRST_GATE] and the two
 * buffers as in l3_sweep. */
uint32_t l3_symbology(const uint8_t *body, size_t body_len, double *azimuths, size_t azimuths_len,
                      uint16_t *codes, size_t codes_len, int64_t *ints, size_t ints_len, double *floats, size_t floats_len);

/* The body of packet 16 that has the rows of a body of packet AF1F, for displays that read no runs. Accepted, it stands in the front of
 * output, and later places are left as they are; ints[0] is its length, 30 + radials * (6 + bins, or bins + 1 where bins is odd). It has
 * the original's bins, radials, range scale, bytes 22-25, starts and widths, and first bin 0. l3_sweep answers it as it answers the
 * original, under any scheme but L3_LEGACY, but for ints[L3_PACKET]. Refused are: what l3_symbology refuses, where any code but AF1F is
 * 14 as soon as it is read, and a first bin that is not 0 is 17, after 16; with 42 a body of 65,535 bins, after 17; with 36 an output
 * that is too short, last. After a refusal output is as it was. */
uint32_t l3_export16(const uint8_t *body, size_t body_len, uint8_t *output, size_t output_len,
                     int64_t *ints, size_t ints_len, double *floats, size_t floats_len);

/* ints[0]: the place of the AWIPS token; the product stands there, and the site three bytes on. */
uint32_t l3_token(const uint8_t *file, size_t file_len, int64_t *ints, size_t ints_len, double *floats, size_t floats_len);

/* ints[0]: the place of the message header. The description block stands 18 bytes on, and what follows it, the body or the bzip2
 * stream that it is packed in, 120. */
uint32_t l3_message_header(const uint8_t *file, size_t file_len, int64_t *ints, size_t ints_len,
                           double *floats, size_t floats_len);

/* ints[0]: the scan time in seconds since 1970. clock as in l3_sweep. */
uint32_t l3_scan_time(uint16_t days, int32_t seconds, uint64_t clock, int64_t *ints, size_t ints_len,
                      double *floats, size_t floats_len);

/* The calendar day of a day number such as ints[L3_DAYS]; day 1 is 1 January 1970, day 65,535 is 5 June 2149. ints[L3_YEAR], [L3_MONTH]
 * from 1 to 12 and [L3_DAY] from 1 on. Day 0 is refused with 4, its seconds 0. */
uint32_t l3_date(uint16_t days, int64_t *ints, size_t ints_len, double *floats, size_t floats_len);

/* Field index of the description block at place block. The value is in ints[0]; of L3_FIELD_PAIR, which is two f32, scale and offset are
 * in floats[0] and [1]. */
uint32_t l3_field(const uint8_t *file, size_t file_len, size_t block, size_t index, uint32_t kind,
                  int64_t *ints, size_t ints_len, double *floats, size_t floats_len);

/* The fields of the description block: ints[L3_PRODUCT_CODE] to [L3_SECONDS], ints[L3_LATITUDE_THOUSANDTHS] to [L3_ELEVATION_TENTHS] and
 * floats[L3_LATITUDE] to [L3_ELEVATION]. */
uint32_t l3_pdb(const uint8_t *file, size_t file_len, size_t block, int64_t *ints, size_t ints_len,
                double *floats, size_t floats_len);

/* The scale fields of the halfword and of the float scheme: ints[L3_LEVELS], floats[L3_MINIMUM] and [L3_STEP]. */
uint32_t l3_linear(const uint8_t *file, size_t file_len, size_t block, int64_t *ints, size_t ints_len,
                   double *floats, size_t floats_len);
uint32_t l3_float(const uint8_t *file, size_t file_len, size_t block, int64_t *ints, size_t ints_len,
                  double *floats, size_t floats_len);

/* Those of the precipitation family: ints[L3_FLOOR] and [L3_CEILING], floats[L3_MINIMUM] and [L3_STEP]. Any factor is taken. */
uint32_t l3_precip(const uint8_t *file, size_t file_len, size_t block, float factor, int64_t *ints, size_t ints_len,
                   double *floats, size_t floats_len);

/* The 32 threshold bytes, written to thresholds. thresholds_len must be 32. */
uint32_t l3_threshold(const uint8_t *file, size_t file_len, size_t block, uint8_t *thresholds, size_t thresholds_len,
                      int64_t *ints, size_t ints_len, double *floats, size_t floats_len);

/* The sixteen legacy levels of 32 threshold bytes. thresholds_len must be 32, levels_len 16; any post_scale is taken. Returns 0 or 101. */
uint32_t l3_legacy16(const uint8_t *thresholds, size_t thresholds_len, float post_scale, float *levels, size_t levels_len);

/* The physical values of codes, by the scale fields of the description block at place block. scheme and parameter as in l3_sweep.
 * Refused are, in this order, the scale fields, with 3, 7 or 8 as in l3_linear, l3_float, l3_precip and l3_threshold (class has none), and
 * with 36 a physical of fewer places than codes. Accepted, the first codes_len places of physical are written, and the rest left as it is;
 * after a refusal physical is as it was. Any codes are taken (a legacy code above 15 is NaN), and no packet or step is
 * looked at: 9 and 10 are of l3_sweep alone. */
uint32_t l3_physical(const uint8_t *file, size_t file_len, size_t block, uint32_t scheme, float parameter,
                     const uint16_t *codes, size_t codes_len, float *physical, size_t physical_len,
                     int64_t *ints, size_t ints_len, double *floats, size_t floats_len);

/* Whether bytes may stand after the body. */
uint32_t l3_trailing(const uint8_t *bytes, size_t bytes_len, int64_t *ints, size_t ints_len, double *floats, size_t floats_len);

/* 1 if the message code is known, else 0. */
uint32_t l3_known(int16_t code);

/* What the products of a message code are. ints[L3_KNOWN] is 1 for a known code, else 0, and then all other places too.
 * floats[L3_PARAMETER] is the parameter that goes with the scheme, 0 for those that have none. The gate length is in metres, 0 where the
 * code does not fix it: then the packet has it. */
uint32_t l3_product(int16_t code, int64_t *ints, size_t ints_len, double *floats, size_t floats_len);

/* The name of a refusal as the README's table has it, in ASCII with zero bytes behind it, in the first L3_NAME places of name; later places
 * are left as they are. Returns 0, or 101 for a number that is no refusal's and for a name of fewer places than L3_NAME, which is then as
 * it was. */
uint32_t l3_refusal_name(uint32_t number, uint8_t *name, size_t name_len);

/* The library's version: major * 10000 + minor * 100 + patch. */
uint32_t l3_version(void);

/* The known message codes, ascending, in the first L3_KNOWN_CODES places of table; later places are left as they are. table_len must be
 * L3_KNOWN_CODES or more. Returns 0 or 101. */
uint32_t l3_codes(uint16_t *table, size_t table_len);

/* One XDR item at a position of the payload. L3_XDR_INT, L3_XDR_UINT: the value in ints[0]; L3_XDR_FLOAT: in floats[0]; L3_XDR_STRING,
 * L3_XDR_ARRAY (of integers): the place of the first byte in ints[0] and the number of bytes or integers in ints[1]; L3_XDR_PARAMETERS, a
 * list of two strings each: no value. ints[L3_POSITION]: the position after the read; after a refusal, where it stopped. */
uint32_t l3_xdr(uint32_t op, const uint8_t *payload, size_t payload_len, size_t at, int64_t *ints, size_t ints_len,
                double *floats, size_t floats_len);

/* A payload read with one cursor from its first byte on: an int, a uint, a float, a string, an array of integers, the head of a list (its
 * count and a pointer), a list of parameters, each from where the one before it ended, after a refusal too. item says which of them is
 * reported, from 0: as l3_xdr does, and for 5 with the number of elements in ints[0]. 7: ints[0] is the number of bytes left at the end. */
uint32_t l3_items(uint32_t item, const uint8_t *payload, size_t payload_len, int64_t *ints, size_t ints_len,
                  double *floats, size_t floats_len);

/* A big-endian number at an offset. kind: 0 u16, 1 i16, 2 i32. ints[0]: 1 if its bytes are there, else 0; ints[1]: the number. */
uint32_t l3_read(uint32_t kind, const uint8_t *bytes, size_t bytes_len, size_t offset, int64_t *ints, size_t ints_len,
                 double *floats, size_t floats_len);

/* The charge of a total by tariff: ends has the upper ends of its bands, rates their rates in cents per 1,000 units of total.
 * ints[L3_CHARGE]: the charge in cents, rounded down once; ints[L3_REMAINDER]: what that leaves, 0 to 999 thousandths of a cent. Refused
 * with 40: other than 1 to 8 bands, ends_len and rates_len that differ, ends that do not ascend strictly, a last end below 2^40, a rate
 * above 65,535; then with 41 a total above 2^40. */
uint32_t l3_charge(uint64_t total, const uint64_t *ends, size_t ends_len, const uint32_t *rates, size_t rates_len,
                   int64_t *ints, size_t ints_len, double *floats, size_t floats_len);

#ifdef __cplusplus
}
#endif

#endif
