/* Values of numbers as the encodings of Variants, in C alone: a type id and a little-endian number, or a count and
 * numbers (OPC 10000-6, 5.2.2.16). ua.h includes this.
 *
 * For each of the types below, as for `double` and 11 in
 *
 *     size_t ua_put_double(uint8_t *to, double value);
 *         puts the encoding to the front of at least UA_NUMBER_ROOM octets, and says how many it takes
 *     int ua_get_double(const uint8_t *from, size_t from_len, double *value);
 *         1 where the octets are just the encoding of a Double, which is put into `value`, else 0
 *     size_t ua_put_double_array(uint8_t *to, size_t room, const double *values, size_t count);
 *         the same of an array; where it takes more than `room` octets nothing is written. SIZE_MAX: no array has
 *         as many elements, and nothing is written
 *     int ua_get_double_array(const uint8_t *from, size_t from_len, double *values, size_t room, size_t *count);
 *         1 where the octets are just the encoding of an array of Doubles without dimensions, whose first `room`
 *         elements are put into `values`; `count` is how many it has, 0 where it is null
 */

/* The octets of the largest number, with its type id. */
#define UA_NUMBER_ROOM 9

#define UA_NUMBERS(name, id, type, word)                                                                          \
    static inline void ua_out_##name(uint8_t *to, type value) {                                                   \
        word bits;                                                                                                \
        memcpy(&bits, &value, sizeof bits);                                                                       \
        for (size_t at = 0; at < sizeof bits; at++)                                                               \
            to[at] = (uint8_t)(bits >> 8 * at);                                                                   \
    }                                                                                                             \
    static inline type ua_in_##name(const uint8_t *from) {                                                        \
        word bits = 0;                                                                                            \
        type value;                                                                                               \
        for (size_t at = 0; at < sizeof bits; at++)                                                               \
            bits = (word)(bits | (word)((word)from[at] << 8 * at));                                               \
        memcpy(&value, &bits, sizeof bits);                                                                       \
        return value;                                                                                             \
    }                                                                                                             \
    static inline size_t ua_put_##name(uint8_t *to, type value) {                                                 \
        to[0] = id;                                                                                               \
        ua_out_##name(to + 1, value);                                                                             \
        return 1 + sizeof(word);                                                                                  \
    }                                                                                                             \
    static inline int ua_get_##name(const uint8_t *from, size_t from_len, type *value) {                          \
        if (from_len != 1 + sizeof(word) || from[0] != id)                                                        \
            return 0;                                                                                             \
        *value = ua_in_##name(from + 1);                                                                          \
        return 1;                                                                                                 \
    }                                                                                                             \
    static inline size_t ua_put_##name##_array(uint8_t *to, size_t room, const type *values, size_t count) {      \
        if (count > 0x7fffffff || count > (SIZE_MAX - 5) / sizeof(word))                                          \
            return SIZE_MAX;                                                                                      \
        size_t size = 5 + count * sizeof(word);                                                                   \
        if (size > room)                                                                                          \
            return size;                                                                                          \
        to[0] = 0x80 | id;                                                                                        \
        for (size_t at = 0; at < 4; at++)                                                                         \
            to[1 + at] = (uint8_t)(count >> 8 * at);                                                              \
        for (size_t at = 0; at < count; at++)                                                                     \
            ua_out_##name(to + 5 + at * sizeof(word), values[at]);                                                \
        return size;                                                                                              \
    }                                                                                                             \
    static inline int ua_get_##name##_array(const uint8_t *from, size_t from_len, type *values, size_t room,      \
                                            size_t *count) {                                                      \
        *count = 0;                                                                                               \
        if (from_len < 5 || from[0] != (0x80 | id))                                                               \
            return 0;                                                                                             \
        uint32_t claimed = (uint32_t)from[1] | (uint32_t)from[2] << 8 | (uint32_t)from[3] << 16 |                 \
                           (uint32_t)from[4] << 24;                                                               \
        if (claimed > 0x7fffffff) /* any negative count is a null array */                                        \
            return from_len == 5;                                                                                 \
        if ((from_len - 5) / sizeof(word) != claimed || (from_len - 5) % sizeof(word) != 0)                       \
            return 0;                                                                                             \
        *count = claimed;                                                                                         \
        for (size_t at = 0; at < claimed && at < room; at++)                                                      \
            values[at] = ua_in_##name(from + 5 + at * sizeof(word));                                              \
        return 1;                                                                                                 \
    }

UA_NUMBERS(boolean, 1, uint8_t, uint8_t)
UA_NUMBERS(sbyte, 2, int8_t, uint8_t)
UA_NUMBERS(byte, 3, uint8_t, uint8_t)
UA_NUMBERS(int16, 4, int16_t, uint16_t)
UA_NUMBERS(uint16, 5, uint16_t, uint16_t)
UA_NUMBERS(int32, 6, int32_t, uint32_t)
UA_NUMBERS(uint32, 7, uint32_t, uint32_t)
UA_NUMBERS(int64, 8, int64_t, uint64_t)
UA_NUMBERS(uint64, 9, uint64_t, uint64_t)
UA_NUMBERS(float, 10, float, uint32_t)
UA_NUMBERS(double, 11, double, uint64_t)
UA_NUMBERS(date_time, 13, int64_t, uint64_t)
UA_NUMBERS(status_code, 19, uint32_t, uint32_t)

/* A reading of a value whose encoding stands at the front of octets: a status (0 is Good) and a source time. */
static inline struct ua_reading ua_reading_of(size_t value_len, uint32_t status, int64_t source_time) {
    struct ua_reading reading;
    memset(&reading, 0, sizeof reading);
    reading.has_value = 1;
    reading.value_len = value_len;
    reading.has_status = status != 0;
    reading.status = status;
    reading.has_source_time = 1;
    reading.source_time = source_time;
    return reading;
}
