// Records of a drawer, byte by byte.
#ifndef RECORDS_H
#define RECORDS_H

#include "maps.h"

enum { RECORD_BYTES = 2048, MOST_RECORDS = 1024 };

// Where the parts of a record stand; the die number is in front.
enum { RECORD_N_AT = 4, RECORD_ZERO_AT = 5, RECORD_M_AT = 6, RECORD_WORD_AT = 8 };

// Writes a whole record, the table as it stands, zeros behind it.
void put_record(uint8_t *record, uint32_t die, struct second_map map);
void put_die(uint8_t *record, uint32_t die);

// Two bytes, the lower one first.
void put_16(uint8_t *at, uint64_t number);
uint16_t get_16(const uint8_t *at);

// The map is the one of a good record: its word is a dart table too.
uint32_t record_die(const uint8_t *record);
struct map record_map(const uint8_t *record);

// Records count from 1.
uint8_t *record_at(uint8_t *drawer, uint64_t record);

// Whether one of the first `count` records has the layout of a record.
bool layout_stands(uint8_t *drawer, uint64_t count, const uint8_t *record);

#endif
