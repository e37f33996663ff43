// The model of the file: how it is written, and where records and tables lie in any bytes. The rules are those
// of docs/FORMAT.md; the comments name its sections.
#pragma once
#include <cstdint>
#include <string>
#include <vector>
#include "chance.h"

struct Record {
  Bytes key, value;
};
using Records = std::vector<Record>;

// "Words": a number has 4 bytes, or 8 in a wide file, lowest byte first.
inline uint64_t word_at(const Bytes &file, uint64_t place, int width)
{
  uint64_t word = 0;
  for (int n = 0; n < width; n++) word |= (uint64_t)(unsigned char)file[place + n] << (8 * n);
  return word;
}

inline void set_word(Bytes &file, uint64_t place, uint64_t word, int width)
{
  for (int n = 0; n < width && place + n < file.size(); n++) file[place + n] = (char)(word >> (8 * n));
}

inline void add_word(Bytes &to, uint64_t word, int width)
{
  to.append(width, 0);
  set_word(to, to.size() - width, word, width);
}

// "The hash": 5381, then 33 times as much in 32 bits, with the bits of the next byte turned.
inline uint32_t hash_of(const Bytes &key)
{
  uint32_t hash = 5381;
  for (unsigned char it : key) hash = (hash * 33) ^ it;
  return hash;
}

// "The parts": the head has 256 pointers, each of two words: the place of a table, and its slots.
const uint64_t TABLES = 256;
inline uint64_t head_size(int width) { return 2 * TABLES * width; }
struct Pointer {
  uint64_t table, slots;
};
inline Pointer pointer_at(const Bytes &file, uint64_t number, int width)
{
  uint64_t place = 2 * width * number;
  return {word_at(file, place, width), word_at(file, place + width, width)};
}

// A slot: the hash of a key, and the place of a record with it. One with the place 0 is empty.
struct Slot {
  uint64_t hash, place;
};
inline uint64_t slot_place(Pointer pointer, uint64_t slot, int width) { return pointer.table + 2 * width * slot; }
inline Slot slot_at(const Bytes &file, Pointer pointer, uint64_t slot, int width)
{
  uint64_t place = slot_place(pointer, slot, width);
  return {word_at(file, place, width), word_at(file, place + width, width)};
}
inline uint64_t home_of(uint64_t hash, uint64_t slots) { return hash / 256 % slots; }

// A record: the lengths of its key and its value, then both.
inline void add_record(Bytes &to, const Record &it, int width)
{
  add_word(to, it.key.size(), width);
  add_word(to, it.value.size(), width);
  to += it.key + it.value;
}

// A table of some slots, each in the first empty one of its search. `entries` is in the order of its filling.
inline std::vector<Slot> table_of(const std::vector<Slot> &entries, uint64_t slots)
{
  std::vector<Slot> table(slots, {0, 0});
  for (const Slot &it : entries) {
    uint64_t at = home_of(it.hash, slots);
    while (table[at].place) at = (at + 1) % slots;
    table[at] = it;
  }
  return table;
}
inline void add_table(Bytes &to, const std::vector<Slot> &table, int width)
{
  for (const Slot &it : table) {
    add_word(to, it.hash, width);
    add_word(to, it.place, width);
  }
}

// The records of a file one after the other, and the slots that each table is to have of them.
struct Body {
  Bytes bytes;
  std::vector<std::vector<Slot>> entries;

  Body(const Records &records, int width) : entries(TABLES)
  {
    for (const Record &it : records) {
      uint32_t hash = hash_of(it.key);
      entries[hash % TABLES].push_back({hash, head_size(width) + bytes.size()});
      add_record(bytes, it, width);
    }
  }
};

// "What is written": tables of twice as many slots as records, in the order of their numbers. A pointer without
// slots has the place at which the next table begins.
inline Bytes file_of(const Records &records, int width)
{
  Body body(records, width);
  Bytes head, tables;
  for (const auto &entries : body.entries) {
    add_word(head, head_size(width) + body.bytes.size() + tables.size(), width);
    add_word(head, 2 * entries.size(), width);
    add_table(tables, table_of(entries, 2 * entries.size()), width);
  }
  return head + body.bytes + tables;
}
