// Drawn databases: as the program writes them, as others might, and damaged ones.
#pragma once
#include "damage.h"
#include "draw_texts.h"

// A file of another maker: with other numbers of slots, filled in another order, tables in another order, something
// in its empty slots, in pointers without slots, or behind the tables.
inline Bytes foreign_file(Chance &chance, const Records &records, int width)
{
  Body body(records, width);
  uint64_t tables_at = head_size(width) + body.bytes.size();
  std::vector<uint64_t> order;
  for (uint64_t n = 0; n < TABLES; n++)
    if (!body.entries[n].empty() || chance.of_1000(4)) order.push_back(n);
  chance.shuffle(order);
  Bytes head(head_size(width), 0), tables;
  uint64_t unused = chance.percent(50) ? 0 : chance.one_of({0, tables_at, 1ull << (8 * width - 1)});
  for (uint64_t n = 0; n < TABLES; n++) set_word(head, 2 * width * n, unused, width);
  for (uint64_t n : order) {
    std::vector<Slot> entries = body.entries[n];
    uint64_t many = entries.size(), slots = many + chance.one_of({0, 0, 1, 2, many, 2 * many, 7});
    if (chance.percent(50)) chance.shuffle(entries);
    std::vector<Slot> table = table_of(entries, slots ? slots : 1);
    if (chance.percent(10))
      for (Slot &it : table)
        if (!it.place) it.hash = (uint32_t)chance.next();
    set_word(head, 2 * width * n, tables_at + tables.size(), width);
    set_word(head, 2 * width * n + width, table.size(), width);
    add_table(tables, table, width);
  }
  return head + body.bytes + tables + (chance.percent(10) ? chance.bytes(chance.between(1, 40)) : Bytes());
}

// A word that may be taken for a place or a length.
inline uint64_t odd_word(Chance &chance, const Bytes &file, int width)
{
  uint64_t size = file.size(), greatest = width == 4 ? 0xffffffff : UINT64_MAX;
  switch (chance.below(12)) {
  case 0: return 0;
  case 1: return chance.below(4);
  case 2: return greatest;
  case 3: return greatest - chance.below(16);
  case 4: return size;
  case 5: return size + chance.below(17) - 8;
  case 6: return head_size(width);
  case 7: return head_size(width) + chance.below(17) - 8;
  case 8: return chance.below(size + 1);
  case 9: return 1ull << (8 * width - 1);
  case 10: return size / 2;
  default: return chance.next() & greatest;
  }
}

// The place of a word: of the head, of what follows it, or anywhere.
inline uint64_t odd_place(Chance &chance, const Bytes &file, int width)
{
  uint64_t how = chance.below(100), head = head_size(width), size = file.size();
  if (how < 35 && size >= head) return width * chance.below(head / width);
  if (how < 80 && size > head + width) return std::min<uint64_t>(size - width, head + chance.below(size - head));
  return size > (uint64_t)width ? chance.below(size - width + 1) : 0;
}

// A table with slots that lies inside, if there is one.
inline bool drawn_table(Chance &chance, const Bytes &file, int width, uint64_t &number)
{
  std::vector<uint64_t> used;
  for (uint64_t n = 0; n < TABLES && !is_short(file, width); n++) {
    Pointer it = pointer_at(file, n, width);
    if (it.slots && !is_outside(file, it, width)) used.push_back(n);
  }
  if (used.empty()) return false;
  number = chance.one_of(used);
  return true;
}

// Swaps, copies or empties words that are as long as a pointer or a slot.
inline void swap_bytes(Bytes &file, uint64_t one, uint64_t other, uint64_t many)
{
  Bytes kept = file.substr(one, many);
  file.replace(one, many, file, other, many);
  file.replace(other, many, kept);
}

// Puts what a used slot has into the first empty one of its search, where it is reached too.
inline void repeat_slot(Bytes &file, Pointer pointer, uint64_t slot, int width)
{
  Slot it = slot_at(file, pointer, slot, width);
  for (uint64_t seen = 0, at = slot; it.place && seen < pointer.slots; seen++, at = (at + 1) % pointer.slots)
    if (!slot_at(file, pointer, at, width).place) {
      file.replace(slot_place(pointer, at, width), 2 * width, file, slot_place(pointer, slot, width), 2 * width);
      return;
    }
}

inline void damage_slot(Chance &chance, Bytes &file, int width)
{
  uint64_t number;
  if (!drawn_table(chance, file, width, number)) return;
  Pointer pointer = pointer_at(file, number, width);
  uint64_t slot = chance.below(pointer.slots), other = chance.below(pointer.slots), size = 2 * width;
  uint64_t place = slot_place(pointer, slot, width), other_place = slot_place(pointer, other, width);
  switch (chance.below(7)) {
  case 0: return set_word(file, place + width, 0, width);
  case 1: file.replace(place, size, file, other_place, size); return;
  case 2: return swap_bytes(file, place, other_place, size);
  case 3: return set_word(file, place, word_at(file, place, width) ^ (1ull << chance.below(8 * width)), width);
  case 4: return set_word(file, place + width, odd_word(chance, file, width), width);
  default: return repeat_slot(file, pointer, slot, width);
  }
}

// Swaps two pointers of the head, one of which has slots.
inline void swap_pointers(Chance &chance, Bytes &file, int width)
{
  uint64_t number, other = chance.below(TABLES);
  if (drawn_table(chance, file, width, number)) swap_bytes(file, 2 * width * number, 2 * width * other, 2 * width);
}

// A word a little greater or less.
inline void shift_word(Chance &chance, Bytes &file, int width)
{
  uint64_t place = odd_place(chance, file, width), by = chance.one_of({1, 2, (uint64_t)width, 2 * (uint64_t)width, 256});
  if (place + width > file.size()) return;
  uint64_t word = word_at(file, place, width);
  set_word(file, place, chance.percent(50) ? word + by : word - by, width);
}

// Zeros or ones in place of some bytes.
inline void fill(Chance &chance, Bytes &file)
{
  uint64_t at = chance.below(file.size()), many = chance.one_of({1, 4, 8, 16, 64, 2048});
  for (; many && at < file.size(); many--, at++) file[at] = chance.percent(50) ? 0 : -1;
}

// Damages a file in one way. `other` is a file whose end it may get.
inline void damage(Chance &chance, Bytes &file, int width, const Bytes &other)
{
  if (file.empty()) return;
  uint64_t how = chance.below(17), at = chance.below(file.size());
  if (how < 3) {
    uint64_t place = odd_place(chance, file, width);
    return set_word(file, place, odd_word(chance, file, width), width);
  }
  switch (how) {
  case 3: case 4: return shift_word(chance, file, width);
  case 5:
    for (uint64_t many = chance.one_of({1, 1, 2, 4, 16}); many; many--) {
      uint64_t place = chance.below(file.size());
      file[place] = chance.byte();
    }
    return;
  case 6: return file.resize(at);
  case 7: file += chance.percent(50) ? Bytes(chance.between(1, 3000), 0) : chance.bytes(chance.between(1, 300)); return;
  case 8: file = file.substr(0, at) + (other.size() > at ? other.substr(at) : Bytes()); return;
  case 9: file.erase(at, chance.one_of({1, 2, 4, 8, 16, 100})); return;
  case 10: file.insert(at, file.substr(at, chance.one_of({1, 4, 8, 16, 100}))); return;
  case 11: return fill(chance, file);
  case 12: return swap_pointers(chance, file, width);
  default: return damage_slot(chance, file, width);
  }
}

// A database of drawn records, now and then of the other width.
inline Bytes drawn_file(Chance &chance, int width, const std::vector<Bytes> &keys, bool is_damaged)
{
  Records records = drawn_records(chance, keys);
  if (chance.percent(1)) width = 12 - width;
  Bytes file = chance.percent(55) ? file_of(records, width) : foreign_file(chance, records, width);
  if (!is_damaged) return file;
  Bytes other = file_of(drawn_records(chance, keys), width);
  for (uint64_t many = chance.one_of({0, 1, 1, 1, 2, 2, 3, 6}); many; many--) damage(chance, file, width, other);
  return file;
}
