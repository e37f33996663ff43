// The model of reading any bytes as a file: the walk, a look-up, the first fault, statistics. The rules are those
// of docs/FORMAT.md, whose sections the comments name, and the lines those of man/cdb.1, DIAGNOSTICS.
#pragma once
#include <algorithm>
#include <unordered_map>
#include <unordered_set>
#include "format.h"
#include "rules.h"

enum class Found { Nothing, Short, Table, Record, Slot, Twice, Unindexed };

// A damage, with the number or the place that its line has, and a slot.
struct Damage {
  Found found = Found::Nothing;
  uint64_t number = 0, slot = 0;
  explicit operator bool() const { return found != Found::Nothing; }
};

inline std::string line_of(Damage it)
{
  std::string number = std::to_string(it.number);
  switch (it.found) {
  case Found::Short: return "database shorter than its head";
  case Found::Table: return "table " + number + ": outside the file";
  case Found::Record: return "record at " + number + ": not whole";
  case Found::Slot: return "table " + number + ": slot " + std::to_string(it.slot) + ": wrong";
  case Found::Twice: return "record at " + number + ": in two slots";
  case Found::Unindexed: return "record at " + number + ": in no slot";
  default: return "";
  }
}

inline bool is_short(const Bytes &file, int width) { return file.size() < head_size(width); }

// Whether a table does not lie inside: after the head, and wholly in the file.
inline bool is_outside(const Bytes &file, Pointer it, int width)
{
  return it.table < head_size(width) || it.table > file.size() || it.slots > (file.size() - it.table) / (2 * width);
}

// The first table with slots that is outside.
inline Damage damage_of_tables(const Bytes &file, int width)
{
  for (uint64_t n = 0; n < TABLES; n++) {
    Pointer it = pointer_at(file, n, width);
    if (it.slots && is_outside(file, it, width)) return {Found::Table, n};
  }
  return {};
}

// Whether no table has slots, though bytes follow the head.
inline bool has_no_tables(const Bytes &file, int width)
{
  if (file.size() <= head_size(width)) return false;
  for (uint64_t n = 0; n < TABLES; n++)
    if (pointer_at(file, n, width).slots) return false;
  return true;
}

// How many slots the tables have that lie inside.
inline uint64_t slots_of(const Bytes &file, int width)
{
  uint64_t slots = 0;
  for (uint64_t n = 0; n < TABLES && !is_short(file, width); n++) {
    Pointer it = pointer_at(file, n, width);
    if (it.slots && !is_outside(file, it, width)) slots += it.slots;
  }
  return slots;
}

// A record where it lies.
struct Lying {
  uint64_t place;
  Bytes key, value;
};

// The record at a place, if it is whole before an end.
inline bool read_record(const Bytes &file, uint64_t place, uint64_t end, int width, Lying &it)
{
  if (place < head_size(width) || place > end || end - place < 2 * (uint64_t)width) return false;
  uint64_t key = word_at(file, place, width), value = word_at(file, place + width, width);
  uint64_t begin = place + 2 * width, room = end - begin;
  if (key > room || value > room - key) return false;
  it = {place, file.substr(begin, key), file.substr(begin + key, value)};
  return true;
}

// "The walk": the records before the record end, the least place of a table with slots, or the head's end if
// there is none.
struct Walk {
  std::vector<Lying> records;
  Damage damage;
};

inline Walk walk_of(const Bytes &file, int width)
{
  if (is_short(file, width)) return {{}, {Found::Short}};
  uint64_t end = head_size(width), first = TABLES;
  for (uint64_t n = 0; n < TABLES; n++) {
    Pointer it = pointer_at(file, n, width);
    if (!it.slots || (first < TABLES && it.table >= end)) continue;
    end = it.table;
    first = n;
  }
  if (end < head_size(width)) return {{}, {Found::Table, first}};
  Walk walk;
  Lying it;
  for (uint64_t place = head_size(width); place != end; place += 2 * width + it.key.size() + it.value.size()) {
    if (!read_record(file, place, std::min<uint64_t>(end, file.size()), width, it)) {
      walk.damage = {Found::Record, place};
      break;
    }
    walk.records.push_back(it);
  }
  return walk;
}

// "A look-up": the values of a key in the order of the slots of its search, until a slot is empty, all were seen,
// or a slot with the key's hash names no whole record.
struct LookUp {
  std::vector<Bytes> values;
  Damage damage;
};

inline LookUp look_up(const Bytes &file, const Bytes &key, int width)
{
  uint32_t hash = hash_of(key);
  Pointer pointer = pointer_at(file, hash % TABLES, width);
  if (!pointer.slots) return {};
  if (is_outside(file, pointer, width)) return {{}, {Found::Table, hash % TABLES}};
  LookUp found;
  uint64_t home = home_of(hash, pointer.slots);
  for (uint64_t seen = 0; seen < pointer.slots; seen++) {
    if (home + seen == pointer.slots && is_broken("a search ends at the last slot")) break;
    Slot slot = slot_at(file, pointer, (home + seen) % pointer.slots, width);
    if (!slot.place) break;
    if (slot.hash != hash) continue;
    Lying it;
    if (!read_record(file, slot.place, file.size(), width, it)) {
      found.damage = {Found::Record, slot.place};
      break;
    }
    if (it.key == key) found.values.push_back(it.value);
  }
  return found;
}

// "When a file is sound": whether a used slot reaches its record. It has the record's hash, is in the table of that
// hash, and no empty slot lies between its home and it.
inline bool is_reached(const Bytes &file, uint64_t table, uint64_t slot, uint32_t hash, int width)
{
  Pointer pointer = pointer_at(file, table, width);
  Slot it = slot_at(file, pointer, slot, width);
  if (it.hash != hash || hash % TABLES != table) return false;
  for (uint64_t at = home_of(hash, pointer.slots); at != slot; at = (at + 1) % pointer.slots)
    if (!slot_at(file, pointer, at, width).place) return false;
  return true;
}

// The first fault of a file: of its length, its tables, its walk, its slots, and of records without a slot.
inline Damage first_fault(const Bytes &file, int width)
{
  if (is_short(file, width)) return {Found::Short};
  if (Damage damage = damage_of_tables(file, width)) return damage;
  Walk walk = walk_of(file, width);
  if (walk.damage) return walk.damage;
  std::unordered_map<uint64_t, uint32_t> hashes;
  for (const Lying &it : walk.records) hashes[it.place] = hash_of(it.key);
  std::unordered_set<uint64_t> seen;
  for (uint64_t n = 0; n < TABLES; n++) {
    Pointer pointer = pointer_at(file, n, width);
    for (uint64_t slot = 0; slot < pointer.slots; slot++) {
      uint64_t place = slot_at(file, pointer, slot, width).place;
      if (!place) continue;
      auto record = hashes.find(place);
      if (record == hashes.end() || !is_reached(file, n, slot, record->second, width)) return {Found::Slot, n, slot};
      bool is_first = seen.insert(place).second;
      if (!is_first && !is_broken("a record may be in two slots")) return {Found::Twice, place};
    }
  }
  for (const Lying &it : walk.records)
    if (!seen.count(it.place)) return {Found::Unindexed, it.place};
  return {};
}

// The least, the average and the greatest of some numbers; 0 of none.
struct Spread {
  uint64_t least = 0, sum = 0, greatest = 0, many = 0;

  void add(uint64_t number)
  {
    least = many ? std::min(least, number) : number;
    greatest = std::max(greatest, number);
    sum += number;
    many++;
  }

  std::string line() const
  {
    std::string average = std::to_string(many ? sum / many : 0);
    return std::to_string(least) + "/" + average + "/" + std::to_string(greatest) + "\n";
  }
};

// "Statistics", as docs/TEXTS.md spells them: of a walk, and of the used slots of all tables.
inline std::string statistics_of(const Bytes &file, const Walk &walk, int width)
{
  const uint64_t FAR = 10;
  Spread keys, values, tables;
  uint64_t at_distance[FAR + 1] = {0}, used = 0;
  for (const Lying &it : walk.records) {
    keys.add(it.key.size());
    values.add(it.value.size());
  }
  for (uint64_t n = 0; n < TABLES; n++) {
    Pointer pointer = pointer_at(file, n, width);
    if (pointer.slots) tables.add(pointer.slots);
    for (uint64_t slot = 0; slot < pointer.slots; slot++) {
      Slot it = slot_at(file, pointer, slot, width);
      if (!it.place) continue;
      used++;
      uint64_t home = home_of(it.hash, pointer.slots);
      at_distance[std::min((slot + pointer.slots - home) % pointer.slots, FAR)]++;
    }
  }
  std::string said = "records: " + std::to_string(walk.records.size()) + "\n";
  said += "key lengths least/average/greatest: " + keys.line() + "value lengths least/average/greatest: " + values.line();
  said += "tables/entries/collisions: " + std::to_string(tables.many) + "/" + std::to_string(used) + "/" + std::to_string(used - at_distance[0]) + "\n";
  said += "table sizes least/average/greatest: " + tables.line();
  for (uint64_t n = 0; n <= FAR; n++) said += "distance " + std::to_string(n) + (n == FAR ? " or more" : "") + ": " + std::to_string(at_distance[n]) + "\n";
  return said;
}
