// The model of the commands that read databases, as man/cdb.1 has them.
#pragma once
#include <unordered_map>
#include <unordered_set>
#include "cases.h"
#include "damage.h"
#include "shown.h"
#include "texts.h"

// The bytes of a database, and its name as it is shown.
struct Database {
  Bytes bytes;
  std::string path;
};

// Opens the database of a name. A folder is not drawn here.
inline bool opens(const Case &it, const std::string &name, Ending &end, Database &database)
{
  database.path = shown(name);
  auto found = it.files.find(name);
  if (found == it.files.end()) return fails(it, end, 111, NOT_OPENED, database.path + NOT_THERE), false;
  database.bytes = found->second.bytes;
  return true;
}

// "Dump and list": every whole record before a damage, and a closing newline unless one is met or it is a map.
inline void dump(const Case &it, const Database &database, Ending &end)
{
  bool is_list = it.asked.command == 'l';
  Walk walk = walk_of(database.bytes, it.asked.width());
  for (const Lying &record : walk.records) {
    if (it.asked.map) end.output += is_list ? record.key + "\n" : record.key + " " + record.value + "\n";
    else end.output += is_list ? spelled_key(record.key) : spelled(record.key, record.value);
  }
  if (walk.damage) return fails(it, end, 111, line_of(walk.damage), database.path);
  if (!it.asked.map) end.output += "\n";
}

// "Check": status 100 with the first fault.
inline void check(const Case &it, const Database &database, Ending &end)
{
  Damage damage = first_fault(database.bytes, it.asked.width());
  if (damage) fails(it, end, 100, line_of(damage), database.path);
}

// "Statistics": none of a file with a table outside, or else a damaged walk.
inline void count(const Case &it, const Database &database, Ending &end)
{
  int width = it.asked.width();
  Damage damage = is_short(database.bytes, width) ? Damage{Found::Short} : damage_of_tables(database.bytes, width);
  Walk walk = walk_of(database.bytes, width);
  if (!damage) damage = walk.damage;
  if (damage) return fails(it, end, 111, line_of(damage), database.path);
  end.output = statistics_of(database.bytes, walk, width);
}

// The values of a key that are asked for: all, or the one with a number, which no later damage hides.
inline LookUp asked_of(const Case &it, const Bytes &file, const Bytes &key)
{
  LookUp found = look_up(file, key, it.asked.width());
  if (!it.asked.number) return found;
  if (found.values.size() < *it.asked.number) return {{}, found.damage};
  return {{found.values[*it.asked.number - 1]}, {}};
}

// "Query": status 100 if there is no such value.
inline void query(const Case &it, const Database &database, Ending &end)
{
  if (is_short(database.bytes, it.asked.width())) return fails(it, end, 111, line_of(Damage{Found::Short}), database.path);
  LookUp found = asked_of(it, database.bytes, it.asked.names[1]);
  for (const Bytes &value : found.values) end.output += value + (it.asked.map ? "\n" : "");
  if (found.damage) fails(it, end, 111, line_of(found.damage), database.path);
  else if (found.values.empty()) end.status = 100;
}

// "Query", -i: the keys of the inputs in turn. A key without a value makes the status 100 in the end; any
// other fault ends it, without a closing newline.
class ManyKeys {
  const Case &it;
  const Database &database;
  Ending &end;
  uint64_t read = 0;
  bool is_missing = false;

  bool writes(const Bytes &key)
  {
    LookUp found = asked_of(it, database.bytes, key);
    for (const Bytes &value : found.values) end.output += it.asked.map ? key + " " + value + "\n" : spelled(key, value);
    if (found.damage) return fails(it, end, 111, line_of(found.damage), database.path), false;
    is_missing = is_missing || found.values.empty();
    return true;
  }

  bool writes_input(size_t number, const std::string &input)
  {
    bool is_standard = input == "-";
    std::string path = is_standard ? STANDARD_INPUT : shown(input), which = "input " + std::to_string(number) + ": ";
    bool is_folder = is_standard ? it.input_is_folder : it.files.at(input).is_folder;
    if (is_folder) return fails(it, end, 111, which + "cannot be read", path + A_FOLDER), false;
    const Bytes &text = is_standard ? it.input : it.files.at(input).bytes;
    uint64_t begin = is_standard ? read : 0;
    Text keys = it.asked.map ? map_of(text, begin) : Lengths(text, begin, it.asked.width(), Form::Keys).all();
    for (const Item &item : keys.items)
      if (!writes(item.key)) return false;
    if (is_standard) read = keys.end;
    if (keys.fault == Fault::Nothing) return true;
    std::string line = std::to_string(1 + lines_in(text, 0, std::min<uint64_t>(keys.place, text.size())));
    std::string place = "byte " + std::to_string(keys.place - begin) + ": ";
    return fails(it, end, 111, which + place + line_of(keys.fault), path + ": line " + line), false;
  }

public:
  ManyKeys(const Case &it, const Database &database, Ending &end) : it(it), database(database), end(end) {}

  void run()
  {
    for (const std::string &input : it.asked.inputs())
      if (input != "-" && !it.files.count(input)) return fails(it, end, 111, NOT_OPENED, shown(input) + NOT_THERE);
    if (is_short(database.bytes, it.asked.width())) return fails(it, end, 111, line_of(Damage{Found::Short}), database.path);
    size_t number = 0;
    for (const std::string &input : it.asked.inputs())
      if (!writes_input(++number, input)) return;
    if (!it.asked.map) end.output += "\n";
    if (is_missing) end.status = 100;
  }
};

// "Difference": first the keys of the old database whose values are others in the new one are removed, then each
// such key of the new one is put with all its values, and removed just before if the old one lacks it.
class Difference {
  using Values = std::unordered_map<Bytes, std::vector<Bytes>>;
  const Case &it;
  Ending &end;
  Database of[2];
  std::vector<Lying> records[2];
  Values values[2];

  // The first fault of the two for which nothing is written.
  bool compares(int width)
  {
    auto fails_of = [this](int n, const std::string &line) {
      return fails(it, end, 111, (n ? "new database: " : "old database: ") + line, of[n].path), false;
    };
    for (int n = 0; n < 2; n++)
      if (!opens(it, it.asked.names[n], end, of[n])) return false;
    for (int n = 0; n < 2; n++)
      if (is_short(of[n].bytes, width)) return fails_of(n, line_of(Damage{Found::Short}));
    for (int n = 0; n < 2; n++)
      if (has_no_tables(of[n].bytes, width)) return fails_of(n, NO_TABLES);
    for (int n = 0; n < 2; n++)
      if (Damage damage = damage_of_tables(of[n].bytes, width)) return fails_of(n, line_of(damage));
    return true;
  }

  bool is_changed(const Bytes &key) const
  {
    auto old = values[0].find(key), now = values[1].find(key);
    return old == values[0].end() || now == values[1].end() || old->second != now->second;
  }

  // The keys that are changed, in the order of the first record of each.
  std::vector<Bytes> changed(int n) const
  {
    std::vector<Bytes> keys;
    std::unordered_set<Bytes> seen;
    for (const Lying &record : records[n])
      if (seen.insert(record.key).second && is_changed(record.key)) keys.push_back(record.key);
    return keys;
  }

public:
  Difference(const Case &it, Ending &end) : it(it), end(end) {}

  void run()
  {
    int width = it.asked.width();
    if (!compares(width)) return;
    for (int n = 0; n < 2; n++) {
      Walk walk = walk_of(of[n].bytes, width);
      // How much is written before a damage is left open.
      if (walk.damage) end.is_known = false;
      records[n] = walk.records;
      for (const Lying &record : walk.records) values[n][record.key].push_back(record.value);
    }
    for (const Bytes &key : changed(0)) end.output += spelled_removal(key);
    for (const Bytes &key : changed(1)) {
      if (!values[0].count(key) && !is_broken("a difference removes no new key")) end.output += spelled_removal(key);
      for (const Bytes &value : values[1].at(key)) end.output += spelled(key, value);
    }
    end.output += "\n";
  }
};

// The commands that read one database, which is standard input if none is named or a hyphen is; -q names a file.
inline void read_one(const Case &it, Ending &end)
{
  char command = it.asked.command;
  Database database{it.input, STANDARD_INPUT};
  bool is_standard = command != 'q' && (it.asked.names.empty() || it.asked.names[0] == "-");
  if (!is_standard && !opens(it, it.asked.names[0], end, database)) return;
  if (is_standard && it.input_is_folder) return fails(it, end, 111, "database cannot be read or written", STANDARD_INPUT + A_FOLDER);
  if (command == 'd' || command == 'l') dump(it, database, end);
  else if (command == 'k') check(it, database, end);
  else if (command == 's') count(it, database, end);
  else if (it.asked.many) ManyKeys(it, database, end).run();
  else query(it, database, end);
}
