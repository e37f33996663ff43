// The model of a create, as man/cdb.1 has it under "Create".
#pragma once
#include <unordered_map>
#include "cases.h"
#include "damage.h"
#include "shown.h"
#include "texts.h"

class Create {
  const Case &it;
  const Asked &asked;
  Ending &end;
  const int width;
  const std::string name;
  std::string temporary;
  bool is_written, is_in_place;
  struct Kept {
    Record record;
    bool is_there;
  };
  std::vector<Kept> records;
  std::unordered_map<Bytes, std::vector<size_t>> of_key;
  // How much of standard input was read.
  uint64_t read = 0;

  bool fails(const std::string &line, const std::string &cause)
  {
    ::fails(it, end, 111, line, cause);
    return false;
  }

  bool is_folder(const std::string &path) const
  {
    auto found = it.files.find(path);
    return found != it.files.end() && found->second.is_folder;
  }

  // The base is opened and looked at first: it has a whole head, and tables if bytes follow that.
  bool takes_base()
  {
    if (!asked.base) return true;
    std::string path = shown(*asked.base);
    auto found = it.files.find(*asked.base);
    if (found == it.files.end()) return fails(NOT_OPENED, path + NOT_THERE);
    if (found->second.is_folder) return end.is_known = false;
    if (is_short(found->second.bytes, width)) return fails(line_of(Damage{Found::Short}), path);
    if (has_no_tables(found->second.bytes, width) && !is_broken("a base without tables is taken")) return fails("base database: " + NO_TABLES, path);
    return true;
  }

  // Then all inputs are opened, and then the file to build in is made, which must be none of them.
  bool takes_names()
  {
    for (const std::string &input : asked.inputs())
      if (input != "-" && !it.files.count(input)) return fails(NOT_OPENED, shown(input) + NOT_THERE);
    if (is_written) return true;
    if (is_folder(name)) return end.is_known = false;
    for (const std::string &input : asked.inputs())
      if (input == temporary) return fails(NOT_OPENED, shown(input) + ": is an input");
    if (is_folder(temporary)) return end.is_known = false;
    return true;
  }

  void add(const Bytes &key, const Bytes &value)
  {
    of_key[key].push_back(records.size());
    records.push_back({{key, value}, true});
  }

  void remove(const Bytes &key)
  {
    for (size_t n : of_key[key]) records[n].is_there = false;
    of_key.erase(key);
  }

  // All records of the base are put as they are.
  bool puts_base()
  {
    if (!asked.base) return true;
    Walk walk = walk_of(it.files.at(*asked.base).bytes, width);
    for (const Lying &record : walk.records) add(record.key, record.value);
    return !walk.damage || fails(line_of(walk.damage), shown(*asked.base));
  }

  // The lines of a record whose key was there before. Under -e it is the last.
  bool warns(size_t input, size_t record, const std::string &path, uint64_t line, const Bytes &key)
  {
    end.line("input " + std::to_string(input) + ": record " + std::to_string(record) + ": duplicate key");
    if (asked.verbose) end.line(path + ": line " + std::to_string(line) + ": key " + shown(key, 256));
    if (!asked.stops) return true;
    end.line("stopped at a duplicate key");
    end.status = 111;
    return false;
  }

  void put(const Item &item, bool was_there)
  {
    if (was_there && asked.mode == 'u' && !is_broken("a record beside an earlier one of its key is kept")) return;
    if (was_there && asked.mode == 'r' && !is_broken("a replacement keeps the earlier records")) remove(item.key);
    add(item.key, item.value);
  }

  // Puts what an input has. A second hyphen continues where the first stopped reading, and counts its lines on.
  bool puts_input(size_t number, const std::string &input)
  {
    bool is_standard = input == "-";
    std::string path = is_standard ? STANDARD_INPUT : shown(input), which = "input " + std::to_string(number) + ": ";
    if (is_standard ? it.input_is_folder : is_folder(input)) return fails(which + "cannot be read", path + A_FOLDER);
    const Bytes &text = is_standard ? it.input : it.files.at(input).bytes;
    uint64_t begin = is_standard ? read : 0, counted = is_broken("a second hyphen counts lines anew") ? begin : 0;
    Text has = asked.map ? map_of(text, begin) : Lengths(text, begin, width, asked.base ? Form::Amending : Form::Native).all();
    uint64_t line = 1;
    for (size_t n = 0; n < has.items.size(); n++) {
      const Item &item = has.items[n];
      line += lines_in(text, counted, item.begin);
      counted = item.begin;
      if (item.removes) {
        remove(item.key);
        continue;
      }
      bool was_there = of_key.count(item.key);
      if (was_there && asked.warns && !warns(number, n + 1, path, line, item.key)) return false;
      put(item, was_there);
    }
    if (is_standard) read = has.end;
    if (has.fault == Fault::Nothing) return true;
    // A length that is too large may be said to be so behind the text, if that rule is broken.
    line += lines_in(text, counted, std::min<uint64_t>(has.place, text.size()));
    std::string place = "byte " + std::to_string(has.place - begin) + ": ";
    return fails(which + place + line_of(has.fault), path + ": line " + std::to_string(line));
  }

  bool puts_all()
  {
    if (!puts_base()) return false;
    size_t number = 0;
    for (const std::string &input : asked.inputs())
      if (!puts_input(++number, input)) return false;
    return true;
  }

public:
  Create(const Case &it, Ending &end) : it(it), asked(it.asked), end(end), width(asked.width()), name(asked.names[0])
  {
    is_written = name == "-";
    is_in_place = asked.temporary == "-" || asked.temporary == name;
    temporary = is_in_place ? name : asked.temporary.value_or(name + ".tmp");
  }

  // What a create leaves that ends so. In place the file stays as it was left, else no temporary file does.
  void leaves(bool succeeds)
  {
    if (is_written) return;
    if (succeeds || !is_in_place) end.files.erase(temporary);
    if (!succeeds && is_in_place) end.open.insert(name);
  }

  void run()
  {
    if (!takes_base() || !takes_names()) return;
    bool succeeds = puts_all();
    leaves(succeeds);
    if (!succeeds) return;
    Records left;
    for (const Kept &kept : records)
      if (kept.is_there) left.push_back(kept.record);
    (is_written ? end.output : end.files[name].bytes) = file_of(left, width);
  }
};
