// Drawn cases: a command, its files, and its words in one of their spellings.
#pragma once
#include <functional>
#include "cases.h"
#include "draw_files.h"
#include "shown.h"

inline const std::vector<std::string> NAMES = {
  "in", "f1", "e \\n", "\xc3\xa9", "nl\nx", "\xe6\x97\xa5\xe6\x9c\xac", "tab\tb", "\xe2\x80\xae" "rtl", "'q\"", "a=b", "\x1b[1m",
  "\xc2\x9f" "c", "..x", "\xf0\x9f\x98\x80", "\xd8\x9c" "m", "l\xe2\x80\x8e", "\xf3\xa0\x81\x81" "t",
};

// The letters of a command line without a value, in any order, some of them twice.
inline std::string drawn_letters(Chance &chance, const Asked &asked)
{
  std::string letters(1, asked.command);
  if (asked.map) letters += 'm';
  if (asked.wide) letters += 'W';
  if (asked.verbose) letters += 'v';
  if (asked.many) letters += 'i';
  if (asked.mode != 'a') letters += asked.mode;
  if (asked.stops) letters += 'e';
  if (asked.warns && (!asked.stops || chance.percent(30))) letters += 'w';
  if (chance.percent(5)) letters += letters[chance.below(letters.size())];
  for (size_t left = letters.size(); left > 1; left--) std::swap(letters[left - 1], letters[chance.below(left)]);
  return letters;
}

// Words that stay together: an option, and its value.
using Group = std::vector<std::string>;

// The options: letters joined in words, the last letter of a word with a value in it or in the next.
inline std::vector<Group> drawn_options(Chance &chance, const Asked &asked)
{
  std::vector<Group> groups;
  std::string word;
  for (char letter : drawn_letters(chance, asked)) {
    if (word.empty()) word = "-";
    word += letter;
    if (!chance.percent(40)) continue;
    groups.push_back({word});
    word.clear();
  }
  auto with_value = [&](char letter, const std::string &value) {
    if (word.empty()) word = "-";
    word += letter;
    if (chance.percent(30) && value[0] != '=') groups.push_back({word + value});
    else groups.push_back({word, value});
    word.clear();
  };
  if (asked.number) with_value('n', (chance.percent(10) ? "00" : "") + std::to_string(*asked.number));
  if (asked.temporary) with_value('t', *asked.temporary);
  if (asked.base) with_value('b', *asked.base);
  if (!word.empty()) groups.push_back({word});
  chance.shuffle(groups);
  return groups;
}

// The words: options among the names, and the names that come after "--", as one with a hyphen first must.
inline std::vector<std::string> drawn_words(Chance &chance, const Asked &asked)
{
  std::vector<Group> options = drawn_options(chance, asked);
  const auto &names = asked.names;
  size_t hyphen = 0, taken = 0, option = 0;
  while (hyphen < names.size() && (names[hyphen].size() < 2 || names[hyphen][0] != '-')) hyphen++;
  size_t before = hyphen < names.size() || chance.percent(30) ? chance.below(hyphen + 1) : names.size();
  std::vector<std::string> words;
  for (size_t left = options.size() + before; left; left--) {
    if (chance.below(left) >= options.size() - option) words.push_back(names[taken++]);
    else {
      words.insert(words.end(), options[option].begin(), options[option].end());
      option++;
    }
  }
  if (taken < names.size() || chance.percent(10)) words.push_back("--");
  words.insert(words.end(), names.begin() + taken, names.end());
  return words;
}

// A key that a command line can have: UTF-8 without a zero byte.
inline Bytes key_of_line(Chance &chance, const std::vector<Bytes> &keys)
{
  for (int tries = 0; tries < 20; tries++) {
    const Bytes &key = chance.one_of(keys);
    if (key.find('\0') == Bytes::npos && is_utf8(key)) return key;
  }
  return "absent";
}

// What all cases of a drawing share.
struct Drawing {
  Chance &chance;
  Case &it;
  Asked &asked;
  std::vector<Bytes> keys;
  bool is_harmed;
  std::string database;
  int width;

  Drawing(Chance &chance, Case &it) : chance(chance), it(it), asked(it.asked)
  {
    asked.wide = chance.percent(35);
    asked.verbose = chance.percent(40);
    keys = drawn_keys(chance);
    is_harmed = chance.percent(60);
    database = chance.percent(85) ? "x" : chance.one_of(NAMES);
    width = asked.width();
    if (chance.percent(20)) it.input = chance.bytes(chance.below(40));
  }

  Bytes file(bool is_damaged) { return drawn_file(chance, width, keys, is_damaged); }
  void place(const std::string &name, const Bytes &bytes) { it.files[name] = {false, bytes}; }

  // Inputs of drawn texts, of which a few are not there or a folder. Standard input gets one for each hyphen.
  void inputs(uint64_t many, const std::function<Bytes()> &text)
  {
    uint64_t hyphens = 0, share = chance.one_of({20, 20, 80});
    for (uint64_t n = 0; n < many; n++) {
      uint64_t how = chance.below(100);
      std::string name = "-";
      if (chance.percent(share)) hyphens++;
      else if (how == 0) it.files[name = "folder"].is_folder = true;
      else if (how == 1) name = "absent";
      else if (how < 5 && it.files.count(database)) name = database;
      else {
        name = chance.percent(80) ? "in" + std::to_string(n) : chance.one_of(NAMES);
        if (name == database) name = "other";
        if (!it.files.count(name)) place(name, text());
      }
      asked.names.push_back(name);
    }
    if (many && !hyphens) return;
    it.input.clear();
    for (hyphens = std::max<uint64_t>(hyphens, 1); hyphens; hyphens--) it.input += text();
    it.input_is_folder = chance.percent(1);
  }

  void number(uint64_t percent)
  {
    if (chance.percent(percent)) asked.number = chance.one_of({1, 1, 2, 3, 7, 4294967295});
  }

  void base()
  {
    asked.base = chance.percent(40) ? database : "base";
    if (asked.base == "base" || !it.files.count(database) || chance.percent(80)) place(*asked.base, file(is_harmed && chance.percent(50)));
    if (chance.percent(2)) place(*asked.base, file_of(drawn_records(chance, keys), 12 - width));
    if (chance.percent(1)) asked.base = "absent";
  }

  void create()
  {
    it.kind = "create";
    asked.map = chance.percent(30);
    asked.mode = "aarrru"[chance.below(6)];
    asked.stops = chance.percent(8);
    asked.warns = asked.stops || chance.percent(35);
    asked.names = {chance.percent(15) ? "-" : database};
    if (chance.percent(60)) place(database, chance.percent(50) ? file(false) : chance.bytes(chance.below(300)));
    if (chance.percent(30)) place(database + ".tmp", chance.bytes(chance.below(300)));
    if (chance.percent(50)) base();
    if (chance.percent(30)) {
      std::string itself = asked.names[0] == "-" ? "new" : asked.names[0];
      asked.temporary = asked.base ? "new" : chance.one_of(std::vector<std::string>{"new", "new", "-", itself});
      if (chance.percent(30)) place("new", "old");
    }
    bool amends = asked.base || chance.percent(2);
    uint64_t many = chance.one_of({0, 1, 1, 1, 2, 2, 3, 5});
    inputs(chance.of_1000(5) ? 40 : many, [&] {
      return asked.map ? drawn_map(chance, keys) : drawn_native(chance, keys, amends, is_harmed && chance.percent(50));
    });
  }

  void query()
  {
    it.kind = "query";
    asked.map = chance.percent(40);
    number(40);
    place(database, file(is_harmed));
    asked.names = {chance.percent(98) ? database : "absent", key_of_line(chance, keys)};
  }

  void many_keys()
  {
    it.kind = "many keys";
    asked.many = true;
    asked.map = chance.percent(35);
    number(30);
    place(database, file(is_harmed && chance.percent(60)));
    asked.names = {chance.percent(99) ? database : "absent"};
    inputs(chance.one_of({0, 1, 1, 1, 2, 2, 3}), [&] { return drawn_list(chance, keys, asked.map, is_harmed); });
  }

  void read()
  {
    it.kind = std::string("-") + asked.command;
    asked.map = (asked.command == 'd' || asked.command == 'l') && chance.percent(40);
    Bytes bytes = file(is_harmed);
    // What a check alone sees lies in the slots of a file that is good but for them.
    if (asked.command == 'k' && chance.percent(30)) damage_slot(chance, bytes = file(false), width);
    if (chance.percent(70)) {
      place(database, bytes);
      asked.names = {chance.percent(99) ? database : "absent"};
      return;
    }
    it.input = bytes;
    if (chance.percent(50)) asked.names = {"-"};
    it.input_is_folder = chance.percent(1);
  }

  // Records with some put, removed, set, swapped, or all others.
  Records altered(Records records)
  {
    if (chance.percent(10)) return drawn_records(chance, keys);
    for (uint64_t many = chance.one_of({0, 1, 2, 5, 30}); many; many--) {
      uint64_t how = chance.below(5), size = records.size(), at = chance.below(size), other = chance.below(size);
      if (how == 0 || !size) records.insert(records.begin() + at, {chance.one_of(keys), drawn_value(chance)});
      else if (how == 1) records.erase(records.begin() + at);
      else if (how == 2) records[at].value = drawn_value(chance);
      else if (how == 3) std::swap(records[at], records[other]);
      else records.push_back({chance.one_of(keys), drawn_value(chance)});
    }
    return records;
  }

  void difference()
  {
    it.kind = "difference";
    Records old = drawn_records(chance, keys);
    place("old", file_of(old, width));
    place(database, file_of(altered(old), width));
    if (chance.percent(4)) {
      Bytes &bytes = it.files[chance.percent(50) ? "old" : database].bytes;
      bytes = chance.percent(50) ? file_of(old, 12 - width) : bytes.substr(0, chance.below(bytes.size() + 1));
    }
    asked.names = {"old", chance.percent(5) ? "old" : database};
    if (chance.percent(1)) asked.names[chance.below(2)] = "absent";
  }
};

// Tables may overlap, so a damaged file may have more slots than a case is to count.
const uint64_t MOST_SLOTS = 20000;

inline bool has_too_many_slots(const Case &it)
{
  bool has = slots_of(it.input, it.asked.width()) > MOST_SLOTS;
  for (const auto &[name, file] : it.files) has = has || slots_of(file.bytes, it.asked.width()) > MOST_SLOTS;
  return has;
}

inline Case drawn_case(Chance &chance)
{
  Case it;
  Drawing drawing(chance, it);
  uint64_t how = chance.below(100);
  it.asked.command = how < 45 ? 'c' : how < 67 ? 'q' : how < 92 ? "ddlskk"[chance.below(6)] : 'D';
  if (how < 45) drawing.create();
  else if (how < 57) drawing.query();
  else if (how < 67) drawing.many_keys();
  else if (how < 92) drawing.read();
  else drawing.difference();
  // A pipe takes so much without a reader.
  it.input_is_pipe = chance.below(3) == 0 && it.input.size() < 1000000;
  it.errors_are_full = chance.percent(2);
  if (!it.errors_are_full && chance.percent(3)) it.output = chance.percent(50) ? Output::Full : Output::Closed;
  it.words = drawn_words(chance, it.asked);
  return it;
}
